/* See ../README.md: what the kit's C library has, declared as far as this repository uses it. */
#ifndef HOST_STDINT_H
#define HOST_STDINT_H

typedef __UINT8_TYPE__ uint8_t;
typedef __INT32_TYPE__ int32_t;
typedef __UINT32_TYPE__ uint32_t;
typedef __UINT64_TYPE__ uint64_t;

#define UINT32_MAX __UINT32_MAX__

#endif
