/* See ../README.md: what the kit's C library has, declared as far as this repository uses it. */
#ifndef HOST_STDDEF_H
#define HOST_STDDEF_H

#define NULL ((void *)0)

typedef __SIZE_TYPE__ size_t;

#endif
