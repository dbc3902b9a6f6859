/* See ../../README.md: what the kit's C library has, declared as far as this repository uses it. */
#ifndef HOST_SYS_RANDOM_H
#define HOST_SYS_RANDOM_H

#include <stddef.h>

long getrandom(void *bytes, size_t n, unsigned flags);

#endif
