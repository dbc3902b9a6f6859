/* See ../README.md: what the kit's C library has, declared as far as this repository uses it. */
#ifndef HOST_STRING_H
#define HOST_STRING_H

#include <stddef.h>

void *memcpy(void *to, const void *from, size_t n);
void *memset(void *bytes, int byte, size_t n);
int memcmp(const void *a, const void *b, size_t n);
int strcmp(const char *a, const char *b);
size_t strlen(const char *text);

#endif
