/* See ../README.md: what the kit's C library has, declared as far as this repository uses it. */
#ifndef HOST_STDLIB_H
#define HOST_STDLIB_H

#include <stddef.h>

void *malloc(size_t n);
void free(void *bytes);
char *getenv(const char *name);
unsigned long strtoul(const char *text, char **end, int base);
_Noreturn void exit(int status);

#endif
