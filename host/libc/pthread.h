/* See ../README.md: what the kit's C library has, declared as far as this repository uses it. */
#ifndef HOST_PTHREAD_H
#define HOST_PTHREAD_H

#include <stddef.h>

typedef unsigned long pthread_t;

typedef union {
    char bytes[56];
    long whole;
} pthread_attr_t;

int pthread_attr_init(pthread_attr_t *attributes);
int pthread_attr_setstack(pthread_attr_t *attributes, void *stack, size_t n);
int pthread_create(pthread_t *thread, const pthread_attr_t *attributes, void *(*start)(void *), void *argument);
int pthread_join(pthread_t thread, void **result);

#endif
