/* Two requests to valgrind's memcheck, as its manual and its own header have them; without valgrind they do nothing. What
 * is marked as secret counts as uninitialised, and so does all that is worked out from it. */
#ifndef HOST_MEMCHECK_H
#define HOST_MEMCHECK_H

#include <stddef.h>
#include <stdint.h>

enum { MARK_UNDEFINED = 'M' << 24 | 'C' << 16 | 1, MARK_DEFINED = 'M' << 24 | 'C' << 16 | 2 };

/* Valgrind sees the five instructions, which leave all registers as they are, and reads the request where rax points. */
static inline void request(uint64_t code, const void *bytes, size_t n)
{
    const uint64_t words[6] = {code, (uint64_t)bytes, n};
    uint64_t result = 0;
    __asm__ volatile("rolq $3, %%rdi; rolq $13, %%rdi; rolq $61, %%rdi; rolq $51, %%rdi; xchgq %%rbx, %%rbx"
                     : "+d"(result)
                     : "a"(words)
                     : "cc", "memory");
}

static inline void mark_secret(const void *bytes, size_t n)
{
    request(MARK_UNDEFINED, bytes, n);
}

static inline void mark_public(const void *bytes, size_t n)
{
    request(MARK_DEFINED, bytes, n);
}

#endif
