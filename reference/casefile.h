/* Case files: a case drives one entry with buffers of any length.
 *
 * A case is the entry (1 byte), the level (4 bytes, little-endian, like all numbers), the numbers that are given, each
 * input buffer (its length, then its bytes) and each output buffer's length. It is answered by a line: ordinal, entry,
 * answer, each output, or the map that an acceptance keeps, in hex (- if empty) and the numbers that the entry reports.
 * The last line is `end N`. Of a fair polynomial the input is words, four bytes each, little-endian; a length that 4
 * does not divide makes a bad case. */
#ifndef REF_CASEFILE_H
#define REF_CASEFILE_H

#include <stdbool.h>
#include <stddef.h>
#include <stdint.h>
#include <stdio.h>

#include "bike.h"

enum { BUFFER_MAX = 16384, CASES_MAX = 65536, NUMBERS_MAX = 4 };

enum entry { SHAKE256 = 1, SHA3_384, PRODUCT, INVERSE, ERROR_OF, DECODE, MAKE_KEY, WRAP, OPEN, READ_RECORD,
             PACK_KEY, UNPACK_KEY, FAIR_POLYNOMIAL, WRITE_MAP, ACCEPT_MAP, DECODE_EARLY, ROTATE_KEY, ENTRIES };

struct buffer {
    size_t n;
    uint8_t bytes[BUFFER_MAX];
};

struct test_case {
    uint32_t entry, level;
    uint32_t given[2]; /* kart, and counter or last counter */
    struct buffer in[3];
    size_t out[2]; /* lengths */
};

struct result {
    uint32_t answer;
    struct buffer out[2]; /* of an acceptance: the map that it keeps */
    /* H: replaced positions; fair polynomial: words used, passed over; key making: those of h0, of h1;
     * record: level, thing, body length; acceptance: the counter that it keeps; decoding that stops early: rounds; inverse: products */
    uint32_t numbers[NUMBERS_MAX];
};

unsigned case_ins(uint32_t entry);
unsigned case_outs(uint32_t entry);
unsigned case_numbers(uint32_t entry);
/* The bytes that stand together in an input: 4 where it is words, else 1. */
size_t case_unit(uint32_t entry);

enum reading { CASE_READ, CASE_END, CASE_BAD };
enum reading case_read(FILE *file, struct test_case *c);
void case_write(FILE *file, const struct test_case *c);

/* Calls the entry, each output filled with a5 (hex) before. */
void case_run(const struct test_case *c, struct result *result);
bool case_same(const struct test_case *c, const struct result *a, const struct result *b);
void case_print(FILE *file, unsigned long ordinal, const struct test_case *c, const struct result *result);

/* For the programs: ends with status 2 and one line that says why. */
_Noreturn void refuse(const char *program, const char *why, const char *what);
/* A decimal number from an argument, refused if it is above `most`. */
unsigned long number_of(const char *program, const char *text, unsigned long most);

#endif
