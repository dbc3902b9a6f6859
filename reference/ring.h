/* The ring: polynomials over two elements with X^r = 1, for any r up to R_MAX. */
#ifndef REF_RING_H
#define REF_RING_H

#include <stdbool.h>
#include <stddef.h>
#include <stdint.h>

/* One bit more than R_MAX has room, for the modulus X^r + 1. */
enum { R_MAX = 40973, WORDS = R_MAX / 64 + 1 };

/* Coefficient i is bit i mod 64 of word i div 64; all bits from r on are 0. */
struct poly {
    uint64_t w[WORDS];
};

bool poly_bit(const struct poly *a, uint32_t i);
void poly_set(struct poly *a, uint32_t i);
void poly_flip(struct poly *a, uint32_t i);
bool poly_equal(const struct poly *a, const struct poly *b);
uint32_t poly_weight(const struct poly *a);
struct poly poly_zero(void);
struct poly poly_of_positions(const uint32_t positions[], uint32_t n);

struct poly poly_sum(const struct poly *a, const struct poly *b);
struct poly poly_product(uint32_t r, const struct poly *a, const struct poly *b);
/* False exactly if a has no inverse. */
bool poly_inverse(uint32_t r, const struct poly *a, struct poly *inverse);

struct poly poly_of_bytes(const uint8_t *bytes, size_t n);
void poly_to_bytes(const struct poly *a, uint8_t *bytes, size_t n);

#endif
