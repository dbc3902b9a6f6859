/* Polynomials over two elements: the product by shift and exclusive or, the inverse by Euclid's algorithm. */
#include "ring.h"

#include <string.h>

#include "wrong.h"

bool poly_bit(const struct poly *a, uint32_t i)
{
    return a->w[i / 64] >> i % 64 & 1;
}

void poly_set(struct poly *a, uint32_t i)
{
    a->w[i / 64] |= (uint64_t)1 << i % 64;
}

void poly_flip(struct poly *a, uint32_t i)
{
    a->w[i / 64] ^= (uint64_t)1 << i % 64;
}

bool poly_equal(const struct poly *a, const struct poly *b)
{
    return memcmp(a->w, b->w, sizeof a->w) == 0;
}

uint32_t poly_weight(const struct poly *a)
{
    uint32_t weight = 0;
    for (uint32_t i = 0; i < 64 * WORDS; i++)
        weight += poly_bit(a, i);
    return weight;
}

struct poly poly_zero(void)
{
    return (struct poly){{0}};
}

struct poly poly_of_positions(const uint32_t positions[], uint32_t n)
{
    struct poly a = poly_zero();
    for (uint32_t i = 0; i < n; i++)
        poly_set(&a, positions[i]);
    return a;
}

struct poly poly_sum(const struct poly *a, const struct poly *b)
{
    struct poly sum;
    for (uint32_t i = 0; i < WORDS; i++)
        sum.w[i] = a->w[i] ^ b->w[i];
    return sum;
}

/* to += a · X^k, where `to` has room for a's n words moved up by k bits. */
static void add_shifted(uint64_t to[], const uint64_t a[], uint32_t n, uint32_t k)
{
    uint64_t *from = to + k / 64;
    uint32_t low = k % 64;
    for (uint32_t i = 0; i < n; i++)
        from[i] ^= a[i] << low;
    if (low != 0)
        for (uint32_t i = 0; i < n; i++)
            from[i + 1] ^= a[i] >> (64 - low);
}

/* The sum of b · X^i over the ones i of a, without reduction; then exponent k counts as k mod r. */
struct poly poly_product(uint32_t r, const struct poly *a, const struct poly *b)
{
    uint64_t whole[2 * WORDS + 1] = {0};
    for (uint32_t i = 0; i < r; i++)
        if (poly_bit(a, i))
            add_shifted(whole, b->w, r / 64 + 1, i);
    struct poly product = poly_zero();
    for (uint32_t k = 0; k < 2 * r; k++)
        if (whole[k / 64] >> k % 64 & 1)
            poly_flip(&product, k % r);
    return product;
}

/* One of the two lines of Euclid's algorithm: a · g = f modulo X^r + 1 holds all the time. */
struct line {
    uint64_t f[2 * WORDS], g[2 * WORDS];
    int32_t degree; /* of f; -1 for f = 0 */
};

static void find_degree(struct line *p)
{
    while (p->degree >= 0 && !(p->f[p->degree / 64] >> p->degree % 64 & 1))
        p->degree--;
}

/* Takes multiples of p from q until q's degree is below p's. */
static void reduce(struct line *q, const struct line *p, uint32_t words)
{
    while (q->degree >= p->degree) {
        uint32_t k = (uint32_t)(q->degree - p->degree);
        add_shifted(q->f, p->f, words, k);
        add_shifted(q->g, p->g, words, k);
        find_degree(q);
    }
}

/* Extended Euclid on a and X^r + 1. Each g's degree is at most r less the degree of the other line's f, so nothing
 * leaves the words. The last f but 0 is the greatest common divisor; a has an inverse exactly if it is 1. */
bool poly_inverse(uint32_t r, const struct poly *a, struct poly *inverse)
{
    struct line lines[2] = {{.degree = (int32_t)r}, {.degree = (int32_t)r}};
    struct line *p = &lines[0], *q = &lines[1];
    memcpy(p->f, a->w, sizeof a->w);
    p->g[0] = 1;
    find_degree(p);
    q->f[0] = 1;
    q->f[r / 64] ^= (uint64_t)1 << r % 64;
    while (p->degree > 0) {
        reduce(q, p, r / 64 + 1);
        struct line *lower = q;
        q = p;
        p = lower;
    }
    memcpy(inverse->w, p->g, sizeof inverse->w);
    if (wrong(W_ALL_ONES_INVERSE))
        return poly_weight(a) % 2 == 1;
    return p->degree == 0 || wrong(W_ALWAYS_INVERSE);
}

struct poly poly_of_bytes(const uint8_t *bytes, size_t n)
{
    struct poly a = poly_zero();
    for (size_t i = 0; i < n; i++)
        a.w[i / 8] |= (uint64_t)bytes[i] << i % 8 * 8;
    return a;
}

void poly_to_bytes(const struct poly *a, uint8_t *bytes, size_t n)
{
    for (size_t i = 0; i < n; i++)
        bytes[i] = (uint8_t)(a->w[i / 8] >> i % 8 * 8);
}
