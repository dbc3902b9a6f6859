/* The level table, the byte layouts, the two samplers and the hash functions H, L, K, D and f. */
#include "scheme.h"

#include <string.h>

#include "keccak.h"
#include "wrong.h"

static const struct level levels[] = {
    {1, 12323, 71, 134, 69722, 135300000, 10000000, 36, 0x3fff},
    {3, 24659, 103, 199, 52650, 152588000, 10000000, 52, 0x7fff},
    {5, 40973, 137, 264, 402312, 1587850000, 100000000, 69, 0xffff},
};

const struct level *level_of(uint32_t number)
{
    if (wrong(W_LEVEL_BYTE))
        number &= 0xff;
    if (wrong(W_NO_LEVEL_5) && number == 5)
        return NULL;
    for (size_t i = 0; i < sizeof levels / sizeof levels[0]; i++)
        if (levels[i].number == number)
            return &levels[i];
    return NULL;
}

size_t polynomial_bytes(const struct level *v)
{
    return (v->r + 7) / 8;
}

size_t ciphertext_bytes(const struct level *v)
{
    return polynomial_bytes(v) + SHORT_BYTES;
}

size_t private_key_bytes(const struct level *v)
{
    return 4 * v->d + SHORT_BYTES + digest_bytes();
}

size_t digest_bytes(void)
{
    return wrong(W_D_48) ? 48 : SHORT_BYTES;
}

uint32_t little_endian(const uint8_t *bytes, size_t n)
{
    uint32_t number = 0;
    for (size_t i = 0; i < n; i++)
        number |= (uint32_t)bytes[i] << 8 * i;
    return number;
}

/* Byte i of a position. */
static size_t position_byte(const struct level *v, int half, uint32_t index, uint32_t i)
{
    return 2 * (half * v->d + index) + (wrong(W_BIG_ENDIAN_KEY) ? 1 - i : i);
}

static size_t sigma_at(const struct level *v)
{
    return 4 * v->d + (wrong(W_D_BEFORE_SIGMA) ? digest_bytes() : 0);
}

static size_t digest_at(const struct level *v)
{
    return 4 * v->d + (wrong(W_D_BEFORE_SIGMA) ? 0 : SHORT_BYTES);
}

struct key key_of_bytes(const struct level *v, const uint8_t *bytes)
{
    struct key key;
    for (int half = 0; half < 2; half++)
        for (uint32_t index = 0; index < v->d; index++)
            key.h[half][index] = bytes[position_byte(v, half, index, 0)]
                                 + 256u * bytes[position_byte(v, half, index, 1)];
    memcpy(key.sigma, bytes + sigma_at(v), SHORT_BYTES);
    memcpy(key.digest, bytes + digest_at(v), digest_bytes());
    return key;
}

void key_to_bytes(const struct level *v, const struct key *key, uint8_t *bytes)
{
    for (int half = 0; half < 2; half++)
        for (uint32_t index = 0; index < v->d; index++)
            for (uint32_t i = 0; i < 2; i++)
                bytes[position_byte(v, half, index, i)] = (uint8_t)(key->h[half][index] >> 8 * i);
    memcpy(bytes + sigma_at(v), key->sigma, SHORT_BYTES);
    memcpy(bytes + digest_at(v), key->digest, digest_bytes());
}

static bool below(uint32_t p, uint32_t q)
{
    return wrong(W_NOT_STRICT) ? p <= q : p < q;
}

/* Positions below r, strictly rising inside each half. */
bool key_is_good(const struct level *v, const struct key *key)
{
    uint32_t end = wrong(W_POSITION_R) ? v->r + 1 : v->r;
    for (int half = 0; half < (wrong(W_FIRST_HALF) ? 1 : 2); half++)
        for (uint32_t i = 0; i < v->d; i++)
            if (key->h[half][i] >= end || (i > 0 && !below(key->h[half][i - 1], key->h[half][i])))
                return false;
    return !wrong(W_ACROSS_HALVES) || key->h[0][v->d - 1] < key->h[1][0];
}

struct poly key_half(const struct level *v, const struct key *key, int half)
{
    return poly_of_positions(key->h[half], v->d);
}

bool key_public(const struct level *v, const struct key *key, struct poly *h)
{
    struct poly over = key_half(v, key, wrong(W_H0_OVER_H1) ? 0 : 1);
    struct poly under = key_half(v, key, wrong(W_H0_OVER_H1) ? 1 : 0);
    struct poly inverse;
    if (!poly_inverse(v->r, &under, &inverse))
        return false;
    *h = poly_product(v->r, &over, &inverse);
    return true;
}

struct poly syndrome_of(const struct level *v, const struct key *key, const struct poly e[2])
{
    struct poly syndrome = poly_zero();
    for (int half = 0; half < 2; half++) {
        struct poly h = key_half(v, key, half);
        struct poly part = poly_product(v->r, &h, &e[half]);
        syndrome = poly_sum(&syndrome, &part);
    }
    return syndrome;
}

static bool listed(const uint32_t list[], uint32_t n, uint32_t pos)
{
    for (uint32_t i = 0; i < n; i++)
        if (list[i] == pos)
            return true;
    return false;
}

/* How many steps replaced a position that was drawn `again`; two wrong readings count otherwise. */
static uint32_t count_of(uint32_t wt, const uint32_t list[], const uint32_t again[], uint32_t replaced)
{
    uint32_t count = 0;
    if (!wrong(W_COUNT_EQUAL) && !wrong(W_COUNT_POSITIONS))
        return replaced;
    for (uint32_t n = 0; n < (wrong(W_COUNT_EQUAL) ? wt : replaced); n++)
        count += wrong(W_COUNT_EQUAL) ? list[n] == wt - 1 - n : !listed(again, n, again[n]);
    return count;
}

/* For i from wt - 1 down to 0: pos = i + floor((len - i)·s_i / 2^32), or i where pos is already listed. */
uint32_t sample(uint32_t len, uint32_t wt, const uint32_t s[], uint32_t list[])
{
    uint32_t replaced = 0, again[T_MAX];
    for (uint32_t n = 0; n < wt; n++) {
        uint32_t i = wrong(W_UPWARDS) ? n : wt - 1 - n;
        uint64_t word = s[wrong(W_S0_FIRST) ? n : i];
        uint32_t pos = i + (uint32_t)((len - i) * word >> 32);
        if (wrong(W_MODULO))
            pos = i + (uint32_t)(word % (len - i));
        if (listed(list, n, pos) && !wrong(W_NO_REPLACE)) {
            again[replaced++] = pos;
            pos = i;
        }
        list[n] = pos;
    }
    return count_of(wt, list, again, replaced);
}

/* The position of a word in the fair sampler. */
static uint32_t masked(const struct level *v, uint32_t word)
{
    if (wrong(W_NO_MASK))
        return word;
    if (wrong(W_MODULO_R))
        return word % v->r;
    if (wrong(W_MASK_OF_3) && v->number == 5)
        return word & level_of(3)->mask;
    return word & (wrong(W_WIDER_MASK) ? 2 * v->mask + 1 : v->mask);
}

/* Algorithm 1 of source 001: until d positions are listed, a word's position is listed if it is below r and new. */
struct drawn draw(const struct level *v, const uint32_t words[], size_t n)
{
    struct drawn drawn = {0};
    uint32_t end = wrong(W_R_TAKEN) ? v->r + 1 : v->r;
    while (drawn.used < n && drawn.listed < v->d) {
        uint32_t pos = masked(v, words[drawn.used++]);
        bool again = listed(drawn.list, drawn.listed, pos);
        if (again && wrong(W_DRAWN_REPLACED)) {
            pos = v->d - 1 - drawn.listed;
            again = false;
        }
        if (pos >= end)
            drawn.large++;
        else if (again)
            drawn.again++;
        else
            drawn.list[drawn.listed++] = pos;
    }
    return drawn;
}

bool ran_out(const struct level *v, const struct drawn *drawn)
{
    return drawn->listed < v->d;
}

static void start_stream(struct sponge *stream, const uint8_t *seed, size_t n)
{
    shake256_start(stream);
    sponge_absorb(stream, seed, n);
    shake256_finish(stream);
}

static void squeeze_words(struct sponge *stream, bool big_endian, uint32_t words[], uint32_t n)
{
    for (uint32_t i = 0; i < n; i++) {
        uint8_t b[4];
        sponge_squeeze(stream, b, 4);
        words[i] = little_endian(b, 4);
        if (big_endian)
            words[i] = words[i] >> 24 | (words[i] >> 8 & 0xff00) | (words[i] << 8 & 0xff0000) | words[i] << 24;
    }
}

static void sort(uint32_t list[], uint32_t n)
{
    for (uint32_t i = 1; i < n; i++)
        for (uint32_t k = i; k > 0 && list[k - 1] > list[k]; k--) {
            uint32_t higher = list[k - 1];
            list[k - 1] = list[k];
            list[k] = higher;
        }
}

/* The word at which h1 begins: the one after h0's last. */
static uint32_t h1_start(const struct drawn *h0)
{
    return wrong(W_H1_FROM_512) ? WORDS_MAX : wrong(W_H1_SAME_WORDS) ? 0 : h0->used;
}

struct key key_of_seed(const struct level *v, const uint8_t *seed, struct drawn drawn[2])
{
    struct key key;
    struct sponge stream;
    uint32_t words[2 * WORDS_MAX];
    start_stream(&stream, seed, wrong(W_WHOLE_SEED) ? SEED_BYTES : 32);
    squeeze_words(&stream, wrong(W_BIG_ENDIAN_DRAWN), words, 2 * WORDS_MAX);
    drawn[0] = draw(v, words, WORDS_MAX);
    drawn[1] = draw(v, words + h1_start(&drawn[0]), WORDS_MAX);
    for (int half = 0; half < 2; half++) {
        memcpy(key.h[half], drawn[half].list, sizeof key.h[half]);
        if (!wrong(W_UNSORTED))
            sort(key.h[half], v->d);
    }
    memcpy(key.sigma, wrong(W_SIGMA_FIRST) ? seed : seed + 32, SHORT_BYTES);
    return key;
}

uint32_t hash_H(const struct level *v, const uint8_t *m, struct poly e[2])
{
    uint32_t s[T_MAX], list[T_MAX];
    struct sponge stream;
    start_stream(&stream, m, SHORT_BYTES);
    squeeze_words(&stream, wrong(W_BIG_ENDIAN_WORDS), s, v->t);
    uint32_t replaced = sample(2 * v->r, v->t, s, list);
    e[0] = e[1] = poly_zero();
    for (uint32_t i = 0; i < v->t; i++) {
        bool first = list[i] < v->r;
        poly_set(&e[first == wrong(W_E_EXCHANGED)], first ? list[i] : list[i] - v->r);
    }
    return replaced;
}

/* The first n bytes of the digest; in a wrong reading its last. */
static void digest_part(struct sponge *s, bool last, uint8_t *out, size_t n)
{
    uint8_t digest[SHA3_384_BYTES];
    sha3_384_finish(s);
    sponge_squeeze(s, digest, sizeof digest);
    memcpy(out, last ? digest + sizeof digest - n : digest, n);
}

static void half_digest(struct sponge *s, uint8_t *out)
{
    digest_part(s, wrong(W_LAST_32), out, SHORT_BYTES);
}

/* A wrong reading of L: e1 begins at bit r, right behind e0. */
static void absorb_joined(const struct level *v, const struct poly e[2], struct sponge *s)
{
    uint8_t bytes[2 * ((R_MAX + 7) / 8)] = {0};
    for (uint32_t k = 0; k < 2 * v->r; k++)
        if (poly_bit(&e[k / v->r], k % v->r))
            bytes[k / 8] |= (uint8_t)(1u << k % 8);
    sponge_absorb(s, bytes, (2 * v->r + 7) / 8);
}

static void absorb_poly(const struct level *v, const struct poly *a, struct sponge *s)
{
    uint8_t bytes[(R_MAX + 7) / 8];
    poly_to_bytes(a, bytes, polynomial_bytes(v));
    sponge_absorb(s, bytes, polynomial_bytes(v) - wrong(W_L_TRUNCATED));
}

void hash_L(const struct level *v, const struct poly e[2], uint8_t *out)
{
    struct sponge s;
    sha3_384_start(&s);
    if (wrong(W_L_JOINED)) {
        absorb_joined(v, e, &s);
    } else {
        absorb_poly(v, &e[wrong(W_L_E1_FIRST)], &s);
        absorb_poly(v, &e[!wrong(W_L_E1_FIRST)], &s);
    }
    half_digest(&s, out);
}

void hash_K(const struct level *v, const uint8_t *m, const uint8_t *c, uint8_t *out)
{
    struct sponge s;
    sha3_384_start(&s);
    if (!wrong(W_K_C_FIRST))
        sponge_absorb(&s, m, SHORT_BYTES);
    sponge_absorb(&s, c, wrong(W_K_C0_ONLY) ? polynomial_bytes(v) : ciphertext_bytes(v));
    if (wrong(W_K_C_FIRST))
        sponge_absorb(&s, m, SHORT_BYTES);
    half_digest(&s, out);
}

void hash_D(const struct level *v, const uint8_t *pub, uint8_t *out)
{
    struct sponge s;
    sha3_384_start(&s);
    sponge_absorb(&s, pub, polynomial_bytes(v) - wrong(W_D_TRUNCATED));
    digest_part(&s, wrong(W_D_LAST_32), out, digest_bytes());
}

void hash_f(const uint8_t *m, const uint8_t *digest, uint8_t *out)
{
    struct sponge s;
    sha3_384_start(&s);
    if (!wrong(W_F_D_FIRST))
        sponge_absorb(&s, m, SHORT_BYTES);
    sponge_absorb(&s, digest, digest_bytes());
    if (wrong(W_F_D_FIRST))
        sponge_absorb(&s, m, SHORT_BYTES);
    digest_part(&s, wrong(W_D_LAST_32), out, SHORT_BYTES);
}

uint32_t bound_H(const struct level *v, const uint8_t *m, const uint8_t *digest, struct poly e[2])
{
    uint8_t f[SHORT_BYTES];
    hash_f(m, digest, f);
    return hash_H(v, f, e);
}
