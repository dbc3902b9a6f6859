/* What cases are made of: a random source, values worth trying, and damage. */
#include "generator.h"

#include <stdio.h>
#include <string.h>

#include "packing.h"
#include "wrong.h"

struct source source_of(const char *label)
{
    struct source g;
    shake256_start(&g.stream);
    sponge_absorb(&g.stream, (const uint8_t *)label, strlen(label));
    shake256_finish(&g.stream);
    return g;
}

void source_bytes(struct source *g, uint8_t *out, size_t n)
{
    sponge_squeeze(&g->stream, out, n);
}

uint32_t source_word(struct source *g)
{
    uint8_t b[4];
    source_bytes(g, b, 4);
    return little_endian(b, 4);
}

uint32_t source_below(struct source *g, uint32_t end)
{
    return (uint32_t)((uint64_t)source_word(g) * end >> 32);
}

struct poly random_poly(struct source *g, const struct level *v)
{
    uint8_t bytes[POLYNOMIAL_MAX];
    size_t n = polynomial_bytes(v);
    source_bytes(g, bytes, n);
    bytes[n - 1] &= (uint8_t)((1u << v->r % 8) - 1);
    return poly_of_bytes(bytes, n);
}

/* So many distinct places among `places` from `start` on. */
static struct poly random_places(struct source *g, uint32_t start, uint32_t places, uint32_t weight)
{
    struct poly a = poly_zero();
    for (uint32_t n = 0; n < weight;) {
        uint32_t i = start + source_below(g, places);
        n += !poly_bit(&a, i);
        poly_set(&a, i);
    }
    return a;
}

struct poly random_poly_of_weight(struct source *g, const struct level *v, uint32_t weight)
{
    return random_places(g, 0, v->r, weight);
}

struct poly power_of_X(uint32_t i)
{
    return poly_of_positions(&i, 1);
}

struct poly all_ones(const struct level *v)
{
    struct poly a = poly_zero();
    for (uint32_t i = 0; i < v->r; i++)
        poly_set(&a, i);
    return a;
}

void digest_of_poly(const struct level *v, const struct poly *h, uint8_t *digest)
{
    uint8_t pub[POLYNOMIAL_MAX];
    poly_to_bytes(h, pub, polynomial_bytes(v));
    hash_D(v, pub, digest);
}

static struct key key_within(struct source *g, const struct level *v, uint32_t places)
{
    struct key key;
    struct poly pub;
    for (int half = 0; half < 2; half++) {
        struct poly h = random_places(g, source_below(g, v->r - places + 1), places, v->d);
        for (uint32_t i = 0, n = 0; i < v->r; i++)
            if (poly_bit(&h, i))
                key.h[half][n++] = i;
    }
    source_bytes(g, key.sigma, sizeof key.sigma);
    key_public(v, &key, &pub);
    digest_of_poly(v, &pub, key.digest);
    return key;
}

struct key random_key(struct source *g, const struct level *v)
{
    return key_within(g, v, v->r);
}

struct key close_key(struct source *g, const struct level *v)
{
    return key_within(g, v, 4 * v->d);
}

struct key window_key(struct source *g, const struct level *v)
{
    return key_within(g, v, v->number == 1 ? 2000 : v->number == 3 ? 3200 : 4000);
}

void message_replacing(struct source *g, const struct level *v, uint32_t replaced, uint8_t *m)
{
    struct poly e[2];
    do
        source_bytes(g, m, SHORT_BYTES);
    while (hash_H(v, m, e) != replaced);
}

void message_bound(struct source *g, const struct level *v, const uint8_t *digest, uint32_t replaced, uint8_t *m)
{
    struct poly e[2];
    do
        source_bytes(g, m, SHORT_BYTES);
    while (bound_H(v, m, digest, e) != replaced);
}

void message_miscounted(struct source *g, const struct level *v, int reading, uint8_t *m)
{
    struct poly e[2];
    uint32_t right, other;
    do {
        source_bytes(g, m, SHORT_BYTES);
        right = hash_H(v, m, e);
        ref_wrong = reading;
        other = hash_H(v, m, e);
        ref_wrong = W_NONE;
    } while (right == other);
}

void seed_repeating(struct source *g, const struct level *v, uint32_t again0, uint32_t again1, uint8_t *seed)
{
    struct drawn drawn[2];
    do {
        source_bytes(g, seed, SEED_BYTES);
        key_of_seed(v, seed, drawn);
    } while (drawn[0].again != again0 || drawn[1].again != again1);
}

void word_after(struct source *g, const struct level *v, bool is_listed, uint32_t words[], uint32_t n)
{
    uint32_t before = draw(v, words, n).listed;
    do
        words[n] = source_word(g);
    while ((draw(v, words, n + 1).listed > before) != is_listed);
}

void random_error(struct source *g, const struct level *v, uint32_t weight, struct poly e[2])
{
    e[0] = e[1] = poly_zero();
    for (uint32_t n = 0; n < weight;) {
        uint32_t i = source_below(g, 2 * v->r);
        n += !poly_bit(&e[i / v->r], i % v->r);
        poly_set(&e[i / v->r], i % v->r);
    }
}

void ciphertext_of(const struct level *v, const struct key *key, const struct poly *syndrome,
                   const struct poly e[2], const uint8_t *m, uint8_t *c)
{
    struct poly inverse, h0 = key_half(v, key, 0);
    poly_inverse(v->r, &h0, &inverse);
    struct poly c0 = poly_product(v->r, syndrome, &inverse);
    size_t n = polynomial_bytes(v);
    poly_to_bytes(&c0, c, n);
    hash_L(v, e, c + n);
    for (size_t i = 0; i < SHORT_BYTES; i++)
        c[n + i] ^= m[i];
}

static void start_case(struct test_case *c, uint32_t entry, uint32_t level)
{
    memset(c, 0, sizeof *c);
    c->entry = entry;
    c->level = level;
}

static void put_bytes(struct buffer *b, const uint8_t *bytes, size_t n)
{
    memcpy(b->bytes, bytes, n);
    b->n = n;
}

static void put_number(uint8_t *bytes, uint32_t number)
{
    for (int i = 0; i < 4; i++)
        bytes[i] = (uint8_t)(number >> 8 * i);
}

static void put_poly(struct buffer *b, const struct level *v, const struct poly *a)
{
    b->n = polynomial_bytes(v);
    poly_to_bytes(a, b->bytes, b->n);
}

static void put_key(struct buffer *b, const struct level *v, const struct key *key)
{
    b->n = private_key_bytes(v);
    key_to_bytes(v, key, b->bytes);
}

void case_hash(struct test_case *c, struct source *g, uint32_t entry, size_t message, size_t digest)
{
    start_case(c, entry, 0);
    c->in[0].n = message;
    source_bytes(g, c->in[0].bytes, message);
    c->out[0] = digest;
}

void case_product(struct test_case *c, const struct level *v, const struct poly *a, const struct poly *b)
{
    start_case(c, PRODUCT, v->number);
    put_poly(&c->in[0], v, a);
    put_poly(&c->in[1], v, b);
    c->out[0] = polynomial_bytes(v);
}

void case_inverse(struct test_case *c, const struct level *v, const struct poly *a)
{
    start_case(c, INVERSE, v->number);
    put_poly(&c->in[0], v, a);
    c->out[0] = polynomial_bytes(v);
}

void case_error_of(struct test_case *c, const struct level *v, const uint8_t *m)
{
    start_case(c, ERROR_OF, v->number);
    put_bytes(&c->in[0], m, SHORT_BYTES);
    c->out[0] = c->out[1] = polynomial_bytes(v);
}

void case_decode(struct test_case *c, const struct level *v, const struct key *key, const struct poly *syndrome)
{
    start_case(c, DECODE, v->number);
    put_key(&c->in[0], v, key);
    put_poly(&c->in[1], v, syndrome);
    c->out[0] = c->out[1] = polynomial_bytes(v);
}

void case_make_key(struct test_case *c, const struct level *v, const uint8_t *seed)
{
    start_case(c, MAKE_KEY, v->number);
    put_bytes(&c->in[0], seed, SEED_BYTES);
    c->out[0] = polynomial_bytes(v);
    c->out[1] = private_key_bytes(v);
}

void case_fair(struct test_case *c, const struct level *v, const uint32_t words[], uint32_t n)
{
    start_case(c, FAIR_POLYNOMIAL, v->number);
    for (uint32_t i = 0; i < n; i++)
        put_number(c->in[0].bytes + 4 * i, words[i]);
    c->in[0].n = 4 * n;
    c->out[0] = polynomial_bytes(v);
}

void case_wrap(struct test_case *c, const struct level *v, const struct poly *h, const uint8_t *m)
{
    start_case(c, WRAP, v->number);
    put_poly(&c->in[0], v, h);
    put_bytes(&c->in[1], m, SHORT_BYTES);
    c->out[0] = ciphertext_bytes(v);
    c->out[1] = SHORT_BYTES;
}

void case_open(struct test_case *c, const struct level *v, const struct key *key, const uint8_t *ciphertext)
{
    start_case(c, OPEN, v->number);
    put_key(&c->in[0], v, key);
    put_bytes(&c->in[1], ciphertext, ciphertext_bytes(v));
    c->out[0] = SHORT_BYTES;
}

void set_digest(struct test_case *c, const uint8_t *digest)
{
    const struct level *v = level_of(c->level);
    memcpy(c->in[0].bytes + private_key_bytes(v) - SHORT_BYTES, digest, SHORT_BYTES);
}

void case_pack_key(struct test_case *c, const struct level *v, const struct key *key)
{
    start_case(c, PACK_KEY, v->number);
    put_key(&c->in[0], v, key);
    c->out[0] = packed_key_bytes(v);
}

void case_unpack_key(struct test_case *c, const struct level *v, const struct key *key)
{
    start_case(c, UNPACK_KEY, v->number);
    c->in[0].n = packed_key_bytes(v);
    key_to_packed(v, key, c->in[0].bytes);
    c->out[0] = private_key_bytes(v);
}

void case_rotate_key(struct test_case *c, const struct level *v, const struct key *key, uint32_t k)
{
    start_case(c, ROTATE_KEY, v->number);
    c->given[0] = k;
    put_key(&c->in[0], v, key);
    c->out[0] = private_key_bytes(v);
}

void case_record(struct test_case *c, struct source *g, uint32_t body, uint32_t kind, size_t n)
{
    start_case(c, READ_RECORD, 0);
    uint8_t *bytes = c->in[0].bytes;
    put_number(bytes, body);
    bytes[4] = (uint8_t)kind;
    bytes[5] = (uint8_t)(kind >> 8);
    source_bytes(g, bytes + 6, n);
    c->in[0].n = 6 + n;
}

enum { MAP_BYTES = 256, MAP_RECORD_BYTES = 302 };

void case_write_map(struct test_case *c, struct source *g, const struct level *v, uint32_t kart, uint32_t counter)
{
    start_case(c, WRITE_MAP, v->number);
    c->given[0] = kart;
    c->given[1] = counter;
    c->in[0].n = SHORT_BYTES;
    source_bytes(g, c->in[0].bytes, SHORT_BYTES);
    c->in[1].n = MAP_BYTES;
    source_bytes(g, c->in[1].bytes, MAP_BYTES);
    c->out[0] = MAP_RECORD_BYTES;
}

void case_accept_map(struct test_case *c, struct source *g, const struct level *v, uint32_t kart, uint32_t counter,
                     uint32_t last)
{
    uint8_t map[MAP_BYTES];
    case_write_map(c, g, v, kart, counter);
    memcpy(map, c->in[1].bytes, MAP_BYTES);
    c->entry = ACCEPT_MAP;
    c->given[1] = last;
    c->out[0] = 0;
    c->in[1].n = MAP_RECORD_BYTES;
    ref_map_write(v->number, c->in[0].bytes, SHORT_BYTES, kart, counter, map, MAP_BYTES, c->in[1].bytes,
                  MAP_RECORD_BYTES);
    c->in[2].n = MAP_BYTES;
    source_bytes(g, c->in[2].bytes, MAP_BYTES);
}

size_t thing_bytes(const struct level *v, uint32_t thing)
{
    const size_t bytes[] = {0, SEED_BYTES, polynomial_bytes(v), private_key_bytes(v), ciphertext_bytes(v),
                            SHORT_BYTES, SHORT_BYTES};
    return bytes[thing];
}

/* Errors at so many of each half's own positions: h0·h0 has weight d only, so the counters gather about d / 2. */
static void own_error(struct source *g, const struct level *v, const struct key *key, uint32_t weight,
                      struct poly e[2])
{
    e[0] = e[1] = poly_zero();
    for (int half = 0; half < 2; half++) {
        struct poly chosen = random_places(g, 0, v->d, weight);
        for (uint32_t i = 0; i < v->d; i++)
            if (poly_bit(&chosen, i))
                poly_set(&e[half], key->h[half][i]);
    }
}

void case_decode_numbered(struct test_case *c, const struct level *v, enum error_kind kind, uint32_t weight,
                          uint32_t number)
{
    char label[64];
    snprintf(label, sizeof label, "decode %u %u %u %u", (unsigned)v->number, (unsigned)kind, (unsigned)weight,
             (unsigned)number);
    struct source g = source_of(label);
    struct key key = (kind == CLOSE_KEY ? close_key : kind == WINDOW_KEY ? window_key : random_key)(&g, v);
    struct poly e[2];
    if (kind == OWN_PATTERN)
        own_error(&g, v, &key, weight, e);
    else
        random_error(&g, v, weight, e);
    struct poly syndrome = syndrome_of(v, &key, e);
    if (kind == STRAY_BIT)
        poly_flip(&syndrome, source_below(&g, v->r));
    case_decode(c, v, &key, &syndrome);
}

void case_early_numbered(struct test_case *c, const struct level *v, enum error_kind kind, uint32_t weight,
                         uint32_t number)
{
    case_decode_numbered(c, v, kind, weight, number);
    c->entry = DECODE_EARLY;
}

struct poly random_public_key(struct source *g, const struct level *v)
{
    struct poly inverse, h0 = random_poly_of_weight(g, v, v->d), h1 = random_poly_of_weight(g, v, v->d);
    poly_inverse(v->r, &h0, &inverse);
    return poly_product(v->r, &h1, &inverse);
}

/* A place whose bit is `set`. */
static uint32_t random_place(struct source *g, const struct level *v, const struct poly *a, bool set)
{
    uint32_t place;
    do
        place = source_below(g, v->r);
    while (poly_bit(a, place) != set);
    return place;
}

static void move_bit(struct source *g, const struct level *v, struct poly *a)
{
    uint32_t from = random_place(g, v, a, true), to = random_place(g, v, a, false);
    poly_flip(a, from);
    poly_flip(a, to);
}

void opening_case(struct test_case *c, struct source *g, const struct level *v, const struct key *key,
                  enum opening how, uint32_t replaced)
{
    uint8_t m[SHORT_BYTES], ciphertext[POLYNOMIAL_MAX + SHORT_BYTES];
    struct poly e[2];
    message_bound(g, v, key->digest, replaced, m);
    bound_H(v, m, key->digest, e);
    if (how == OTHER_ERROR || how == LIGHT_ERROR)
        random_error(g, v, how == OTHER_ERROR ? v->t : 5, e);
    if (how == MOVED_E0 || how == MOVED_E1)
        move_bit(g, v, &e[how == MOVED_E1]);
    struct poly syndrome = how == NO_SYNDROME ? poly_zero() : syndrome_of(v, key, e);
    if (how == ANY_BYTES)
        syndrome = random_poly(g, v);
    if (how == STRAY)
        poly_flip(&syndrome, source_below(g, v->r));
    ciphertext_of(v, key, &syndrome, e, m, ciphertext);
    if (how == C0_BIT)
        ciphertext[source_below(g, (uint32_t)polynomial_bytes(v) - 1)] ^= 1;
    if (how == C1_BIT)
        ciphertext[ciphertext_bytes(v) - 1] ^= 0x80;
    case_open(c, v, key, ciphertext);
}

void case_open_numbered(struct test_case *c, const struct level *v, uint32_t number)
{
    char label[64];
    snprintf(label, sizeof label, "open %u %u", (unsigned)v->number, (unsigned)number);
    struct source g = source_of(label);
    struct key key = window_key(&g, v);
    opening_case(c, &g, v, &key, HONEST, 0);
}

/* Words enough for one polynomial. */
static void fair_case(struct test_case *c, struct source *g, const struct level *v)
{
    uint32_t words[2 * D_MAX];
    for (uint32_t i = 0; i < 2 * v->d; i++)
        words[i] = source_word(g);
    case_fair(c, v, words, 2 * v->d);
}

/* An ordinary case of an entry that takes a private key. */
static void key_case(struct test_case *c, struct source *g, uint32_t entry, const struct level *v)
{
    struct key key = random_key(g, v);
    switch (entry) {
    case PACK_KEY: case_pack_key(c, v, &key); break;
    case UNPACK_KEY: case_unpack_key(c, v, &key); break;
    case ROTATE_KEY: case_rotate_key(c, v, &key, source_below(g, v->r)); break;
    default: opening_case(c, g, v, &key, HONEST, 0); break;
    }
}

void ordinary_case(struct test_case *c, struct source *g, uint32_t entry, const struct level *v)
{
    uint8_t seed[SEED_BYTES];
    struct poly a = random_poly(g, v), b = random_poly(g, v), odd = random_poly_of_weight(g, v, v->d);
    source_bytes(g, seed, sizeof seed);
    switch (entry) {
    case PRODUCT: case_product(c, v, &a, &b); break;
    case INVERSE: case_inverse(c, v, &odd); break;
    case ERROR_OF: case_error_of(c, v, seed); break;
    case DECODE: case_decode_numbered(c, v, PLAIN, v->t, source_below(g, UINT32_MAX)); break;
    case DECODE_EARLY: case_early_numbered(c, v, PLAIN, v->t, source_below(g, UINT32_MAX)); break;
    case MAKE_KEY: case_make_key(c, v, seed); break;
    case FAIR_POLYNOMIAL: fair_case(c, g, v); break;
    case WRAP: case_wrap(c, v, &a, seed); break;
    default: key_case(c, g, entry, v); break;
    }
}

unsigned case_buffers(const struct test_case *c)
{
    return case_ins(c->entry) + case_outs(c->entry);
}

/* The length that the same buffer has at another level; where the level does not matter, another short one. */
static size_t other_length(uint32_t level, size_t n)
{
    const struct level *v = level_of(level), *other = level_of(level == 1 ? 3 : level == 3 ? 1 : 3);
    if (v != NULL && n == polynomial_bytes(v))
        return polynomial_bytes(other);
    if (v != NULL && n == ciphertext_bytes(v))
        return ciphertext_bytes(other);
    if (v != NULL && n == private_key_bytes(v))
        return private_key_bytes(other);
    if (v != NULL && n == packed_key_bytes(v))
        return packed_key_bytes(other);
    return n == 32 ? 64 : 32;
}

void damage_length(struct test_case *c, struct source *g, unsigned buffer, enum bad_length how)
{
    bool is_input = buffer < case_ins(c->entry);
    size_t *n = is_input ? &c->in[buffer].n : &c->out[buffer - case_ins(c->entry)];
    size_t old = *n, unit = is_input ? case_unit(c->entry) : 1;
    switch (how) {
    case EMPTY: *n = 0; break;
    case ONE_LESS: *n = old > 0 ? old - unit : unit; break;
    case ONE_MORE: *n = old + unit; break;
    default: *n = other_length(c->level, old); break;
    }
    if (is_input && *n > old)
        source_bytes(g, c->in[buffer].bytes + old, *n - old);
}

bool has_pad(const struct test_case *c, unsigned input)
{
    switch (c->entry) {
    case PRODUCT: return true;
    case INVERSE:
    case WRAP:
    case UNPACK_KEY: return input == 0;
    case DECODE:
    case DECODE_EARLY:
    case OPEN: return input == 1;
    default: return false;
    }
}

void damage_pad(struct test_case *c, unsigned input, uint32_t bits)
{
    const struct level *v = level_of(c->level);
    bool packed = c->entry == UNPACK_KEY;
    size_t last = (packed ? packed_key_bytes(v) : polynomial_bytes(v)) - 1;
    c->in[input].bytes[last] |= (uint8_t)(bits << (packed ? 8 - packed_pad_bits(v) : v->r % 8));
}

bool has_key(const struct test_case *c)
{
    return c->entry == DECODE || c->entry == DECODE_EARLY || c->entry == OPEN || c->entry == PACK_KEY
           || c->entry == UNPACK_KEY || c->entry == ROTATE_KEY;
}

void set_position(struct test_case *c, int half, uint32_t index, uint32_t position)
{
    const struct level *v = level_of(c->level);
    uint8_t *bytes = c->in[0].bytes;
    struct key key = (c->entry == UNPACK_KEY ? key_of_packed : key_of_bytes)(v, bytes);
    key.h[half][index] = position;
    (c->entry == UNPACK_KEY ? key_to_packed : key_to_bytes)(v, &key, bytes);
}

uint32_t get_position(const struct test_case *c, int half, uint32_t index)
{
    const struct level *v = level_of(c->level);
    struct key key = (c->entry == UNPACK_KEY ? key_of_packed : key_of_bytes)(v, c->in[0].bytes);
    return key.h[half][index];
}
