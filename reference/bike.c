/* The entries, with their refusals: the smallest number that applies, and zeros in every output. */
#include "bike.h"

#include <string.h>

#include "decoder.h"
#include "keccak.h"
#include "packing.h"
#include "ring.h"
#include "rotation.h"
#include "scheme.h"
#include "wrong.h"

enum form { POLYNOMIAL, CIPHERTEXT, PRIVATE_KEY, PACKED_KEY, SEED, REPORT, SHORT };

enum { KEY_NUMBERS = 4, REPORT_BYTES = 4 * KEY_NUMBERS };

/* A lent buffer; exactly one of in and out is used. */
struct lent {
    enum form form;
    const uint8_t *in;
    uint8_t *out;
    size_t n;
};

static struct lent input(enum form form, const uint8_t *in, size_t n)
{
    return (struct lent){form, in, NULL, n};
}

static struct lent output(enum form form, uint8_t *out, size_t n)
{
    return (struct lent){form, NULL, out, n};
}

static size_t bytes_of(const struct level *v, enum form form)
{
    switch (form) {
    case POLYNOMIAL: return polynomial_bytes(v);
    case CIPHERTEXT: return ciphertext_bytes(v);
    case PRIVATE_KEY: return private_key_bytes(v);
    case PACKED_KEY: return packed_key_bytes(v);
    case SEED: return SEED_BYTES;
    case REPORT: return REPORT_BYTES;
    default: return SHORT_BYTES;
    }
}

/* A private key as it was before D; only a wrong reading takes it. */
static bool old_key(const struct level *v, const struct lent *b)
{
    return wrong(W_OLD_LENGTHS) && b->form == PRIVATE_KEY && b->in != NULL
           && b->n == private_key_bytes(v) - digest_bytes();
}

static bool length_wrong(const struct level *v, const struct lent *b)
{
    if (old_key(v, b))
        return false;
    return wrong(W_AT_LEAST) ? b->n < bytes_of(v, b->form) : b->n != bytes_of(v, b->form);
}

/* The pad is in the last byte of a polynomial, of a ciphertext's c0 and of a packed key. */
static bool pad_set(const struct level *v, const struct lent *b)
{
    size_t last = polynomial_bytes(v) - 1;
    uint32_t own = wrong(W_PAD_FROM_3) ? 3 : wrong(W_PAD_FROM_5) ? 5 : v->r % 8;
    uint8_t pad = (uint8_t)(own == 0 ? 0 : 0xff << own);
    if (wrong(W_PAD_BIT_3))
        pad = (uint8_t)(1u << v->r % 8);
    if (b->in != NULL && b->form == PACKED_KEY)
        return b->n >= packed_key_bytes(v) && packed_pad_set(v, b->in);
    if (b->in == NULL || (b->form != POLYNOMIAL && b->form != CIPHERTEXT))
        return false;
    if (wrong(W_NO_C0_PAD) && b->form == CIPHERTEXT)
        return false;
    if (wrong(W_C1_PAD) && b->form == CIPHERTEXT)
        last = ciphertext_bytes(v) - 1;
    return b->n > last && (b->in[last] & pad) != 0;
}

/* A lent private key, with zeros where it ends too early. */
static struct key key_lent(const struct level *v, const struct lent *b)
{
    uint8_t bytes[PRIVATE_KEY_MAX] = {0};
    memcpy(bytes, b->in, b->n < private_key_bytes(v) ? b->n : private_key_bytes(v));
    return key_of_bytes(v, bytes);
}

static bool packed_key_bad(const struct level *v, const uint8_t *packed)
{
    struct key key = key_of_packed(v, packed);
    struct level judge = *v;
    if (wrong(W_UNPACK_LARGE))
        judge.r = 1u << position_bits(v);
    return !key_is_good(&judge, &key);
}

static bool key_bad(const struct level *v, const struct lent *b)
{
    if (b->in == NULL || (b->form != PRIVATE_KEY && b->form != PACKED_KEY))
        return false;
    if (b->n < bytes_of(v, b->form) && !old_key(v, b))
        return false;
    if (b->form == PACKED_KEY)
        return packed_key_bad(v, b->in);
    struct key key = key_lent(v, b);
    return !key_is_good(v, &key);
}

static bool any(bool (*bad)(const struct level *, const struct lent *), const struct level *v,
                const struct lent lent[], size_t n)
{
    for (size_t i = 0; i < n; i++)
        if (bad(v, &lent[i]))
            return true;
    return false;
}

/* The smallest of 1 to 4 that applies, or 0. */
static uint32_t refusal(const struct level *v, const struct lent lent[], size_t n)
{
    if (v == NULL)
        return 1;
    if (wrong(W_THREE_BEFORE_TWO) && any(pad_set, v, lent, n))
        return 3;
    if (any(length_wrong, v, lent, n))
        return 2;
    bool four_first = wrong(W_FOUR_BEFORE_THREE) || (wrong(W_UNPACK_FOUR_FIRST) && lent[0].form == PACKED_KEY);
    bool unchecked = wrong(W_PACK_UNCHECKED) && lent[n - 1].form == PACKED_KEY;
    if (four_first && any(key_bad, v, lent, n))
        return 4;
    if (any(pad_set, v, lent, n))
        return 3;
    if (!unchecked && any(key_bad, v, lent, n))
        return 4;
    return 0;
}

/* Whether a wrong reading leaves this output as it is. */
static bool left_alone(uint32_t answer, const struct level *v, const struct lent *b)
{
    return wrong(W_LEAVES_BYTES) || (wrong(W_LEVEL_LEAVES) && answer == 1)
           || (wrong(W_LENGTH_LEAVES) && answer == 2 && length_wrong(v, b))
           || (wrong(W_FAILURE_LEAVES) && answer == 6);
}

/* The answer; a refusal fills each output with zero. */
static uint32_t finish(uint32_t answer, const struct level *v, const struct lent lent[], size_t n)
{
    for (size_t i = 0; i < n; i++)
        if (answer != 0 && lent[i].out != NULL && !left_alone(answer, v, &lent[i]))
            for (size_t k = 0; k < lent[i].n; k++)
                lent[i].out[k] = 0;
    return answer;
}

/* An entry that reports no numbers: refusals 1 to 4, then its work, which gives the answer; zeros after a refusal. */
static uint32_t enter(uint32_t level, const struct lent lent[], size_t n,
                      uint32_t (*work)(const struct level *, const struct lent[]))
{
    const struct level *v = level_of(level);
    uint32_t answer = refusal(v, lent, n);
    if (answer == 0)
        answer = work(v, lent);
    return finish(answer, v, lent, n);
}

static struct poly poly_lent(const struct level *v, const struct lent *b)
{
    return poly_of_bytes(b->in, polynomial_bytes(v));
}

static void write_poly(const struct level *v, const struct poly *a, const struct lent *b)
{
    poly_to_bytes(a, b->out, polynomial_bytes(v));
}

uint32_t ref_shake256(const uint8_t *m, size_t mn, uint8_t *out, size_t on)
{
    struct sponge s;
    shake256_start(&s);
    sponge_absorb(&s, m, mn);
    shake256_finish(&s);
    sponge_squeeze(&s, out, on);
    return wrong(W_EMPTY_OUTPUT) && on == 0 ? 2 : 0;
}

uint32_t ref_sha3_384(const uint8_t *m, size_t mn, uint8_t *out, size_t on)
{
    const struct lent lent[] = {output(SHORT, out, on)};
    if (on != SHA3_384_BYTES && !(wrong(W_SHORT_DIGEST) && on < SHA3_384_BYTES))
        return finish(2, NULL, lent, 1);
    struct sponge s;
    sha3_384_start(&s);
    sponge_absorb(&s, m, mn);
    sha3_384_finish(&s);
    sponge_squeeze(&s, out, on);
    return 0;
}

static uint32_t multiply(const struct level *v, const struct lent lent[])
{
    struct poly a = poly_lent(v, &lent[0]), b = poly_lent(v, &lent[1]), product = poly_product(v->r, &a, &b);
    write_poly(v, &product, &lent[2]);
    return 0;
}

uint32_t ref_product(uint32_t level, const uint8_t *a, size_t an, const uint8_t *b, size_t bn,
                     uint8_t *out, size_t on)
{
    const struct lent lent[] = {input(POLYNOMIAL, a, an), input(POLYNOMIAL, b, bn), output(POLYNOMIAL, out, on)};
    return enter(level, lent, 3, multiply);
}

static uint32_t invert(const struct level *v, const struct lent lent[])
{
    struct poly inverse, a = poly_lent(v, &lent[0]);
    bool exists = poly_inverse(v->r, &a, &inverse);
    write_poly(v, &inverse, &lent[1]);
    return exists ? 0 : 5;
}

/* The price of the chain: a product for each binary digit of r - 2 below the highest, and one more for each that is 1. */
static uint32_t chain_products(uint32_t r)
{
    uint32_t products = (wrong(W_PRICE_CHECK) ? 1 : 0) + (wrong(W_PRICE_SQUARINGS) ? r - 2 : 0);
    for (uint32_t digits = r - 2; digits > (wrong(W_PRICE_FIRST_DIGIT) ? 0 : 1); digits /= 2)
        products += 1 + digits % 2;
    return products;
}

uint32_t ref_inverse(uint32_t level, const uint8_t *a, size_t an, uint8_t *out, size_t on, uint32_t *products)
{
    const struct lent lent[] = {input(POLYNOMIAL, a, an), output(POLYNOMIAL, out, on)};
    uint32_t answer = enter(level, lent, 2, invert);
    bool told = answer == 0 || (answer == 5 && !wrong(W_PRICE_0_AFTER_5)) || (answer == 3 && wrong(W_PRICE_AFTER_3));
    *products = told ? chain_products(level_of(level)->r) : 0;
    return answer;
}

/* Lent are e0 and e1. */
static void write_error(const struct level *v, const struct poly e[2], const struct lent lent[2])
{
    for (int half = 0; half < 2; half++)
        write_poly(v, &e[half], &lent[half]);
}

/* The numbers that an entry reports, after its answer. */
static void report_numbers(uint32_t answer, uint32_t numbers[], size_t n)
{
    for (size_t i = 0; i < n; i++)
        if (answer != 0 && !wrong(W_COUNTS_KEPT) && !(answer == 10 && wrong(W_TEN_COUNTS)))
            numbers[i] = 0;
}

uint32_t ref_error_of(uint32_t level, const uint8_t *m, size_t mn, uint8_t *e0, size_t e0n, uint8_t *e1, size_t e1n,
                      uint32_t *replaced)
{
    const struct level *v = level_of(level);
    const struct lent lent[] = {input(SHORT, m, mn), output(POLYNOMIAL, e0, e0n), output(POLYNOMIAL, e1, e1n)};
    uint32_t answer = refusal(v, lent, 3);
    struct poly e[2];
    uint8_t digest[SHA3_384_BYTES];
    if (wrong(W_H_BINDS) && mn == SHORT_BYTES) {
        ref_sha3_384(m, mn, digest, sizeof digest);
        m = digest;
    }
    *replaced = v != NULL && mn == SHORT_BYTES ? hash_H(v, m, e) : 0;
    if (answer == 0)
        write_error(v, e, &lent[1]);
    report_numbers(answer, replaced, 1);
    return finish(answer, v, lent, 3);
}

static uint32_t decode(const struct level *v, const struct lent lent[])
{
    struct key key = key_lent(v, &lent[0]);
    struct poly e[2], syndrome = poly_lent(v, &lent[1]);
    bool decoded = bgf(v, &key, &syndrome, e);
    write_error(v, e, &lent[2]);
    return decoded ? 0 : 6;
}

uint32_t ref_decode(uint32_t level, const uint8_t *key, size_t keyn, const uint8_t *s, size_t sn,
                    uint8_t *e0, size_t e0n, uint8_t *e1, size_t e1n)
{
    const struct lent lent[] = {input(PRIVATE_KEY, key, keyn), input(POLYNOMIAL, s, sn),
                                output(POLYNOMIAL, e0, e0n), output(POLYNOMIAL, e1, e1n)};
    return enter(level, lent, 4, decode);
}

uint32_t ref_decode_early(uint32_t level, const uint8_t *key, size_t keyn, const uint8_t *s, size_t sn,
                          uint8_t *e0, size_t e0n, uint8_t *e1, size_t e1n, uint32_t *rounds)
{
    const struct level *v = level_of(level);
    const struct lent lent[] = {input(PRIVATE_KEY, key, keyn), input(POLYNOMIAL, s, sn),
                                output(POLYNOMIAL, e0, e0n), output(POLYNOMIAL, e1, e1n)};
    uint32_t answer = refusal(v, lent, 4);
    *rounds = 0;
    if (answer == 0) {
        struct key secret = key_lent(v, &lent[0]);
        struct poly e[2], syndrome = poly_lent(v, &lent[1]);
        answer = bgf_early(v, &secret, &syndrome, e, rounds) ? 0 : 6;
        write_error(v, e, &lent[2]);
    }
    return finish(answer, v, lent, 4);
}

/* How many of n words a polynomial used, and how many of these it passed over. */
static void count_words(const struct drawn *drawn, size_t n, uint32_t numbers[2])
{
    bool exchanged = wrong(W_PASSED_FIRST);
    uint32_t large = wrong(W_LARGE_UNCOUNTED) ? 0 : drawn->large;
    uint32_t again = wrong(W_LISTED_UNCOUNTED) ? 0 : drawn->again;
    numbers[exchanged] = wrong(W_USED_ALL) ? (uint32_t)n : drawn->used;
    numbers[!exchanged] = large + again;
}

/* The numbers of the two halves, h0's first. */
static void count_halves(const struct drawn drawn[2], uint32_t numbers[KEY_NUMBERS])
{
    bool exchanged = wrong(W_COUNTS_EXCHANGED);
    for (int half = 0; half < 2; half++)
        count_words(&drawn[exchanged ? 1 - half : half], WORDS_MAX, numbers + 2 * half);
    for (int i = 0; i < 2 && wrong(W_COUNTS_ADDED); i++)
        numbers[i] = numbers[2 + i] = numbers[i] + numbers[2 + i];
}

/* Lent are the seed, the public key, the private key, and through the door the report. */
static uint32_t make_key(const struct level *v, const struct lent lent[], size_t n, uint32_t numbers[KEY_NUMBERS])
{
    uint32_t answer = refusal(v, lent, n);
    struct drawn drawn[2] = {{0}, {0}};
    struct key key;
    struct poly h;
    if (v != NULL && lent[0].n == SEED_BYTES)
        key = key_of_seed(v, lent[0].in, drawn);
    if (answer == 0 && (ran_out(v, &drawn[0]) || ran_out(v, &drawn[1])))
        answer = 10;
    if (answer == 0 && !key_public(v, &key, &h))
        answer = 5;
    if (answer == 0) {
        write_poly(v, &h, &lent[1]);
        hash_D(v, lent[1].out, key.digest);
        key_to_bytes(v, &key, lent[2].out);
    }
    count_halves(drawn, numbers);
    report_numbers(answer, numbers, KEY_NUMBERS);
    return finish(answer, v, lent, n);
}

uint32_t ref_make_key(uint32_t level, const uint8_t *seed, size_t seedn,
                      uint8_t *pub, size_t pubn, uint8_t *priv, size_t privn, uint32_t numbers[KEY_NUMBERS])
{
    const struct lent lent[] = {input(SEED, seed, seedn), output(POLYNOMIAL, pub, pubn),
                                output(PRIVATE_KEY, priv, privn)};
    return make_key(level_of(level), lent, 3, numbers);
}

uint32_t ref_make_key_door(uint32_t level, const uint8_t *seed, size_t seedn,
                           uint8_t *pub, size_t pubn, uint8_t *priv, size_t privn, uint8_t *report, size_t reportn)
{
    const struct lent lent[] = {input(SEED, seed, seedn), output(POLYNOMIAL, pub, pubn),
                                output(PRIVATE_KEY, priv, privn), output(REPORT, report, reportn)};
    uint32_t numbers[KEY_NUMBERS], answer = make_key(level_of(level), lent, 4, numbers);
    for (size_t i = 0; answer == 0 && i < REPORT_BYTES; i++)
        report[i] = (uint8_t)(numbers[i / 4] >> i % 4 * 8);
    return answer;
}

uint32_t ref_fair_polynomial(uint32_t level, const uint32_t *words, size_t n, uint8_t *out, size_t on,
                             uint32_t numbers[2])
{
    const struct level *v = level_of(level);
    const struct lent lent[] = {output(POLYNOMIAL, out, on)};
    uint32_t answer = refusal(v, lent, 1);
    struct drawn drawn = {0};
    if (v != NULL)
        drawn = draw(v, words, n);
    if (answer == 0 && n > WORDS_MAX && !wrong(W_ANY_WORDS))
        answer = 2;
    if ((answer == 0 || (answer == 2 && wrong(W_TEN_BEFORE_TWO))) && ran_out(v, &drawn))
        answer = 10;
    if (answer == 0) {
        struct poly a = poly_of_positions(drawn.list, v->d);
        write_poly(v, &a, &lent[0]);
    }
    count_words(&drawn, n, numbers);
    report_numbers(answer, numbers, 2);
    return finish(answer, v, lent, 1);
}

static void xor_short(uint8_t *out, const uint8_t *a, const uint8_t *b)
{
    for (size_t i = 0; i < SHORT_BYTES; i++)
        out[i] = a[i] ^ b[i];
}

/* (e0, e1) = H(f(m, h)); c0 = e0 + e1·h; c1 = m xor L(e0, e1) */
static uint32_t wrap_message(const struct level *v, const struct lent lent[])
{
    struct poly e[2], h = poly_lent(v, &lent[0]);
    const uint8_t *m = lent[1].in;
    uint8_t hidden[SHORT_BYTES], digest[DIGEST_MAX], f[SHORT_BYTES];
    if (wrong(W_ZERO_KEY_REFUSED) && poly_weight(&h) == 0)
        return 5;
    hash_D(v, lent[0].in, digest);
    hash_f(m, digest, f);
    hash_H(v, f, e);
    struct poly c0 = poly_product(v->r, &e[1], &h);
    c0 = poly_sum(&e[0], &c0);
    write_poly(v, &c0, &lent[2]);
    hash_L(v, e, hidden);
    xor_short(lent[2].out + polynomial_bytes(v), wrong(W_C1_HIDES_F) ? f : m, hidden);
    hash_K(v, wrong(W_K_OVER_F) ? f : m, lent[2].out, lent[3].out);
    return 0;
}

uint32_t ref_wrap(uint32_t level, const uint8_t *h, size_t hn, const uint8_t *m, size_t mn,
                  uint8_t *c, size_t cn, uint8_t *k, size_t kn)
{
    const struct lent lent[] = {input(POLYNOMIAL, h, hn), input(SHORT, m, mn), output(CIPHERTEXT, c, cn),
                                output(SHORT, k, kn)};
    return enter(level, lent, 4, wrap_message);
}

static bool same_error(const struct level *v, const struct poly e[2], const struct poly f[2])
{
    if (wrong(W_OPEN_UNCHECKED))
        return true;
    if (wrong(W_OPEN_WEIGHT))
        return poly_weight(&e[0]) + poly_weight(&e[1]) == v->t;
    bool same0 = poly_equal(&e[0], &f[0]) || wrong(W_OPEN_E1);
    bool same1 = poly_equal(&e[1], &f[1]) || wrong(W_OPEN_E0);
    return same0 && same1 && !wrong(W_OPEN_SIGMA);
}

/* What opening hands to H: f(m', h), with D as the private key has it. */
static void bound_message(const struct level *v, const struct key *key, const uint8_t *m, uint8_t *f)
{
    uint8_t pub[POLYNOMIAL_MAX], digest[DIGEST_MAX];
    struct poly h;
    memcpy(digest, key->digest, digest_bytes());
    if (wrong(W_OPEN_OWN_D) && key_public(v, key, &h)) {
        poly_to_bytes(&h, pub, polynomial_bytes(v));
        hash_D(v, pub, digest);
    }
    hash_f(m, digest, f);
    if (wrong(W_OPEN_UNBOUND))
        memcpy(f, m, SHORT_BYTES);
}

/* The key is K(m', c) if e' = H(f(m', h)), else K(sigma, c). */
static uint32_t open_ciphertext(const struct level *v, const struct lent lent[])
{
    struct key key = key_lent(v, &lent[0]);
    struct poly e[2], wanted[2], h0 = key_half(v, &key, 0), c0 = poly_lent(v, &lent[1]);
    uint8_t hidden[SHORT_BYTES], m[SHORT_BYTES], f[SHORT_BYTES];
    struct poly syndrome = poly_product(v->r, &h0, &c0);
    if (!bgf(v, &key, &syndrome, e) && !wrong(W_OPEN_KEEPS_E))
        e[0] = e[1] = poly_zero();
    hash_L(v, e, hidden);
    xor_short(m, lent[1].in + polynomial_bytes(v), hidden);
    bound_message(v, &key, m, f);
    hash_H(v, f, wanted);
    bool same = same_error(v, e, wanted);
    hash_K(v, !same ? key.sigma : wrong(W_K_OVER_F) ? f : m, lent[1].in, lent[2].out);
    return wrong(W_OPEN_TELLS) && !same ? 6 : 0;
}

uint32_t ref_open(uint32_t level, const uint8_t *key, size_t keyn, const uint8_t *c, size_t cn, uint8_t *k, size_t kn)
{
    const struct lent lent[] = {input(PRIVATE_KEY, key, keyn), input(CIPHERTEXT, c, cn), output(SHORT, k, kn)};
    return enter(level, lent, 3, open_ciphertext);
}

static uint32_t pack(const struct level *v, const struct lent lent[])
{
    struct key key = key_lent(v, &lent[0]);
    key_to_packed(v, &key, lent[1].out);
    return 0;
}

uint32_t ref_pack_key(uint32_t level, const uint8_t *key, size_t keyn, uint8_t *packed, size_t packedn)
{
    const struct lent lent[] = {input(PRIVATE_KEY, key, keyn), output(PACKED_KEY, packed, packedn)};
    return enter(level, lent, 2, pack);
}

static uint32_t unpack(const struct level *v, const struct lent lent[])
{
    struct key key = key_of_packed(v, lent[0].in);
    key_to_bytes(v, &key, lent[1].out);
    return 0;
}

uint32_t ref_unpack_key(uint32_t level, const uint8_t *packed, size_t packedn, uint8_t *key, size_t keyn)
{
    const struct lent lent[] = {input(PACKED_KEY, packed, packedn), output(PRIVATE_KEY, key, keyn)};
    return enter(level, lent, 2, unpack);
}

/* Whether k is refused with 15. */
static bool turn_too_far(const struct level *v, uint32_t k)
{
    return k >= v->r && !wrong(W_ROTATE_MODULO) && !(k == v->r && wrong(W_ROTATE_BY_R));
}

static void rotate(const struct level *v, uint32_t k, const struct lent lent[])
{
    struct key key = key_lent(v, &lent[0]), out = key_rotated(v, &key, k % v->r);
    struct poly h;
    if (wrong(W_ROTATE_OWN_D) && key_public(v, &out, &h)) {
        uint8_t pub[POLYNOMIAL_MAX];
        poly_to_bytes(&h, pub, polynomial_bytes(v));
        hash_D(v, pub, out.digest);
    }
    key_to_bytes(v, &out, lent[1].out);
}

uint32_t ref_rotate_key(uint32_t level, uint32_t k, const uint8_t *key, size_t keyn, uint8_t *rotated, size_t rotatedn)
{
    const struct level *v = level_of(level);
    const struct lent lent[] = {input(PRIVATE_KEY, key, keyn), output(PRIVATE_KEY, rotated, rotatedn)};
    uint32_t answer = refusal(v, lent, 2);
    if ((answer == 0 || (answer == 4 && wrong(W_ROTATE_15_FIRST))) && turn_too_far(v, k))
        answer = 15;
    if (answer == 0)
        rotate(v, k, lent);
    return finish(answer, v, lent, 2);
}
