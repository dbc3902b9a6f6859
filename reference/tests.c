/* The tests of the second program: the examples of document 01, published hash vectors, and consistency. */
#include <stdio.h>
#include <stdlib.h>
#include <string.h>

#include "bike.h"
#include "decoder.h"
#include "generator.h"
#include "keccak.h"
#include "kmac.h"
#include "packing.h"
#include "ring.h"
#include "scheme.h"

static const char program[] = "tests";

static unsigned long checks, failures;

static void check(bool holds, const char *what)
{
    checks++;
    if (!holds) {
        failures++;
        printf("FAILED: %s\n", what);
    }
}

/* A polynomial from its coefficients, bit i of `bits` for X^i. */
static struct poly small(uint64_t bits)
{
    struct poly a = poly_zero();
    a.w[0] = bits;
    return a;
}

static void check_product(uint32_t r, uint64_t a, uint64_t b, uint64_t expected, const char *what)
{
    struct poly pa = small(a), pb = small(b), pe = small(expected);
    struct poly product = poly_product(r, &pa, &pb);
    check(poly_equal(&product, &pe), what);
}

static void check_inverse(uint32_t r, uint64_t a, uint64_t expected, const char *what)
{
    struct poly inverse, pa = small(a), pe = small(expected);
    check(poly_inverse(r, &pa, &inverse) && poly_equal(&inverse, &pe), what);
}

static void check_no_inverse(uint32_t r, uint64_t a, const char *what)
{
    struct poly inverse, pa = small(a);
    check(!poly_inverse(r, &pa, &inverse), what);
}

static void check_sample(uint32_t s1, uint32_t s0, uint32_t first, uint32_t second, uint32_t replaced, const char *what)
{
    const uint32_t s[] = {s0, s1};
    uint32_t list[2];
    uint32_t count = sample(5, 2, s, list);
    check(list[0] == first && list[1] == second && count == replaced, what);
}

/* Source 001's Algorithm 1 with r = 5, d = 2 and a mask of three bits. */
static void drawn_examples(void)
{
    const struct level v = {.r = 5, .d = 2, .mask = 7};
    const uint32_t enough[] = {6, 3, 3, 1, 0}, few[] = {3, 11, 6};
    struct drawn drawn = draw(&v, enough, 5);
    check(!ran_out(&v, &drawn) && drawn.list[0] == 3 && drawn.list[1] == 1, "6, 3, 3, 1, 0 give 3, 1");
    check(drawn.used == 4 && drawn.large + drawn.again == 2, "4 words used, 2 of them passed over");
    drawn = draw(&v, few, 3);
    check(ran_out(&v, &drawn) && drawn.used == 3, "3, 11, 6 run out, 3 used");
}

static void check_threshold(uint32_t level, uint32_t S, uint32_t T, const char *what)
{
    check(threshold(level_of(level), S) == T, what);
}

static void proved_examples(void)
{
    const uint32_t h0[] = {0, 1, 3};
    struct poly residual = poly_of_positions(h0, 3);
    uint8_t count[7];
    check_product(5, 0x03, 0x07, 0x09, "P1");
    check_inverse(5, 0x07, 0x16, "P2");
    check_inverse(5, 0x02, 0x10, "P3");
    check_no_inverse(5, 0x03, "P4");
    check_no_inverse(5, 0x1f, "P4, all ones");
    check_sample(0, 0, 1, 0, 0, "P5");
    check_sample(UINT32_MAX, UINT32_MAX, 4, 0, 1, "P6");
    check_sample(1u << 31, 1u << 31, 3, 2, 0, "P7");
    check_sample(1u << 30, 1u << 31, 2, 0, 1, "P8");
    check_threshold(1, 3366, 36, "P9");
    check_threshold(1, 3367, 37, "P9");
    check_threshold(3, 7168, 52, "P10");
    check_threshold(3, 7169, 53, "P10");
    check_threshold(1, 12323, 99, "P11");
    check_threshold(5, 13452, 69, "S = 13452 gives 69 at Level 5");
    check_threshold(5, 13453, 70, "S = 13453 gives 70 at Level 5");
    check_threshold(5, 40973, 180, "S = r gives 180 at Level 5");
    count_all(7, 3, h0, &residual, count);
    check(count[0] == 3 && count[1] == 1 && count[2] == 1, "P12");
}

/* Whether a digest has these hex digits. */
static bool is_hex(const uint8_t *digest, size_t n, const char *hex)
{
    char pair[3];
    if (strlen(hex) != 2 * n)
        return false;
    for (size_t i = 0; i < n; i++) {
        snprintf(pair, sizeof pair, "%02x", digest[i]);
        if (memcmp(pair, hex + 2 * i, 2) != 0)
            return false;
    }
    return true;
}

static void known_digests(void)
{
    uint8_t out[64];
    ref_shake256(NULL, 0, out, 64);
    check(is_hex(out, 64, "46b9dd2b0ba88d13233b3feb743eeb243fcd52ea62b81b82b50c27646ed5762f"
                          "d75dc4ddd8c0f200cb05019d67b592f6fc821c49479ab48640292eacb3b7c4be"),
          "SHAKE256 of the empty message");
    ref_sha3_384(NULL, 0, out, 48);
    check(is_hex(out, 48, "0c63a75b845e4f7d01107d852e4c2485c51a50aaaa94fc61995e71bbee983a2a"
                          "c3713831264adb47fb6bd1e058d5f004"),
          "SHA3-384 of the empty message");
    ref_sha3_384((const uint8_t *)"abc", 3, out, 48);
    check(is_hex(out, 48, "ec01498288516fc926459f58e2c6ad8df9b473cb0fc08c2596da7cf0e49be4b2"
                          "98d88cea927ac7f539f1edf228376d25"),
          "SHA3-384 of abc");
}

/* Level 1, session key 00..1f, kart 1, counter 2, a map of zeros; worked out with OpenSSL. */
static void known_tag(void)
{
    static const uint8_t map[256];
    uint8_t key[SHORT_BYTES], record[302];
    for (int i = 0; i < SHORT_BYTES; i++)
        key[i] = (uint8_t)i;
    check(ref_map_write(1, key, sizeof key, 1, 2, map, sizeof map, record, sizeof record) == 0, "map written");
    check(is_hex(record, 14, "2801000007010100000002000000"), "a map record's head");
    check(is_hex(record + 270, 32, "00736908d7d7e63216c80f10770dbe297e3264bd5cdc65a04e64379e86a15589"),
          "a map record's tag");
}

static FILE *open_file(const char *path)
{
    FILE *file = fopen(path, "rb");
    if (file == NULL)
        refuse(program, "cannot read ", path);
    return file;
}

static uint8_t *room(size_t n)
{
    uint8_t *bytes = malloc(n + 1);
    if (bytes == NULL)
        refuse(program, "out of memory", "");
    return bytes;
}

enum { HEAD_BYTES = 9, KEYED_HEAD_BYTES = 17 };

/* A vector's function (1 SHAKE256, 2 SHA3-384, 3 KMAC256), lengths of message and digest, and with KMAC256 of key and
 * customization; `all` is what follows: key, customization, message. */
static bool vector_digest(const uint8_t *head, const uint8_t *all, uint8_t *digest, size_t n)
{
    size_t mn = little_endian(head + 1, 4), kn = little_endian(head + 9, 4), cn = little_endian(head + 13, 4);
    if (head[0] == 1)
        return ref_shake256(all, mn, digest, n) == 0;
    if (head[0] == 2)
        return ref_sha3_384(all, mn, digest, n) == 0;
    kmac256(all, kn, all + kn, cn, all + kn + cn, mn, digest, n);
    return head[0] == 3;
}

/* One vector, and its digest as a hex line. */
static bool next_vector(FILE *vectors, FILE *digests)
{
    uint8_t head[KEYED_HEAD_BYTES] = {0};
    size_t got = fread(head, 1, HEAD_BYTES, vectors);
    if (got == 0)
        return false;
    bool whole = got == HEAD_BYTES
                 && (head[0] != 3 || fread(head + got, 1, KEYED_HEAD_BYTES - got, vectors) == KEYED_HEAD_BYTES - got);
    size_t n = little_endian(head + 1, 4) + little_endian(head + 9, 4) + little_endian(head + 13, 4);
    size_t dn = little_endian(head + 5, 4);
    uint8_t *all = room(n), *digest = room(dn);
    char *line = (char *)room(2 * dn + 2);
    whole = whole && fread(all, 1, n, vectors) == n && fgets(line, (int)(2 * dn + 2), digests) != NULL;
    line[whole ? strcspn(line, "\n") : 0] = '\0';
    check(whole && vector_digest(head, all, digest, dn) && is_hex(digest, dn, line), "published vector");
    free(all);
    free(digest);
    free(line);
    return whole;
}

static void published_vectors(const char *vectors_path, const char *digests_path)
{
    unsigned long before = checks;
    FILE *vectors = open_file(vectors_path), *digests = open_file(digests_path);
    while (next_vector(vectors, digests))
        ;
    check(getc(digests) == EOF, "as many digests as vectors");
    printf("published vectors: %lu\n", checks - before - 1);
    fclose(vectors);
    fclose(digests);
}

static bool all_zero(const uint8_t *bytes, size_t n)
{
    for (size_t i = 0; i < n; i++)
        if (bytes[i] != 0)
            return false;
    return true;
}

static void check_answer(const struct test_case *c, uint32_t answer, bool zero, const char *what)
{
    static struct result result;
    bool zeros = true;
    case_run(c, &result);
    for (unsigned i = 0; i < case_outs(c->entry); i++)
        zeros = zeros && all_zero(result.out[i].bytes, c->out[i]);
    check(result.answer == answer && zeros == zero, what);
}

static void run_examples(void)
{
    static struct test_case c;
    const struct level *v = level_of(1);
    struct source g = source_of("run examples");
    struct key key = random_key(&g, v);
    struct poly zero = poly_zero(), a = small(1);
    case_product(&c, v, &a, &a);
    c.in[0].bytes[1540] = 7;
    check_answer(&c, 0, false, "last byte 7 of a polynomial accepted");
    c.in[0].bytes[1540] = 8;
    check_answer(&c, 3, true, "last byte 8 of a polynomial refused with 3");
    case_decode(&c, v, &key, &zero);
    check_answer(&c, 0, true, "syndrome 0 decodes to error 0");
    set_position(&c, 1, 70, 12322);
    check_answer(&c, 0, true, "position 12322 accepted");
    set_position(&c, 1, 70, 12323);
    check_answer(&c, 4, true, "position 12323 refused with 4");
    damage_pad(&c, 1, 1);
    check_answer(&c, 3, true, "bad pad and bad key at once give 3");
    case_decode(&c, v, &key, &zero);
    set_position(&c, 0, 1, get_position(&c, 0, 0));
    check_answer(&c, 4, true, "equal neighbours refused with 4");
}

/* Bytes 20 00 00 00 05 01, 32 zero bytes, then 20 00. */
static void record_example(void)
{
    const uint8_t input[40] = {0x20, 0, 0, 0, 5, 1, [38] = 0x20};
    struct ref_record record;
    check(ref_read_record(input, 40, &record) == 0 && record.level == 1 && record.thing == 5 && record.body == 32,
          "listed record 1");
    check(ref_read_record(input + 38, 2, &record) == 7 && record.level == 0 && record.thing == 0 && record.body == 0,
          "listed record 2");
}

static void ring_laws(const struct level *v)
{
    struct source g = source_of("ring laws");
    struct poly inverse, one = small(1), ones = all_ones(v);
    struct poly a = random_poly_of_weight(&g, v, v->r / 2 | 1), b = random_poly(&g, v), c = random_poly(&g, v);
    struct poly ab = poly_product(v->r, &a, &b), ba = poly_product(v->r, &b, &a);
    check(poly_equal(&ab, &ba), "ab = ba");
    struct poly bc = poly_product(v->r, &b, &c);
    struct poly left = poly_product(v->r, &ab, &c), right = poly_product(v->r, &a, &bc);
    check(poly_equal(&left, &right), "(ab)c = a(bc)");
    check(poly_inverse(v->r, &a, &inverse), "odd weight has an inverse");
    struct poly product = poly_product(v->r, &a, &inverse);
    check(poly_equal(&product, &one), "a / a = 1");
    poly_flip(&a, 0);
    check(!poly_inverse(v->r, &a, &inverse), "even weight has no inverse");
    check(!poly_inverse(v->r, &ones, &inverse), "all ones has no inverse");
}

/* Document 02's lengths, and that a packed key unpacks to the same key. */
static void packed_keys(uint32_t level, size_t bytes, uint32_t pad)
{
    const struct level *v = level_of(level);
    struct source g = source_of("packed keys");
    struct key key = random_key(&g, v);
    uint8_t priv[PRIVATE_KEY_MAX], back[PRIVATE_KEY_MAX], packed[PRIVATE_KEY_MAX];
    size_t privn = private_key_bytes(v);
    check(packed_key_bytes(v) == bytes && packed_pad_bits(v) == pad, "packed length and pad bits");
    key_to_bytes(v, &key, priv);
    check(ref_pack_key(level, priv, privn, packed, bytes) == 0, "key packed");
    check(ref_unpack_key(level, packed, bytes, back, privn) == 0, "key unpacked");
    check(memcmp(priv, back, privn) == 0, "unpacking gives the key that was packed");
}

/* A key is made, a message wrapped and opened; a damaged ciphertext gives another key and the same answer. */
static void round_trip(const struct level *v, unsigned number)
{
    char label[32];
    uint8_t seed[SEED_BYTES], m[SHORT_BYTES], k[SHORT_BYTES], opened[SHORT_BYTES];
    uint8_t pub[POLYNOMIAL_MAX], priv[PRIVATE_KEY_MAX], c[POLYNOMIAL_MAX + SHORT_BYTES];
    size_t pubn = polynomial_bytes(v), privn = private_key_bytes(v), cn = ciphertext_bytes(v);
    uint32_t numbers[4];
    snprintf(label, sizeof label, "round trip %u", number);
    struct source g = source_of(label);
    source_bytes(&g, seed, sizeof seed);
    source_bytes(&g, m, sizeof m);
    check(ref_make_key(v->number, seed, sizeof seed, pub, pubn, priv, privn, numbers) == 0, "key made");
    check(ref_wrap(v->number, pub, pubn, m, sizeof m, c, cn, k, sizeof k) == 0, "message wrapped");
    check(ref_open(v->number, priv, privn, c, cn, opened, sizeof opened) == 0, "ciphertext opened");
    check(memcmp(k, opened, sizeof k) == 0, "opening gives wrapping's key");
    c[source_below(&g, (uint32_t)cn - 1 - SHORT_BYTES)] ^= 1;
    check(ref_open(v->number, priv, privn, c, cn, opened, sizeof opened) == 0, "damaged ciphertext opened");
    check(memcmp(k, opened, sizeof k) != 0, "a damaged ciphertext gives another key");
}

/* Stopping early gives what the full decoder gives, near the weight where decoding fails; `rounds` is within five. */
static void early_is_full(const struct level *v, uint32_t number)
{
    static struct test_case c;
    static struct result full, early;
    case_decode_numbered(&c, v, PLAIN, v->t + (v->number == 5 ? 2 * number : number), number);
    case_run(&c, &full);
    c.entry = DECODE_EARLY;
    case_run(&c, &early);
    bool same = full.answer == early.answer;
    for (int half = 0; half < 2; half++)
        same = same && memcmp(full.out[half].bytes, early.out[half].bytes, full.out[half].n) == 0;
    check(same, "stopping early gives the full decoder's answer and error");
    check(early.numbers[0] <= 5 && (early.answer == 0 || early.numbers[0] == 5), "at most 5 rounds, and 5 with 6");
}

/* The private key of a case, rotated by k in its place. */
static void rotate_in(struct test_case *c, uint32_t k)
{
    static struct test_case rotation;
    static struct result rotated;
    const struct level *v = level_of(c->level);
    struct key key = key_of_bytes(v, c->in[0].bytes);
    case_rotate_key(&rotation, v, &key, k);
    case_run(&rotation, &rotated);
    memcpy(c->in[0].bytes, rotated.out[0].bytes, rotated.out[0].n);
}

/* Two rotations are one by their sum; the public key stays, and a ciphertext, damaged or not, opens to the same key. */
static void rotations(const struct level *v, uint32_t number)
{
    static struct test_case one, two;
    static struct result opened, again;
    struct source g = source_of("rotations");
    for (uint32_t i = 0; i < number; i++)
        source_word(&g);
    struct key key = random_key(&g, v);
    struct poly h, turned;
    uint32_t k = source_below(&g, v->r), l = source_below(&g, v->r);
    opening_case(&one, &g, v, &key, (enum opening)(number % OPENINGS), 0);
    case_run(&one, &opened);
    two = one;
    rotate_in(&two, k);
    struct key rotated = key_of_bytes(v, two.in[0].bytes);
    check(key_public(v, &key, &h) && key_public(v, &rotated, &turned) && poly_equal(&h, &turned), "one public key");
    case_run(&two, &again);
    check(case_same(&one, &opened, &again), "a rotated key opens to the same session key");
    rotate_in(&two, l);
    rotate_in(&one, (k + l) % v->r);
    check(memcmp(one.in[0].bytes, two.in[0].bytes, one.in[0].n) == 0, "rotations by k and then l are one by k + l");
}

int main(int argc, char **argv)
{
    if (argc == 2 && strcmp(argv[1], "--help") == 0) {
        puts("usage: tests [VECTORS DIGESTS]\n"
             "Runs the examples and the consistency tests, and the published hash vectors of the two files if given.");
        return 0;
    }
    if (argc != 1 && argc != 3)
        refuse(program, "two files or none are wanted; see --help", "");
    proved_examples();
    drawn_examples();
    known_digests();
    known_tag();
    run_examples();
    record_example();
    for (uint32_t level = 1; level <= 5; level += 2) {
        ring_laws(level_of(level));
        for (unsigned number = 0; number < 5; number++)
            round_trip(level_of(level), number);
        for (uint32_t number = 0; number < 30; number++)
            early_is_full(level_of(level), number);
        for (uint32_t number = 0; number < OPENINGS; number++)
            rotations(level_of(level), number);
    }
    packed_keys(1, 313, 4);
    packed_keys(3, 451, 6);
    packed_keys(5, 612, 0);
    if (argc == 3)
        published_vectors(argv[1], argv[2]);
    printf("%lu checks, %lu failed\n", checks, failures);
    return failures != 0;
}
