/* The case set that a repository keeps: each rule and each refusal, few bytes, and every wrong reading told.
 * Level 1 is tried in full; of Level 3, whose buffers are twice as long, what is told by few cases. Level 5 comes last,
 * in committed_level_5.c. */
#include <string.h>

#include "cases.h"
#include "generator.h"
#include "packing.h"
#include "wrong.h"

static bool in_full(const struct level *v)
{
    return v->number == 1;
}

static void committed_hashes(struct source *g)
{
    static const struct {
        size_t message, digest;
    } shake[] = {{0, 0},   {0, 64},   {1, 1},    {135, 32}, {136, 32}, {137, 32},  {271, 32},
                 {272, 32}, {273, 32}, {32, 135}, {32, 136}, {32, 137}, {32, 568}, {2000, 0}};
    static const size_t sha3[] = {0, 1, 103, 104, 105, 207, 208, 209, 1605};
    static const size_t bad_digests[] = {0, 32, 47, 49, 64};
    struct test_case c;
    for (size_t i = 0; i < sizeof shake / sizeof shake[0]; i++) {
        case_hash(&c, g, SHAKE256, shake[i].message, shake[i].digest);
        emit(&c);
    }
    for (size_t i = 0; i < sizeof sha3 / sizeof sha3[0]; i++) {
        case_hash(&c, g, SHA3_384, sha3[i], 48);
        emit(&c);
    }
    for (size_t i = 0; i < sizeof bad_digests / sizeof bad_digests[0]; i++) {
        case_hash(&c, g, SHA3_384, 3, bad_digests[i]);
        emit(&c);
    }
}

static void emit_record(struct source *g, uint32_t body, uint32_t kind, size_t n)
{
    struct test_case c;
    case_record(&c, g, body, kind, n);
    emit(&c);
}

/* The first n bytes of a record's head. */
static void emit_head(struct source *g, size_t n)
{
    struct test_case c;
    case_record(&c, g, 32, 0x105, 0);
    c.in[0].n = n;
    emit(&c);
}

static void committed_records(struct source *g)
{
    /* but for Level 5's, which are known by now: 0x505, and 0x501 with a wrong length */
    static const uint32_t unknown[] = {0x100, 0x107, 0x1ff, 0x005, 0x205, 0x505, 0x501, 0x307, 0xff05, 0};
    for (uint32_t level = 1; level <= 3; level += 2) {
        for (uint32_t thing = 1; thing <= 6; thing++) {
            uint32_t body = (uint32_t)thing_bytes(level_of(level), thing), kind = 256 * level + thing;
            emit_record(g, body, kind, body);
            emit_record(g, body, kind, 1); /* cut */
            emit_record(g, 31, kind, 31);  /* another length */
        }
    }
    for (size_t n = 0; n <= 6; n++)
        emit_head(g, n);
    emit_record(g, 32, 0x105, 31);         /* cut by one byte */
    emit_record(g, 32, 0x105, 40);         /* further bytes */
    emit_record(g, 33, 0x105, 33);         /* one more */
    emit_record(g, 0, 0x105, 0);           /* nothing */
    emit_record(g, 1540, 0x102, 1540);     /* rounded down */
    emit_record(g, 0x10020, 0x105, 40);    /* all four bytes of the length count */
    emit_record(g, 0x20000000, 0x105, 40); /* little-endian */
    emit_record(g, UINT32_MAX, 0x105, 40);
    for (size_t i = 0; i < sizeof unknown / sizeof unknown[0]; i++)
        emit_record(g, 32, unknown[i], 32);
    emit_record(g, 33, 0x107, 32); /* unknown and cut */
    emit_record(g, 33, 0x105, 32); /* another length and cut */
}

static void emit_product(const struct level *v, const struct poly *a, const struct poly *b)
{
    struct test_case c;
    case_product(&c, v, a, b);
    emit(&c);
}

static void emit_inverse(const struct level *v, const struct poly *a)
{
    struct test_case c;
    case_inverse(&c, v, a);
    emit(&c);
}

static void committed_ring(struct source *g, const struct level *v)
{
    struct poly a = random_poly(g, v), b = random_poly(g, v), sparse = random_poly_of_weight(g, v, v->d);
    struct poly ones = all_ones(v), top = power_of_X(v->r - 1), zero = poly_zero();
    struct poly odd = random_poly_of_weight(g, v, v->r / 2 | 1), even = random_poly_of_weight(g, v, v->d + 1);
    struct poly nearly = ones; /* all ones but two: odd too, and it has an inverse */
    poly_flip(&nearly, 0);
    poly_flip(&nearly, v->r / 2);
    emit_product(v, &a, &b);
    emit_inverse(v, &odd);
    emit_inverse(v, &even);
    emit_inverse(v, &ones);
    emit_inverse(v, &nearly);
    if (!in_full(v))
        return;
    emit_product(v, &top, &a);
    emit_product(v, &ones, &sparse);
    emit_inverse(v, &sparse);
    emit_inverse(v, &top);
    emit_inverse(v, &zero);
}

static void committed_errors(struct source *g, const struct level *v)
{
    struct test_case c;
    uint8_t m[SHORT_BYTES];
    for (uint32_t replaced = in_full(v) ? 0 : 2; replaced <= 3; replaced++) {
        message_replacing(g, v, replaced, m);
        case_error_of(&c, v, m);
        emit(&c);
    }
}

struct numbered {
    uint32_t level;
    enum error_kind kind;
    uint32_t weight, number;
};

/* Found by tells --search: together they tell each wrong reading of the decoder up to W_WEIGHT_T, at Level 1 at least
 * twice. */
static const struct numbered telling[] = {
    {1, PLAIN, 134, 0},     {1, STRAY_BIT, 134, 0},  {1, PLAIN, 156, 6},         {1, PLAIN, 160, 4},
    {1, PLAIN, 160, 15},    {1, PLAIN, 162, 20},     {1, CLOSE_KEY, 20, 1},      {1, CLOSE_KEY, 26, 145},
    {1, OWN_PATTERN, 35, 22}, {1, OWN_PATTERN, 36, 40}, {3, STRAY_BIT, 199, 0},  {3, PLAIN, 222, 2},
    {3, PLAIN, 222, 3},     {3, CLOSE_KEY, 30, 15},  {3, OWN_PATTERN, 52, 18},   {3, OWN_PATTERN, 52, 22},
};

/* These tell W_SLOPE, which shows at few weights of the residual (4657 and 10397 here), and W_LEAST. */
static const struct numbered telling_threshold[] = {{1, WINDOW_KEY, 123, 875}, {3, WINDOW_KEY, 221, 1920}};

static void committed_decoding(const struct level *v, const struct numbered list[], size_t n)
{
    struct test_case c;
    for (size_t i = 0; i < n; i++) {
        if (list[i].level == v->number) {
            case_decode_numbered(&c, v, list[i].kind, list[i].weight, list[i].number);
            emit(&c);
        }
    }
}

static void emit_position(struct test_case c, int half, uint32_t index, uint32_t position)
{
    set_position(&c, half, index, position);
    emit(&c);
}

/* The examples that document 01 wants run, by decoding. */
static void committed_examples(struct source *g, const struct level *v)
{
    struct test_case c;
    struct key key = random_key(g, v);
    struct poly zero = poly_zero(), ones = all_ones(v);
    uint32_t last = v->d - 1;
    key.h[1][last] = v->r - 1;
    case_decode(&c, v, &key, &ones); /* last byte 7 is accepted; T is above d, so nothing flips: 6 */
    emit(&c);
    case_decode(&c, v, &key, &zero); /* position r - 1 is accepted, and syndrome 0 decodes to error 0 */
    emit(&c);
    emit_position(c, 1, last, v->r);                /* 4 */
    emit_position(c, 0, 1, get_position(&c, 0, 0)); /* equal neighbours: 4 */
    damage_pad(&c, 1, 1);                           /* last byte 8: 3 */
    emit(&c);
    emit_position(c, 1, last, v->r);                /* bad pad and bad key at once: 3 */
}

static void committed_exchange(struct source *g, const struct level *v)
{
    struct test_case c;
    struct poly zero = poly_zero(), ones = all_ones(v), h = random_public_key(g, v);
    uint8_t m[SHORT_BYTES], digest[DIGEST_MAX];
    for (int n = 0; n < (in_full(v) ? 3 : 1); n++) {
        ordinary_case(&c, g, MAKE_KEY, v);
        emit(&c);
    }
    digest_of_poly(v, &h, digest);
    message_bound(g, v, digest, 1, m);
    case_wrap(&c, v, &h, m);
    emit(&c);
    case_wrap(&c, v, &zero, m);
    emit(&c);
    case_wrap(&c, v, &ones, m);
    if (in_full(v))
        emit(&c);
    for (int how = HONEST; how <= ANY_BYTES; how++) {
        struct key key = random_key(g, v);
        opening_case(&c, g, v, &key, (enum opening)how, how == HONEST);
        if (in_full(v) || how <= C0_BIT)
            emit(&c);
    }
}

/* Each buffer of each entry gets two of the wrong lengths, taking turns; of decoding, whose lines are the longest, one; at Level 3
 * of two entries, one. */
static void committed_lengths(struct source *g, const struct level *v)
{
    struct test_case c;
    unsigned turn = 0;
    for (uint32_t entry = PRODUCT; entry <= OPEN; entry++) {
        if (!in_full(v) && entry != MAKE_KEY && entry != OPEN)
            continue;
        ordinary_case(&c, g, entry, v);
        for (unsigned buffer = 0; buffer < case_buffers(&c); buffer++)
            for (unsigned n = 0; n < (in_full(v) && entry != DECODE ? 2 : 1); n++) {
                ordinary_case(&c, g, entry, v);
                damage_length(&c, g, buffer, (enum bad_length)(turn++ % BAD_LENGTHS));
                emit(&c);
            }
    }
}

static void emit_pad(struct source *g, const struct level *v, uint32_t entry, unsigned input, uint32_t bits)
{
    struct test_case c;
    ordinary_case(&c, g, entry, v);
    damage_pad(&c, input, bits);
    emit(&c);
}

static void committed_pads(struct source *g, const struct level *v)
{
    struct test_case c;
    emit_pad(g, v, OPEN, 1, 1);
    emit_pad(g, v, OPEN, 1, 16);
    emit_pad(g, v, INVERSE, 0, 16);
    if (!in_full(v))
        return;
    for (uint32_t bit = 0; bit < 5; bit++)
        emit_pad(g, v, PRODUCT, bit % 2, 1u << bit);
    for (uint32_t bit = 1; bit < 4; bit++)
        emit_pad(g, v, OPEN, 1, 1u << bit);
    emit_pad(g, v, DECODE, 1, 8);
    emit_pad(g, v, WRAP, 0, 31);
    ordinary_case(&c, g, PRODUCT, v);
    c.in[0].bytes[polynomial_bytes(v) - 1] = 7; /* no pad bit */
    emit(&c);
}

static void committed_positions(struct source *g, const struct level *v)
{
    struct test_case open;
    ordinary_case(&open, g, OPEN, v);
    uint32_t last = v->d - 1;
    emit_position(open, 1, last, v->r - 1); /* good */
    emit_position(open, 1, last, v->r);
    emit_position(open, 0, last, v->r);
    emit_position(open, 0, 1, get_position(&open, 0, 0)); /* equal */
    emit_position(open, 1, last, get_position(&open, 1, last - 1)); /* equal */
    if (!in_full(v))
        return;
    emit_position(open, 0, 0, get_position(&open, 0, 1) + 1); /* falling */
    emit_position(open, 1, last, get_position(&open, 1, last - 1) - 1); /* falling */
    emit_position(open, 0, last, 65535);
    memcpy(open.in[0].bytes + 2 * v->d, open.in[0].bytes, 2 * v->d); /* h1 = h0: good */
    emit(&open);
}

/* A bad level, a wrong length, a pad bit and a bad position, each where its mark is set. */
static void emit_together(struct source *g, const struct level *v, const char *marks)
{
    struct test_case c;
    ordinary_case(&c, g, OPEN, v);
    if (strchr(marks, '4'))
        set_position(&c, 0, 0, v->r);
    if (strchr(marks, '3'))
        damage_pad(&c, 1, 1);
    if (strchr(marks, '2'))
        damage_length(&c, g, 2, ONE_MORE);
    if (strchr(marks, '1'))
        c.level = 2;
    emit(&c);
}

static void committed_together(struct source *g, const struct level *v)
{
    static const char *const marks[] = {"12", "13", "14", "23", "24", "34", "234", "1234"};
    for (size_t i = 0; i < sizeof marks / sizeof marks[0]; i++)
        if (in_full(v) || marks[i][0] == '3' || marks[i][2] != '\0')
            emit_together(g, v, marks[i]);
    struct poly ones = all_ones(v); /* no inverse either */
    struct test_case c;
    case_inverse(&c, v, &ones);
    damage_pad(&c, 0, 1);
    emit(&c);
}

/* Good but for the level; and for the lengths where it is 5, which became a level later. */
static void committed_levels(struct source *g)
{
    static const uint32_t bad[] = {0, 2, 5, 257, 259, 0x1000001, UINT32_MAX};
    struct test_case c;
    for (size_t i = 0; i < sizeof bad / sizeof bad[0]; i++) {
        ordinary_case(&c, g, (uint32_t)(PRODUCT + i), level_of(bad[i] == 259 ? 3 : 1));
        c.level = bad[i];
        emit(&c);
    }
}

/* The decoder finds an error that differs from that of m' in one half alone. */
static void committed_halves(struct source *g, const struct level *v)
{
    struct test_case c;
    for (int how = MOVED_E0; how <= MOVED_E1; how++) {
        struct key key = random_key(g, v);
        opening_case(&c, g, v, &key, (enum opening)how, 0);
        emit(&c);
    }
}

static void emit_packing(const struct level *v, const struct key *key)
{
    struct test_case c;
    case_pack_key(&c, v, key);
    emit(&c);
    case_unpack_key(&c, v, key);
    emit(&c);
}

static void committed_packing(struct source *g, const struct level *v)
{
    struct key key = random_key(g, v);
    emit_packing(v, &key);
    key.h[0][0] = 0; /* the least position and the largest */
    key.h[1][v->d - 1] = v->r - 1;
    emit_packing(v, &key);
    memcpy(key.h[1], key.h[0], sizeof key.h[0]); /* h1 = h0, and any sigma */
    memset(key.sigma, 0xff, sizeof key.sigma);
    emit_packing(v, &key);
}

static void committed_packed_positions(struct source *g, const struct level *v, uint32_t entry)
{
    struct test_case c;
    ordinary_case(&c, g, entry, v);
    uint32_t last = v->d - 1, most = (1u << position_bits(v)) - 1;
    emit_position(c, 0, last, v->r);
    emit_position(c, 1, last, v->r);
    emit_position(c, 1, last, most);
    emit_position(c, 0, 1, get_position(&c, 0, 0)); /* equal */
    emit_position(c, 1, last, get_position(&c, 1, last - 1) - 1); /* falling */
    emit_position(c, 1, 0, 0); /* good, below all of h0 */
}

/* Each wrong length of each buffer, and the length of a key in the other form. */
static void committed_packed_lengths(struct source *g, const struct level *v, uint32_t entry)
{
    struct test_case c;
    for (unsigned buffer = 0; buffer < 2; buffer++)
        for (int how = EMPTY; how < BAD_LENGTHS; how++) {
            ordinary_case(&c, g, entry, v);
            damage_length(&c, g, buffer, (enum bad_length)how);
            emit(&c);
        }
    ordinary_case(&c, g, entry, v);
    c.out[0] = c.in[0].n;
    emit(&c);
    ordinary_case(&c, g, entry, v);
    c.in[0].n = c.out[0];
    emit(&c);
}

/* Every pad bit; and refusals at once, the smallest number first. */
static void committed_packed_pads(struct source *g, const struct level *v)
{
    struct test_case c;
    for (uint32_t bit = 0; bit < packed_pad_bits(v); bit++)
        emit_pad(g, v, UNPACK_KEY, 0, 1u << bit);
    ordinary_case(&c, g, UNPACK_KEY, v);
    set_position(&c, 0, 0, v->r);
    damage_pad(&c, 0, 1);
    emit(&c); /* 3 before 4 */
    c.out[0]++;
    emit(&c); /* 2 before 3 */
    c.level = 2;
    emit(&c); /* 1 before all */
    ordinary_case(&c, g, PACK_KEY, v);
    set_position(&c, 0, 0, v->r);
    c.out[0]--;
    emit(&c); /* 2 before 4 */
    c.level += 256;
    emit(&c);
}

static void emit_error_of(const struct level *v, const uint8_t *m)
{
    struct test_case c;
    case_error_of(&c, v, m);
    emit(&c);
}

/* Messages that replace 0 and 1 positions at Level 3 too, and such as tell how replaced positions are counted: one that
 * draws i itself, one that draws a position three times. */
static void committed_counts(struct source *g, const struct level *v)
{
    uint8_t m[SHORT_BYTES];
    for (uint32_t replaced = 0; replaced <= 1 && !in_full(v); replaced++) {
        message_replacing(g, v, replaced, m);
        emit_error_of(v, m);
    }
    message_miscounted(g, v, W_COUNT_EQUAL, m);
    emit_error_of(v, m);
    message_miscounted(g, v, W_COUNT_POSITIONS, m);
    emit_error_of(v, m);
}

/* A refusal reports 0, whatever the message or the seed would report. */
static void emit_refused(struct test_case c)
{
    c.out[1]++;
    emit(&c);
    c.level += 256;
    emit(&c);
}

static void committed_key_counts(struct source *g, const struct level *v)
{
    static const uint32_t halves[][2] = {{0, 0}, {0, 1}, {1, 0}, {1, 2}, {2, 1}};
    struct test_case c;
    uint8_t seed[SEED_BYTES], m[SHORT_BYTES];
    for (size_t i = 0; i < sizeof halves / sizeof halves[0]; i++) {
        seed_repeating(g, v, halves[i][0], halves[i][1], seed);
        case_make_key(&c, v, seed);
        emit(&c);
    }
    emit_refused(c);
    message_replacing(g, v, 2, m);
    case_error_of(&c, v, m);
    emit_refused(c);
}

/* Honest ciphertexts whose f replaces 0, 1 and 2 positions; one whose key has another D opens to sigma's key. */
static void committed_bound(struct source *g, const struct level *v)
{
    struct test_case c;
    struct key key = random_key(g, v), other = random_key(g, v);
    for (uint32_t replaced = 0; replaced <= 2; replaced++) {
        opening_case(&c, g, v, &key, HONEST, replaced);
        emit(&c);
    }
    set_digest(&c, other.digest);
    emit(&c);
}

/* The lengths that private keys had before D, in each entry that takes or gives one. */
static void committed_old_lengths(struct source *g, const struct level *v)
{
    static const uint32_t entries[] = {DECODE, MAKE_KEY, OPEN, PACK_KEY, UNPACK_KEY};
    struct test_case c;
    uint32_t old = 4 * v->d + SHORT_BYTES;
    emit_record(g, old, 256 * v->number + 3, old);
    for (size_t i = 0; i < sizeof entries / sizeof entries[0]; i++) {
        ordinary_case(&c, g, entries[i], v);
        if (entries[i] != MAKE_KEY)
            c.in[0].n -= SHORT_BYTES;
        else
            c.out[1] -= SHORT_BYTES;
        emit(&c);
    }
}

static void emit_fair(const struct level *v, const uint32_t words[], uint32_t n)
{
    struct test_case c;
    case_fair(&c, v, words, n);
    emit(&c);
}

/* Words from `start` on, each of them listed. */
static void listed_words(struct source *g, const struct level *v, uint32_t words[], uint32_t start, uint32_t end)
{
    for (uint32_t i = start; i < end; i++)
        word_after(g, v, true, words, i);
}

/* No words, one too few, just enough, the most, one more, and the most that a case can have. */
static void committed_words(struct source *g, const struct level *v)
{
    enum { ALL = BUFFER_MAX / 4 };
    const uint32_t numbers[] = {0, v->d - 1, v->d, WORDS_MAX, WORDS_MAX + 1, ALL};
    uint32_t words[ALL];
    listed_words(g, v, words, 0, v->d);
    for (uint32_t i = v->d; i < ALL; i++)
        words[i] = source_word(g);
    for (size_t i = 0; i < sizeof numbers / sizeof numbers[0]; i++)
        if (in_full(v) || numbers[i] != ALL)
            emit_fair(v, words, numbers[i]);
}

/* The last of n words completes the list or is passed over; the words between repeat the first. */
static void emit_last(struct source *g, const struct level *v, bool completes, uint32_t n)
{
    uint32_t words[WORDS_MAX];
    listed_words(g, v, words, 0, v->d - 1);
    for (uint32_t i = v->d - 1; i < n - 1; i++)
        words[i] = words[0];
    word_after(g, v, completes, words, n - 1);
    emit_fair(v, words, n);
}

static void committed_last(struct source *g, const struct level *v)
{
    uint32_t words[WORDS_MAX];
    for (int completes = 0; completes < 2; completes++) {
        emit_last(g, v, completes, v->d + 1);
        emit_last(g, v, completes, WORDS_MAX);
    }
    for (uint32_t i = 0; i < WORDS_MAX; i++)
        words[i] = v->r / 2; /* all equal */
    emit_fair(v, words, WORDS_MAX);
}

/* r is passed over, r - 1 and 0 are listed: with no high bit set, then with all of them. */
static void committed_edges(struct source *g, const struct level *v)
{
    uint32_t words[D_MAX + 1] = {v->r, v->r - 1, 0};
    listed_words(g, v, words, 3, v->d + 1);
    for (uint32_t i = 0; i <= v->d; i++)
        words[i] &= v->mask;
    emit_fair(v, words, v->d + 1);
    for (uint32_t i = 0; i <= v->d; i++)
        words[i] |= ~v->mask;
    emit_fair(v, words, v->d + 1);
}

/* Words of which some are passed over; each wrong length of the output; refusals at once, the smallest number first. */
static void committed_fair(struct source *g, const struct level *v)
{
    struct test_case c;
    ordinary_case(&c, g, FAIR_POLYNOMIAL, v);
    emit(&c);
    for (int how = EMPTY; how < BAD_LENGTHS; how++) {
        ordinary_case(&c, g, FAIR_POLYNOMIAL, v);
        damage_length(&c, g, 1, (enum bad_length)how);
        emit(&c);
    }
    c.in[0].n = 4;
    emit(&c); /* 2 before 10 */
    c.level += 256;
    emit(&c); /* 1 before both */
}

/* What is added comes last, so that the cases before it keep their bytes and their ordinals. */
void committed(void)
{
    struct source g = source_of("committed");
    committed_hashes(&g);
    committed_records(&g);
    committed_levels(&g);
    for (uint32_t level = 1; level <= 3; level += 2) {
        const struct level *v = level_of(level);
        committed_ring(&g, v);
        committed_errors(&g, v);
        committed_decoding(v, telling, sizeof telling / sizeof telling[0]);
        committed_examples(&g, v);
        committed_exchange(&g, v);
        committed_lengths(&g, v);
        committed_pads(&g, v);
        committed_positions(&g, v);
        committed_together(&g, v);
    }
    for (uint32_t level = 1; level <= 3; level += 2) {
        const struct level *v = level_of(level);
        committed_decoding(v, telling_threshold, sizeof telling_threshold / sizeof telling_threshold[0]);
        committed_halves(&g, v);
    }
    for (uint32_t level = 1; level <= 3; level += 2) {
        const struct level *v = level_of(level);
        committed_packing(&g, v);
        committed_packed_pads(&g, v);
        for (uint32_t entry = PACK_KEY; entry <= UNPACK_KEY; entry++) {
            committed_packed_positions(&g, v, entry);
            committed_packed_lengths(&g, v, entry);
        }
    }
    for (uint32_t level = 1; level <= 3; level += 2) {
        committed_counts(&g, level_of(level));
        committed_key_counts(&g, level_of(level));
    }
    for (uint32_t level = 1; level <= 3; level += 2) {
        committed_bound(&g, level_of(level));
        committed_old_lengths(&g, level_of(level));
    }
    for (uint32_t level = 1; level <= 3; level += 2) {
        const struct level *v = level_of(level);
        committed_fair(&g, v);
        committed_words(&g, v);
        committed_last(&g, v);
        committed_edges(&g, v);
    }
}
