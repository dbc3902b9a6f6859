/* The committed cases of Level 5: a few whole ones for each entry, and those that tell its row, its pad rule and its
 * kinds. Its polynomials are long, so the decoder's wrong readings are told by openings, whose lines are short, wherever
 * an opening shows them. */
#include <string.h>

#include "cases.h"
#include "generator.h"
#include "wrong.h"

enum { LEVEL = 5, BITS_16 = 0xffff };

/* Bytes of an output that is refused anyway. */
enum { FEW = 5 };

static void emit_record(struct source *g, uint32_t body, uint32_t kind, size_t n)
{
    struct test_case c;
    case_record(&c, g, body, kind, n);
    emit(&c);
}

/* Public key, private key and ciphertext with the lengths of the other levels. */
static void other_lengths(struct source *g)
{
    for (uint32_t thing = 2; thing <= 4; thing++)
        for (uint32_t level = 1; level <= 3; level += 2) {
            uint32_t body = (uint32_t)thing_bytes(level_of(level), thing);
            emit_record(g, body, 256 * LEVEL + thing, body);
        }
}

/* Each kind with its length, one less and one more: thing 7 is the map write's, which the reader does not know. */
static void records(struct source *g, const struct level *v)
{
    static const uint32_t unknown[] = {0x500, 0x5ff, 0x405, 0x605, 0xf505};
    for (uint32_t thing = 1; thing <= 7; thing++) {
        uint32_t body = thing == 7 ? 296 : (uint32_t)thing_bytes(v, thing), kind = 256 * LEVEL + thing;
        for (uint32_t n = body - 1; n <= body + 1; n++)
            emit_record(g, n, kind, n);
        emit_record(g, body, kind, body - 1); /* cut */
    }
    other_lengths(g);
    for (size_t i = 0; i < sizeof unknown / sizeof unknown[0]; i++)
        emit_record(g, 32, unknown[i], 32);
}

/* Good but for the level. */
static void levels(struct source *g, const struct level *v)
{
    static const uint32_t bad[] = {4, 6, 7, 261, 0x50000, 0x5000000, 0x5000005};
    struct test_case c;
    for (uint32_t entry = PRODUCT; entry < ENTRIES; entry++) {
        if (entry == READ_RECORD || entry == WRITE_MAP || entry == ACCEPT_MAP)
            continue;
        ordinary_case(&c, g, entry, v);
        c.level = bad[entry % (sizeof bad / sizeof bad[0])];
        c.out[0] = c.out[1] = FEW;
        emit(&c);
    }
}

/* The polynomial or the c0 of an input gets another last byte. */
static void set_last(struct test_case *c, unsigned input, uint8_t byte)
{
    c->in[input].bytes[polynomial_bytes(level_of(c->level)) - 1] = byte;
}

/* 1f has no pad bit; 20, 40 and 80 have one each. */
static void pads(struct source *g, const struct level *v)
{
    static const uint8_t last[] = {0x1f, 0x20, 0x40, 0x80, 0x08, 0x10};
    struct test_case c;
    for (size_t i = 0; i < sizeof last; i++) {
        ordinary_case(&c, g, OPEN, v);
        set_last(&c, 1, last[i]);
        emit(&c);
    }
    ordinary_case(&c, g, PRODUCT, v);
    set_last(&c, 0, 0x1f);
    emit(&c);
    ordinary_case(&c, g, INVERSE, v);
    set_last(&c, 0, 0x80);
    emit(&c);
    ordinary_case(&c, g, WRAP, v);
    set_last(&c, 0, 0x1f);
    emit(&c);
    set_last(&c, 0, 0x20);
    emit(&c);
}

static void emit_inverse(const struct level *v, const struct poly *a)
{
    struct test_case c;
    case_inverse(&c, v, a);
    emit(&c);
}

/* One that has an inverse, and one that has none: 19 products either way. */
static void inverses(struct source *g, const struct level *v)
{
    struct poly odd = random_poly_of_weight(g, v, v->r / 2 | 1), ones = all_ones(v);
    emit_inverse(v, &odd);
    emit_inverse(v, &ones);
}

/* One message draws i itself, one draws a position three times. */
static void errors(struct source *g, const struct level *v)
{
    static const int readings[] = {W_COUNT_EQUAL, W_COUNT_POSITIONS};
    struct test_case c;
    uint8_t m[SHORT_BYTES];
    for (int i = 0; i < 2; i++) {
        message_miscounted(g, v, readings[i], m);
        case_error_of(&c, v, m);
        emit(&c);
    }
}

static void keys(struct source *g, const struct level *v)
{
    struct test_case c;
    uint8_t seed[SEED_BYTES];
    seed_repeating(g, v, 1, 2, seed);
    case_make_key(&c, v, seed);
    emit(&c);
    c.out[0] = FEW; /* a refusal reports 0 */
    emit(&c);
}

static void exchange(struct source *g, const struct level *v)
{
    struct test_case c;
    struct poly zero = poly_zero();
    struct key other = random_key(g, v);
    uint8_t m[SHORT_BYTES], digest[DIGEST_MAX];
    digest_of_poly(v, &zero, digest);
    message_bound(g, v, digest, 1, m);
    case_wrap(&c, v, &zero, m);
    emit(&c);
    for (int how = HONEST; how < OPENINGS; how++) {
        struct key key = random_key(g, v);
        opening_case(&c, g, v, &key, (enum opening)how, how == HONEST);
        emit(&c);
    }
    opening_case(&c, g, v, &other, HONEST, 2);
    emit(&c);
    source_bytes(g, digest, SHORT_BYTES); /* another D opens to sigma's key */
    set_digest(&c, digest);
    emit(&c);
}

static void emit_position(struct test_case c, int half, uint32_t index, uint32_t position)
{
    set_position(&c, half, index, position);
    emit(&c);
}

/* r - 1 is good, r and what lies above it are not; equal and falling neighbours. */
static void positions(struct source *g, const struct level *v)
{
    static const uint32_t entries[] = {OPEN, PACK_KEY, UNPACK_KEY};
    uint32_t last = v->d - 1;
    for (int i = 0; i < 3; i++) {
        struct test_case c;
        ordinary_case(&c, g, entries[i], v);
        emit_position(c, 1, last, v->r - 1);
        emit_position(c, 0, last, v->r);
        emit_position(c, 1, last, v->r);
        emit_position(c, 1, last, BITS_16);
        emit_position(c, 0, 1, get_position(&c, 0, 0));
        emit_position(c, 1, last, get_position(&c, 1, last - 1));
        emit_position(c, 0, last, get_position(&c, 0, last - 1) - 1);
    }
}

static void packed(struct source *g, const struct level *v)
{
    struct test_case c;
    struct key key = random_key(g, v);
    key.h[0][0] = 0;
    key.h[1][v->d - 1] = v->r - 1;
    case_pack_key(&c, v, &key);
    emit(&c);
    case_unpack_key(&c, v, &key);
    emit(&c);
    ordinary_case(&c, g, UNPACK_KEY, v);
    c.in[0].bytes[c.in[0].n - 1] |= 0x80; /* no pad bit: it belongs to the last position */
    emit(&c);
}

/* The wrong lengths of each buffer; the lengths of the other levels, and before D; and Level 5's at these levels. */
static void lengths(struct source *g, const struct level *v)
{
    static const uint32_t entries[] = {OPEN, PACK_KEY, UNPACK_KEY};
    struct test_case c;
    for (int i = 0; i < 3; i++) {
        ordinary_case(&c, g, entries[i], v);
        for (unsigned buffer = 0; buffer < case_buffers(&c); buffer++)
            for (int how = EMPTY; how < BAD_LENGTHS; how++) {
                struct test_case bad = c;
                damage_length(&bad, g, buffer, (enum bad_length)how);
                emit(&bad);
            }
        c.in[0].n -= SHORT_BYTES;
        emit(&c);
    }
    for (uint32_t level = 1; level <= 3; level += 2)
        for (uint32_t entry = PRODUCT; entry <= UNPACK_KEY; entry++) {
            if (entry == READ_RECORD)
                continue;
            ordinary_case(&c, g, entry, v);
            c.level = level;
            c.out[0] = c.out[1] = FEW;
            emit(&c);
        }
}

/* Level 5, and an output of Level 1's length or of Level 3's, in turn. */
static void other_outputs(struct source *g, const struct level *v)
{
    struct test_case c;
    for (uint32_t entry = PRODUCT; entry <= MAKE_KEY; entry++) {
        ordinary_case(&c, g, entry, v);
        c.out[0] = polynomial_bytes(level_of(entry % 2 == 0 ? 1 : 3));
        c.out[1] = c.out[1] == 0 ? 0 : FEW;
        emit(&c);
    }
}

/* A bad level, a wrong length, a pad bit and a bad position at once: the smallest number first. */
static void together(struct source *g, const struct level *v)
{
    struct test_case c;
    ordinary_case(&c, g, OPEN, v);
    set_position(&c, 0, 0, v->r);
    damage_pad(&c, 1, 1);
    emit(&c); /* 3 before 4 */
    c.out[0]++;
    emit(&c); /* 2 before 3 */
    c.level += 256;
    emit(&c); /* 1 before all */
}

static void emit_fair(const struct level *v, const uint32_t words[], uint32_t n)
{
    struct test_case c;
    case_fair(&c, v, words, n);
    emit(&c);
}

/* 40973 and 65535 are passed over, 40972 and 0 are listed, and no position twice; with no upper bit set, then with all. */
static void words_at_the_edge(struct source *g, const struct level *v)
{
    uint32_t words[D_MAX + 3] = {v->r, BITS_16, v->r - 1, 0, v->r - 1};
    for (uint32_t i = 5; i < v->d + 3; i++)
        word_after(g, v, true, words, i);
    for (uint32_t i = 0; i < v->d + 3; i++)
        words[i] &= v->mask;
    emit_fair(v, words, v->d + 3);
    for (uint32_t i = 0; i < v->d + 3; i++)
        words[i] |= ~v->mask;
    emit_fair(v, words, v->d + 3);
    emit_fair(v, words, v->d + 2); /* 10: one too few */
}

static void words_at_the_end(struct source *g, const struct level *v)
{
    uint32_t words[WORDS_MAX + 1];
    struct test_case c;
    for (uint32_t i = 0; i <= WORDS_MAX; i++)
        words[i] = source_word(g);
    emit_fair(v, words, WORDS_MAX + 1); /* 2 */
    case_fair(&c, v, words, v->d - 1);
    c.out[0] = FEW;
    emit(&c); /* 2 before 10 */
    c.level += 256;
    emit(&c); /* 1 before both */
}

/* Found by tells --search: the openings and the decodings together tell each wrong reading of the decoder. Errors of
 * weight 316 stand where decoding begins to fail; the two under a key of a window tell the slope. */
static const uint32_t telling_openings[] = {0, 4, 8, 22, 29, 37, 75, 110};

static const struct {
    uint32_t entry;
    enum error_kind kind;
    uint32_t weight, number;
} telling[] = {
    {DECODE, PLAIN, 316, 0},
    {DECODE, PLAIN, 316, 4},
    {DECODE, CLOSE_KEY, 30, 1},
    {DECODE, WINDOW_KEY, 269, 105},
    {DECODE, WINDOW_KEY, 256, 258},
    {DECODE_EARLY, PLAIN, 0, 0},
    {DECODE_EARLY, PLAIN, 264, 0},
    {DECODE_EARLY, STRAY_BIT, 264, 0},
};

static void decodings(const struct level *v)
{
    struct test_case c;
    for (size_t i = 0; i < sizeof telling_openings / sizeof telling_openings[0]; i++) {
        case_open_numbered(&c, v, telling_openings[i]);
        emit(&c);
    }
    for (size_t i = 0; i < sizeof telling / sizeof telling[0]; i++) {
        case_decode_numbered(&c, v, telling[i].kind, telling[i].weight, telling[i].number);
        c.entry = telling[i].entry;
        emit(&c);
    }
}

void committed_level_5(void)
{
    struct source g = source_of("committed level 5");
    const struct level *v = level_of(LEVEL);
    records(&g, v);
    levels(&g, v);
    pads(&g, v);
    inverses(&g, v);
    errors(&g, v);
    keys(&g, v);
    exchange(&g, v);
    positions(&g, v);
    packed(&g, v);
    lengths(&g, v);
    other_outputs(&g, v);
    together(&g, v);
    words_at_the_edge(&g, v);
    words_at_the_end(&g, v);
    decodings(v);
    committed_maps_5();
}
