/* Random cases: every entry at each level, a third of them open to damage in one way or more.
 * No expression draws twice from the source, so that every compiler makes the same cases. */
#include "generator.h"

/* Round a multiple of the rate, up to four blocks; one in four anywhere. */
static size_t length_round(struct source *g, uint32_t rate)
{
    uint32_t blocks = source_below(g, 5), more = source_below(g, 3);
    size_t n = blocks * rate + more;
    return source_below(g, 4) == 0 ? source_below(g, 4 * rate) : n - (n > 0);
}

static void random_hash(struct test_case *c, struct source *g, uint32_t entry)
{
    uint32_t rate = entry == SHAKE256 ? SHAKE256_RATE : SHA3_384_RATE;
    size_t message = length_round(g, rate), digest = length_round(g, rate);
    case_hash(c, g, entry, message, entry == SHAKE256 ? digest : SHA3_384_BYTES);
}

static void random_record(struct test_case *c, struct source *g)
{
    uint32_t level = 1 + 2 * source_below(g, 3), thing = 1 + source_below(g, 6);
    uint32_t body = (uint32_t)thing_bytes(level_of(level), thing);
    size_t n = body + (source_below(g, 3) == 0 ? source_below(g, 50) : 0);
    switch (source_below(g, 6)) {
    case 0: n = source_below(g, body); break;
    case 1: body += source_below(g, 3) - 1; break;
    case 2: body ^= 1u << source_below(g, 32); break;
    case 3: thing = source_below(g, 9); break;
    case 4: level = source_below(g, 256); break;
    default: break;
    }
    case_record(c, g, body, 256 * level + thing, n);
    if (source_below(g, 10) == 0)
        c->in[0].n = source_below(g, 7);
}

/* An error near the weight where decoding begins to fail, H's own weight, or one with a pattern. */
static void random_decode(struct test_case *c, struct source *g, uint32_t entry, const struct level *v)
{
    enum error_kind kind = (enum error_kind)source_below(g, ERROR_KINDS);
    uint32_t weight = v->t;
    if (kind == PLAIN)
        weight += source_below(g, v->number == 1 ? 35 : v->number == 3 ? 40 : 70);
    if (kind == CLOSE_KEY)
        weight = 10 + source_below(g, 30);
    if (kind == OWN_PATTERN)
        weight = v->d / 2 - 2 + source_below(g, 5);
    case_decode_numbered(c, v, kind, weight, source_below(g, UINT32_MAX));
    c->entry = entry;
}

static void random_ring(struct test_case *c, struct source *g, uint32_t entry, const struct level *v)
{
    struct poly factors[2];
    for (int i = 0; i < 2; i++) {
        switch (source_below(g, 8)) {
        case 0: factors[i] = all_ones(v); break;
        case 1: factors[i] = power_of_X(source_below(g, v->r)); break;
        case 2: factors[i] = poly_zero(); break;
        case 3: factors[i] = random_poly_of_weight(g, v, v->d + source_below(g, 2)); break;
        default: factors[i] = random_poly(g, v); break;
        }
    }
    if (entry == PRODUCT)
        case_product(c, v, &factors[0], &factors[1]);
    else
        case_inverse(c, v, &factors[0]);
}

/* A word whose position is often listed already, one near r, or any. */
static uint32_t random_word(struct source *g, const struct level *v)
{
    uint32_t any = source_word(g), high = any & ~v->mask;
    switch (source_below(g, 4)) {
    case 0: return high | source_below(g, 2 * v->d);
    case 1: return high | (v->r - 2 + source_below(g, 4));
    default: return any;
    }
}

/* As many words as are just enough or too few, near the most, or any number. */
static void random_fair(struct test_case *c, struct source *g, const struct level *v)
{
    uint32_t words[2 * WORDS_MAX], n = source_below(g, 2 * WORDS_MAX);
    switch (source_below(g, 4)) {
    case 0: n = v->d - 1 + source_below(g, 2 * v->d); break;
    case 1: n = WORDS_MAX - 1 + source_below(g, 3); break;
    case 2: n = source_below(g, WORDS_MAX); break;
    default: break;
    }
    for (uint32_t i = 0; i < n; i++)
        words[i] = random_word(g, v);
    case_fair(c, v, words, n);
}

static void random_wrap(struct test_case *c, struct source *g, const struct level *v)
{
    uint8_t m[SHORT_BYTES];
    struct poly h = source_below(g, 4) == 0 ? random_public_key(g, v) : random_poly(g, v);
    if (source_below(g, 10) == 0)
        h = poly_zero();
    source_bytes(g, m, sizeof m);
    case_wrap(c, v, &h, m);
}

static void random_open(struct test_case *c, struct source *g, const struct level *v)
{
    enum opening how = (enum opening)source_below(g, OPENINGS);
    struct key key = (source_below(g, 2) == 0 ? window_key : random_key)(g, v);
    opening_case(c, g, v, &key, how, source_below(g, 3));
    uint8_t foreign[SHORT_BYTES];
    source_bytes(g, foreign, sizeof foreign);
    if (source_below(g, 8) == 0)
        set_digest(c, foreign);
}

/* Numbers that often meet: small ones, and those with one bit set. */
static uint32_t meeting_number(struct source *g)
{
    uint32_t bit = source_below(g, 32), small = source_below(g, 4);
    return source_below(g, 3) == 0 ? 1u << bit : small;
}

static void random_writing(struct test_case *c, struct source *g, const struct level *v)
{
    uint32_t kart = meeting_number(g), counter = meeting_number(g);
    case_write_map(c, g, v, kart, counter);
}

/* One in three for another kart, with a damaged record, or with bytes after it. */
static void random_acceptance(struct test_case *c, struct source *g, const struct level *v)
{
    uint32_t kart = meeting_number(g), counter = meeting_number(g), last = meeting_number(g);
    case_accept_map(c, g, v, kart, counter, last);
    if (source_below(g, 3) == 0)
        c->given[0] = meeting_number(g);
    if (source_below(g, 3) == 0)
        c->in[1].bytes[source_below(g, (uint32_t)c->in[1].n)] ^= (uint8_t)(1u << source_below(g, 8));
    if (source_below(g, 3) == 0)
        c->in[1].n += source_below(g, 40);
    if (source_below(g, 8) == 0)
        c->in[1].n = source_below(g, 302);
}

/* By k near an end of the circle, by any below r, or by any. */
static void random_rotation(struct test_case *c, struct source *g, const struct level *v)
{
    struct key key = (source_below(g, 2) == 0 ? close_key : random_key)(g, v);
    uint32_t ends[] = {0, 1, v->r - 1, v->r, v->r + 1, UINT32_MAX}, any = source_word(g);
    uint32_t k = source_below(g, 4) == 0 ? ends[source_below(g, 6)] : source_below(g, v->r);
    case_rotate_key(c, v, &key, source_below(g, 10) == 0 ? any : k);
}

static void damage_key(struct test_case *c, struct source *g)
{
    const struct level *v = level_of(c->level);
    int half = (int)source_below(g, 2);
    uint32_t last = v->d - 1, index = source_below(g, last);
    switch (source_below(g, 5)) {
    case 0: set_position(c, half, index + 1, get_position(c, half, index)); break;
    case 1: set_position(c, half, index, get_position(c, half, index + 1) + 1); break;
    case 2: set_position(c, half, last, v->r - 1); break; /* mostly good */
    case 3: set_position(c, half, last, v->r); break;
    default: set_position(c, half, index, source_below(g, 65536)); break;
    }
}

static void random_damage(struct test_case *c, struct source *g)
{
    unsigned input = source_below(g, case_ins(c->entry));
    if (has_key(c) && source_below(g, 2) == 0)
        damage_key(c, g);
    if (has_pad(c, input) && source_below(g, 2) == 0)
        damage_pad(c, input, 1 + source_below(g, 31));
    unsigned buffer = source_below(g, case_buffers(c));
    if (source_below(g, 2) == 0)
        damage_length(c, g, buffer, (enum bad_length)source_below(g, BAD_LENGTHS));
    if (source_below(g, 10) == 0)
        c->level = source_below(g, 2) == 0 ? source_below(g, 600) : source_below(g, UINT32_MAX);
}

/* The longer a level's buffers, the seldomer. */
static const struct level *random_level(struct source *g)
{
    uint32_t n = source_below(g, 6);
    return level_of(n == 0 ? 5 : n <= 2 ? 3 : 1);
}

void random_case_of(struct test_case *c, struct source *g, uint32_t entry)
{
    const struct level *v = random_level(g);
    switch (entry) {
    case SHAKE256:
    case SHA3_384: random_hash(c, g, entry); break;
    case PRODUCT:
    case INVERSE: random_ring(c, g, entry, v); break;
    case DECODE:
    case DECODE_EARLY: random_decode(c, g, entry, v); break;
    case WRAP: random_wrap(c, g, v); break;
    case FAIR_POLYNOMIAL: random_fair(c, g, v); break;
    case OPEN: random_open(c, g, v); break;
    case READ_RECORD: random_record(c, g); break;
    case WRITE_MAP: random_writing(c, g, v); break;
    case ACCEPT_MAP: random_acceptance(c, g, v); break;
    case ROTATE_KEY: random_rotation(c, g, v); break;
    default: ordinary_case(c, g, entry, v); break;
    }
    if (entry != READ_RECORD && source_below(g, 3) == 0)
        random_damage(c, g);
}

void random_case(struct test_case *c, struct source *g)
{
    random_case_of(c, g, 1 + source_below(g, ENTRIES - 1));
}
