/* The cases of decoding that came after the map write: heavy syndromes, and decoding that stops early. */
#include "cases.h"
#include "generator.h"

/* So heavy that T is 127, the largest number of seven bits, and 128. Syndromes of all ones stand among document 01's
 * examples. */
static void heavy(struct source *g)
{
    static const uint32_t weights[] = {21413, 21414};
    const struct level *v = level_of(3);
    struct test_case c;
    struct key key = random_key(g, v);
    for (size_t i = 0; i < sizeof weights / sizeof weights[0]; i++) {
        struct poly s = random_poly_of_weight(g, v, weights[i]);
        case_decode(&c, v, &key, &s);
        emit(&c);
    }
}

/* Gone after 0, 1, 2, 3, 4 and 5 rounds; and never, at last with a stray bit left. */
static const struct {
    uint32_t level;
    enum error_kind kind;
    uint32_t weight, number;
} syndromes[] = {
    {1, PLAIN, 0, 0},   {1, PLAIN, 1, 0},    {1, PLAIN, 134, 0},  {1, PLAIN, 134, 2},  {1, PLAIN, 150, 3},
    {1, PLAIN, 154, 0}, {1, PLAIN, 155, 11}, {1, STRAY_BIT, 134, 0},
    {3, PLAIN, 0, 0},   {3, PLAIN, 1, 0},    {3, PLAIN, 170, 0},  {3, PLAIN, 199, 0},  {3, PLAIN, 208, 1},
    {3, PLAIN, 215, 2}, {3, PLAIN, 218, 1},  {3, STRAY_BIT, 199, 0},
};

static void early(const struct level *v)
{
    struct test_case c;
    for (size_t i = 0; i < sizeof syndromes / sizeof syndromes[0]; i++) {
        if (syndromes[i].level != v->number)
            continue;
        case_early_numbered(&c, v, syndromes[i].kind, syndromes[i].weight, syndromes[i].number);
        emit(&c);
    }
}

/* A syndrome that takes three rounds; a refusal tells 0 all the same, the smallest number first. */
static void early_refused(struct source *g, const struct level *v)
{
    struct test_case good, c;
    case_early_numbered(&good, v, PLAIN, v->t, v->number == 1 ? 2 : 0);
    for (unsigned buffer = 0; buffer < case_buffers(&good); buffer++) {
        c = good;
        damage_length(&c, g, buffer, (enum bad_length)(buffer % BAD_LENGTHS));
        emit(&c);
    }
    c = good;
    set_position(&c, 1, v->d - 1, v->r);
    emit(&c); /* 4 */
    damage_pad(&c, 1, 16);
    emit(&c); /* 3 before 4 */
    c.out[1]--;
    emit(&c); /* 2 before both */
    c.level += 256;
    emit(&c); /* 1 before all */
    c = good;
    set_position(&c, 0, 1, get_position(&c, 0, 0)); /* equal neighbours */
    emit(&c);
}

void committed_syndromes(void)
{
    struct source g = source_of("committed syndromes");
    heavy(&g);
    for (uint32_t level = 1; level <= 3; level += 2) {
        early(level_of(level));
        early_refused(&g, level_of(level));
    }
}
