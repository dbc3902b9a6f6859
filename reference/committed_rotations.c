/* The committed cases of rotated keys. */
#include <string.h>

#include "cases.h"
#include "generator.h"

static void emit_rotation(const struct level *v, const struct key *key, uint32_t k)
{
    struct test_case c;
    case_rotate_key(&c, v, key, k);
    emit(&c);
}

/* Each k at an end of the circle, on it or past it. */
static void ends(struct source *g, const struct level *v)
{
    const uint32_t ks[] = {0, 1, v->r - 1, v->r, v->r + 1, UINT32_MAX};
    struct key key = random_key(g, v);
    for (size_t i = 0; i < sizeof ks / sizeof ks[0]; i++)
        emit_rotation(v, &key, ks[i]);
    emit_rotation(v, &key, v->r / 2);
}

/* Positions 0 and r - 1, which stand side by side; all positions wrap, or none does; both halves are equal; a D that is
 * not the public key's. */
static void positions(struct source *g, const struct level *v)
{
    struct key key = random_key(g, v), close = close_key(g, v);
    for (int half = 0; half < 2; half++)
        key.h[half][half == 0 ? 0 : v->d - 1] = half == 0 ? 0 : v->r - 1;
    emit_rotation(v, &key, 1);
    emit_rotation(v, &key, v->r - 1);
    uint32_t first = v->r, last = 0;
    for (int half = 0; half < 2; half++) {
        first = close.h[half][0] < first ? close.h[half][0] : first;
        last = close.h[half][v->d - 1] > last ? close.h[half][v->d - 1] : last;
    }
    emit_rotation(v, &close, v->r - first);    /* the first comes to 0, and all wrap */
    emit_rotation(v, &close, v->r - 1 - last); /* the last comes to r - 1, and none wraps */
    memcpy(key.h[1], key.h[0], sizeof key.h[0]);
    emit_rotation(v, &key, 1 + source_below(g, v->r - 1));
    source_bytes(g, close.digest, SHORT_BYTES);
    emit_rotation(v, &close, 1 + source_below(g, v->r - 1));
}

/* Each wrong length; 4 with a good k and with a bad one; the smallest number before 4 and 15. */
static void refused(struct source *g, const struct level *v)
{
    struct key key = random_key(g, v);
    struct test_case good, c;
    case_rotate_key(&good, v, &key, 5);
    for (unsigned buffer = 0; buffer < case_buffers(&good); buffer++)
        for (int how = EMPTY; how < BAD_LENGTHS; how++) {
            c = good;
            damage_length(&c, g, buffer, (enum bad_length)how);
            emit(&c);
        }
    c = good;
    set_position(&c, 1, v->d - 1, v->r);
    emit(&c); /* 4 */
    c.given[0] = v->r;
    emit(&c); /* 4 before 15 */
    c.out[0]++;
    emit(&c); /* 2 before both */
    c.level += 256;
    emit(&c); /* 1 before all: level 257 or 259 */
    c = good;
    set_position(&c, 0, 1, get_position(&c, 0, 0)); /* equal neighbours */
    emit(&c);
}

/* At Level 5 a few: turned far, with a D that is not the public key's; past the circle; 4 before 15. */
static void few(struct source *g, const struct level *v)
{
    struct key key = random_key(g, v);
    struct test_case c;
    source_bytes(g, key.digest, SHORT_BYTES);
    emit_rotation(v, &key, v->r / 2);
    emit_rotation(v, &key, v->r);
    case_rotate_key(&c, v, &key, v->r);
    set_position(&c, 1, v->d - 1, v->r);
    emit(&c);
}

void committed_rotations(void)
{
    struct source g = source_of("committed rotations");
    for (uint32_t level = 1; level <= 3; level += 2) {
        const struct level *v = level_of(level);
        ends(&g, v);
        positions(&g, v);
        refused(&g, v);
    }
    few(&g, level_of(5));
}
