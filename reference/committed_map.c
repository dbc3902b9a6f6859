/* The committed cases of the map write: the writer, then acceptances, good and refused, one number after the other. */
#include <string.h>

#include "cases.h"
#include "generator.h"

/* Numbers that read otherwise from the other end. */
enum { KART = 0x01020304, COUNTER = 0x00000302, BEFORE = 0x00000301 };

static void emit_writing(struct source *g, const struct level *v, uint32_t kart, uint32_t counter)
{
    struct test_case c;
    case_write_map(&c, g, v, kart, counter);
    emit(&c);
}

static void emit_bad_buffer(const struct test_case *good, struct source *g, unsigned buffer, enum bad_length how)
{
    struct test_case c = *good;
    damage_length(&c, g, buffer, how);
    emit(&c);
}

static void writings(struct source *g, const struct level *v)
{
    struct test_case c;
    case_write_map(&c, g, v, 1, 2);
    memset(c.in[1].bytes, 0, c.in[1].n);
    for (size_t i = 0; i < c.in[0].n; i++)
        c.in[0].bytes[i] = (uint8_t)i;
    emit(&c);
    emit_writing(g, v, KART, COUNTER);
    emit_writing(g, v, UINT32_MAX, 0);
    case_write_map(&c, g, v, KART, COUNTER);
    for (unsigned buffer = 0; buffer < case_buffers(&c); buffer++)
        emit_bad_buffer(&c, g, buffer, (enum bad_length)buffer);
    emit_bad_buffer(&c, g, 2, ONE_LESS);
    c.level = 2;
    emit(&c);
}

static struct test_case good(struct source *g, const struct level *v)
{
    struct test_case c;
    case_accept_map(&c, g, v, KART, COUNTER, BEFORE);
    return c;
}

static void emit_counters(struct source *g, const struct level *v, uint32_t counter, uint32_t last)
{
    struct test_case c;
    case_accept_map(&c, g, v, KART, counter, last);
    emit(&c);
}

static void counters(struct source *g, const struct level *v)
{
    emit_counters(g, v, COUNTER, BEFORE);
    emit_counters(g, v, COUNTER, COUNTER);
    emit_counters(g, v, BEFORE, COUNTER);
    emit_counters(g, v, 0, 0);
    emit_counters(g, v, 1, 0);
    emit_counters(g, v, UINT32_MAX, UINT32_MAX - 1);
    emit_counters(g, v, 0x80000000, 1);
    emit_counters(g, v, 0x00000100, 0x000000ff);
    emit_counters(g, v, UINT32_MAX, UINT32_MAX);
}

/* One bit of the record turned, at each of its parts and at the ends of the tag. */
static void turned_bits(struct source *g, const struct level *v)
{
    static const size_t at[] = {0, 4, 5, 6, 10, 14, 269, 270, 301};
    for (size_t i = 0; i < sizeof at / sizeof at[0]; i++) {
        struct test_case c = good(g, v);
        c.in[1].bytes[at[i]] ^= 1;
        emit(&c);
    }
}

/* For another kart; and with a bad tag, an old counter, or both. */
static void other_kart(struct source *g, const struct level *v)
{
    for (unsigned marks = 0; marks < 4; marks++) {
        struct test_case c = good(g, v);
        c.given[0] = 0x04030201;
        c.in[1].bytes[301] ^= (uint8_t)(marks & 1);
        c.given[1] = marks & 2 ? UINT32_MAX : BEFORE;
        emit(&c);
    }
}

static void set_head(struct test_case *c, uint32_t body, uint32_t kind)
{
    for (int i = 0; i < 4; i++)
        c->in[1].bytes[i] = (uint8_t)(body >> 8 * i);
    c->in[1].bytes[4] = (uint8_t)kind;
    c->in[1].bytes[5] = (uint8_t)(kind >> 8);
}

static void forms(struct source *g, const struct level *v)
{
    static const size_t lengths[] = {0, 5, 6, 301, 303, 340};
    struct test_case c = good(g, v), other = c;
    uint32_t kind = 256 * v->number + 7, other_level = v->number == 1 ? 3 : 1;
    for (size_t i = 0; i < sizeof lengths / sizeof lengths[0]; i++) {
        struct test_case cut = c;
        cut.in[1].n = lengths[i];
        emit(&cut);
    }
    static const struct {
        uint32_t body, kind;
        size_t n;
    } heads[] = {{297, 0, 302},        {295, 0, 302}, {297, 0, 303}, {0, 0, 302},
                 {UINT32_MAX, 0, 302}, {296, 1, 302}, {32, 1, 302},  {65832, 0, 302}};
    for (size_t i = 0; i < sizeof heads / sizeof heads[0]; i++) {
        struct test_case head = c;
        set_head(&head, heads[i].body, kind - 2 * heads[i].kind); /* thing 5 where it is not 7 */
        head.in[1].n = heads[i].n;
        emit(&head);
    }
    /* written at the other level, under this very key */
    uint8_t map[256];
    memcpy(map, c.in[1].bytes + 14, sizeof map);
    ref_map_write(other_level, c.in[0].bytes, c.in[0].n, KART, COUNTER, map, sizeof map, other.in[1].bytes,
                  other.in[1].n);
    emit(&other);
}

static void lengths(struct source *g, const struct level *v)
{
    struct test_case c = good(g, v);
    for (unsigned how = 0; how < BAD_LENGTHS; how++)
        for (unsigned buffer = 0; buffer < 3; buffer += 2)
            emit_bad_buffer(&c, g, buffer, (enum bad_length)how);
    c.in[1].n = 0; /* and cut */
    emit_bad_buffer(&c, g, 2, ONE_LESS);
    c.level = 2;
    emit_bad_buffer(&c, g, 2, ONE_MORE);
    emit(&c);
}

static void maps(struct source *g, const struct level *v)
{
    writings(g, v);
    counters(g, v);
    turned_bits(g, v);
    other_kart(g, v);
    forms(g, v);
    lengths(g, v);
}

void committed_maps(void)
{
    struct source g = source_of("committed maps");
    for (uint32_t level = 1; level <= 3; level += 2)
        maps(&g, level_of(level));
}

void committed_maps_5(void)
{
    struct source g = source_of("committed maps 5");
    maps(&g, level_of(5));
}
