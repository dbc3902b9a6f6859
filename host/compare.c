/* The libraries and the second program in one process, on random and on damaged input. */
#include <stdbool.h>
#include <stdio.h>
#include <string.h>
#include <sys/random.h>

#include "../reference/casefile.h"
#include "../reference/generator.h"
#include "../reference/wrong.h"
#include "bike.h"
#include "doors.h"

enum { GUARD = 64, GUARD_BYTE = 0x3c, OLD_BYTE = 0xa5, MOST = 1000000, PROGRESS = 500 };

static const char program[] = "compare";

/* A buffer with guard bytes before and after it. */
struct lent {
    size_t n;
    uint8_t room[GUARD + BUFFER_MAX + GUARD];
};

/* Key making's door has a report besides. */
struct outcome {
    uint32_t answer, counter;
    struct lent in[3], out[2], report; /* in[2] is a stored map, which a call may change */
};

static uint8_t *bytes_of(struct lent *lent)
{
    return lent->room + GUARD;
}

static void lend(struct lent *lent, size_t n)
{
    lent->n = n;
    memset(lent->room, GUARD_BYTE, sizeof lent->room);
    memset(bytes_of(lent), OLD_BYTE, n);
}

static bool guards_stand(const struct lent *lent)
{
    for (size_t i = 0; i < sizeof lent->room; i++)
        if ((i < GUARD || i >= GUARD + lent->n) && lent->room[i] != GUARD_BYTE)
            return false;
    return true;
}

static uint32_t call(const struct doors *doors, const struct test_case *c, struct outcome *o)
{
    const uint8_t *a = bytes_of(&o->in[0]), *b = bytes_of(&o->in[1]);
    uint8_t *x = bytes_of(&o->out[0]), *y = bytes_of(&o->out[1]);
    size_t an = c->in[0].n, bn = c->in[1].n, xn = c->out[0], yn = c->out[1];
    switch (c->entry) {
    case MAKE_KEY: return doors->make_key(c->level, a, an, x, xn, y, yn, bytes_of(&o->report), o->report.n);
    case WRAP: return doors->wrap(c->level, a, an, b, bn, x, xn, y, yn);
    case OPEN: return doors->open(c->level, a, an, b, bn, x, xn);
    case PACK_KEY: return doors->pack_key(c->level, a, an, x, xn);
    case UNPACK_KEY: return doors->unpack_key(c->level, a, an, x, xn);
    case WRITE_MAP: return doors->map_write(c->level, a, an, c->given[0], c->given[1], b, bn, x, xn);
    default:
        return doors->map_accept(c->level, a, an, c->given[0], b, bn, bytes_of(&o->in[2]), c->in[2].n, &o->counter);
    }
}

static void run(const struct doors *doors, const struct test_case *c, size_t report, struct outcome *o)
{
    lend(&o->report, report);
    for (int i = 0; i < 3; i++) {
        lend(&o->in[i], c->in[i].n);
        memcpy(bytes_of(&o->in[i]), c->in[i].bytes, c->in[i].n);
    }
    for (int i = 0; i < 2; i++)
        lend(&o->out[i], c->out[i]);
    o->counter = c->given[1];
    o->answer = call(doors, c, o);
}

/* What the two outcomes differ in, or what a call has no right to; NULL where all is well. */
static const char *difference(const struct test_case *c, struct outcome *got, struct outcome *wanted)
{
    if (got->answer != wanted->answer)
        return "another answer";
    for (int i = 0; i < 2; i++) {
        if (memcmp(bytes_of(&got->out[i]), bytes_of(&wanted->out[i]), c->out[i]) != 0)
            return "another output";
        if (memcmp(bytes_of(&got->in[i]), c->in[i].bytes, c->in[i].n) != 0)
            return "an input was changed";
        if (!guards_stand(&got->in[i]) || !guards_stand(&got->out[i]))
            return "a byte outside a buffer was changed";
    }
    if (memcmp(got->report.room, wanted->report.room, sizeof got->report.room) != 0)
        return "another report, or a byte outside it was changed";
    if (memcmp(got->in[2].room, wanted->in[2].room, sizeof got->in[2].room) != 0 || got->counter != wanted->counter)
        return "another map or counter is kept, or a byte outside the map was changed";
    return NULL;
}

/* The report's length, in one of eight calls a wrong one. */
static size_t report_length(struct source *g)
{
    static const size_t lengths[] = {0, 8, 15, 17};
    return source_below(g, 8) == 0 ? lengths[source_below(g, 4)] : BIKE_REPORT_BYTES;
}

/* The entries that have a door. */
static const struct {
    uint32_t entry;
    const char *calls;
} tried[] = {{MAKE_KEY, "key makings"}, {WRAP, "wrappings"}, {OPEN, "openings"}, {PACK_KEY, "packings"},
             {UNPACK_KEY, "unpackings"}, {WRITE_MAP, "map writings"}, {ACCEPT_MAP, "map acceptances"}};
enum { TRIED = sizeof tried / sizeof tried[0] };

/* Calls made and calls refused, by entry. */
struct counts {
    unsigned long made[ENTRIES], refused;
};

/* The reading is the second program's: 0 is the right one, and any other ought to show. */
static bool compare(struct source *g, unsigned long count, int reading, struct counts *counts)
{
    static struct test_case c;
    static struct outcome got, wanted;
    for (unsigned long i = 1; i <= count; i++) {
        random_case_of(&c, g, tried[source_below(g, TRIED)].entry);
        size_t report = report_length(g);
        run(&library, &c, report, &got);
        ref_wrong = reading;
        run(&reference, &c, report, &wanted);
        ref_wrong = W_NONE;
        const char *what = difference(&c, &got, &wanted);
        if (what != NULL) {
            printf("call %lu (entry %lu, level %lu): %s; answers %lu and, by the reference, %lu\n", i,
                   (unsigned long)c.entry, (unsigned long)c.level, what, (unsigned long)got.answer,
                   (unsigned long)wanted.answer);
            return false;
        }
        counts->made[c.entry]++;
        counts->refused += got.answer != 0;
        if (i % PROGRESS == 0)
            fprintf(stderr, "compare: %lu of %lu calls agree\n", i, count);
    }
    return true;
}

static void fresh_seed(char *text, size_t n)
{
    uint8_t bytes[8];
    if (getrandom(bytes, sizeof bytes, 0) != (long)sizeof bytes)
        refuse(program, "no random bytes: give a SEED", "");
    for (size_t i = 0; i < sizeof bytes; i++)
        snprintf(text + 2 * i, n - 2 * i, "%02x", bytes[i]);
}

int main(int argc, char **argv)
{
    char fresh[17];
    struct counts counts = {0};
    if (argc < 2 || argc > 4)
        refuse(program, "wanted: COUNT, the number of calls, perhaps an earlier run's SEED, and a wrong reading", "");
    unsigned long count = number_of(program, argv[1], MOST);
    int reading = argc == 4 ? (int)number_of(program, argv[3], W_COUNT - 1) : W_NONE;
    fresh_seed(fresh, sizeof fresh);
    const char *seed = argc >= 3 ? argv[2] : fresh;
    printf("seed %s\n", seed);
    fflush(stdout); /* a run that is broken off has told its seed */
    struct source g = source_of(seed);
    if (!compare(&g, count, reading, &counts))
        return 1;
    printf("%lu agree:", count);
    for (int i = 0; i < TRIED; i++)
        printf(" %lu %s%s", counts.made[tried[i].entry], tried[i].calls, i + 1 < TRIED ? "," : "");
    printf("; %lu of them refusals\n", counts.refused);
    return 0;
}
