/* What host/secrets runs under valgrind: the doors of an exchange and of a map with their secrets marked, a planted
 * leak, or one opening that is to be counted. */
#include <stdbool.h>
#include <stdio.h>
#include <stdlib.h>
#include <string.h>

#include "bike.h"
#include "bike_map.h"
#include "memcheck.h"

enum { KART = 7 };

/* The buffers of an exchange, as long as Level 5 needs them, and of a map. */
static struct {
    uint8_t seed[BIKE_SEED_BYTES], message[BIKE_MESSAGE_BYTES], session_key[BIKE_SESSION_KEY_BYTES];
    uint8_t public_key[BIKE_LEVEL_5_PUBLIC_KEY_BYTES], private_key[BIKE_LEVEL_5_PRIVATE_KEY_BYTES];
    uint8_t ciphertext[BIKE_LEVEL_5_CIPHERTEXT_BYTES], report[BIKE_REPORT_BYTES];
    uint8_t map[BIKE_MAP_BYTES], record[BIKE_MAP_RECORD_BYTES];
} lent;

struct lengths {
    uint32_t level;
    size_t public_key, private_key, ciphertext;
    uint8_t last; /* the most that the last byte of a polynomial can be */
};

static const struct lengths levels[] = {
    {BIKE_LEVEL_1, BIKE_LEVEL_1_PUBLIC_KEY_BYTES, BIKE_LEVEL_1_PRIVATE_KEY_BYTES, BIKE_LEVEL_1_CIPHERTEXT_BYTES,
     0x07},
    {BIKE_LEVEL_3, BIKE_LEVEL_3_PUBLIC_KEY_BYTES, BIKE_LEVEL_3_PRIVATE_KEY_BYTES, BIKE_LEVEL_3_CIPHERTEXT_BYTES,
     0x07},
    {BIKE_LEVEL_5, BIKE_LEVEL_5_PUBLIC_KEY_BYTES, BIKE_LEVEL_5_PRIVATE_KEY_BYTES, BIKE_LEVEL_5_CIPHERTEXT_BYTES,
     0x1f},
};

enum { LEVELS = sizeof levels / sizeof levels[0] };

/* Whether seed, message, private key and session key are marked. */
static bool marked;

static void secret(const uint8_t *bytes, size_t n)
{
    if (marked)
        mark_secret(bytes, n);
}

static _Noreturn void fail(const char *what)
{
    fprintf(stderr, "secrets: %s\n", what);
    exit(2);
}

/* An answer depends on secrets; that it is 0 does not. */
static void done(uint32_t answer)
{
    mark_public(&answer, sizeof answer);
    if (answer != BIKE_DONE)
        fail("a call was refused");
}

/* Bytes without a pattern, the same in every run (xorshift). */
static void fill(uint8_t *bytes, size_t n)
{
    static uint64_t state = 0x9e3779b97f4a7c15;
    for (size_t i = 0; i < n; i++) {
        state ^= state << 13;
        state ^= state >> 7;
        state ^= state << 17;
        bytes[i] = (uint8_t)(state >> 32);
    }
}

/* Public key and ciphertext are no secrets. */
static void make_key(const struct lengths *n)
{
    fill(lent.seed, sizeof lent.seed);
    secret(lent.seed, sizeof lent.seed);
    done(bike_make_key(n->level, lent.seed, sizeof lent.seed, lent.public_key, n->public_key,
                       lent.private_key, n->private_key, lent.report, sizeof lent.report));
    mark_public(lent.public_key, n->public_key);
}

static void wrap(const struct lengths *n)
{
    fill(lent.message, sizeof lent.message);
    secret(lent.message, sizeof lent.message);
    done(bike_wrap(n->level, lent.public_key, n->public_key, lent.message, sizeof lent.message,
                   lent.ciphertext, n->ciphertext, lent.session_key, sizeof lent.session_key));
    mark_public(lent.ciphertext, n->ciphertext);
}

/* The ciphertext as it was made, with one bit turned, or nothing but noise. */
static const char *const kinds[] = {"good", "damaged", "noise"};
enum { GOOD, DAMAGED, NOISE, KINDS };

static void spoil(const struct lengths *n, int kind)
{
    if (kind == DAMAGED)
        lent.ciphertext[100] ^= 1;
    if (kind == NOISE)
        fill(lent.ciphertext, n->ciphertext);
    lent.ciphertext[n->public_key - 1] &= n->last;
}

static void open(const struct lengths *n)
{
    secret(lent.private_key, n->private_key);
    done(bike_open(n->level, lent.private_key, n->private_key, lent.ciphertext, n->ciphertext,
                   lent.session_key, sizeof lent.session_key));
}

static uint32_t accept_map(const struct lengths *n, uint32_t *last)
{
    uint32_t answer = bike_map_accept(n->level, lent.session_key, sizeof lent.session_key, KART,
                                      lent.record, sizeof lent.record, lent.map, sizeof lent.map, last);
    mark_public(&answer, sizeof answer);
    return answer;
}

/* A map under a fresh session key, and once more with a bit of its tag turned. Map and record are no secrets. */
static void maps(const struct lengths *n)
{
    uint32_t last = BIKE_MAP_NEW_SESSION;
    fill(lent.session_key, sizeof lent.session_key);
    secret(lent.session_key, sizeof lent.session_key);
    done(bike_map_write(n->level, lent.session_key, sizeof lent.session_key, KART, 1, lent.map, sizeof lent.map,
                        lent.record, sizeof lent.record));
    mark_public(lent.record, sizeof lent.record);
    done(accept_map(n, &last));
    lent.record[sizeof lent.record - 1] ^= 1;
    if (accept_map(n, &last) != BIKE_MAP_OTHER_TAG)
        fail("a wrong tag was taken");
}

/* Every door at every level, a fresh message for each kind of ciphertext. */
static void all_doors(void)
{
    for (int i = 0; i < LEVELS; i++) {
        make_key(&levels[i]);
        for (int kind = GOOD; kind < KINDS; kind++) {
            wrap(&levels[i]);
            spoil(&levels[i], kind);
            open(&levels[i]);
        }
        maps(&levels[i]);
    }
}

/* The counter looks at the opening alone. */
static void one_opening(const char *level, const char *name)
{
    const struct lengths *n = levels;
    while (n < levels + LEVELS && n->level != strtoul(level, NULL, 10))
        n++;
    if (n == levels + LEVELS)
        fail("there is no such level");
    int kind = GOOD;
    while (kind < KINDS && strcmp(kinds[kind], name) != 0)
        kind++;
    make_key(n);
    wrap(n);
    spoil(n, kind);
    open(n);
}

/* The leak that must be found: a jump and an address by a secret. */
static volatile uint8_t seen;

__attribute__((noinline)) static void planted_jump(uint8_t byte)
{
    if (byte % 2 == 1)
        seen = byte;
}

__attribute__((noinline)) static void planted_address(uint8_t byte)
{
    seen = lent.public_key[byte];
}

static void planted(void)
{
    fill(lent.seed, sizeof lent.seed);
    secret(lent.seed, sizeof lent.seed);
    planted_jump(lent.seed[0]);
    planted_address(lent.seed[0]);
}

int main(int argc, char **argv)
{
    const char *what = argc >= 2 ? argv[1] : "";
    marked = strcmp(what, "marked") == 0 || strcmp(what, "planted") == 0;
    if (strcmp(what, "planted") == 0)
        planted();
    else if (strcmp(what, "open") == 0 && argc == 4)
        one_opening(argv[2], argv[3]);
    else if (argc == 2 && (marked || strcmp(what, "unmarked") == 0))
        all_doors();
    else
        fail("wanted: planted, unmarked, marked, or open LEVEL KIND");
    return 0;
}
