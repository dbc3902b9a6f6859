/* What stays on the stack after a call, and that bike_wipe_stack leaves nothing of it: each call runs in a thread whose
 * stack is ours to look at. */
#include <pthread.h>
#include <stdio.h>
#include <stdlib.h>
#include <string.h>
#include <sys/random.h>

#include "bike.h"
#include "bike_map.h"

enum { THREAD_BYTES = 1 << 21, PIECE = 32 };

static _Alignas(4096) uint8_t stack[THREAD_BYTES];

/* The buffers of an exchange at Level 1. A piece of 32 bytes stands for each secret; of the private key, its first
 * positions. */
static uint8_t seed[BIKE_SEED_BYTES], message[BIKE_MESSAGE_BYTES], session_key[BIKE_SESSION_KEY_BYTES];
static uint8_t public_key[BIKE_LEVEL_1_PUBLIC_KEY_BYTES], private_key[BIKE_LEVEL_1_PRIVATE_KEY_BYTES];
static uint8_t ciphertext[BIKE_LEVEL_1_CIPHERTEXT_BYTES], report[BIKE_REPORT_BYTES];
static uint8_t map[BIKE_MAP_BYTES], record[BIKE_MAP_RECORD_BYTES], right_tag[PIECE];

static _Noreturn void fail(const char *what)
{
    fprintf(stderr, "wipe: %s\n", what);
    exit(1);
}

static uint32_t make_key(void)
{
    return bike_make_key(BIKE_LEVEL_1, seed, sizeof seed, public_key, sizeof public_key,
                         private_key, sizeof private_key, report, sizeof report);
}

static uint32_t wrap(void)
{
    return bike_wrap(BIKE_LEVEL_1, public_key, sizeof public_key, message, sizeof message,
                     ciphertext, sizeof ciphertext, session_key, sizeof session_key);
}

static uint32_t open(void)
{
    return bike_open(BIKE_LEVEL_1, private_key, sizeof private_key, ciphertext, sizeof ciphertext,
                     session_key, sizeof session_key);
}

/* A record whose tag is then damaged. Its right tag is a secret: with it the record would go in. */
static uint32_t write_map(void)
{
    uint8_t *tag = record + sizeof record - PIECE;
    uint32_t answer = bike_map_write(BIKE_LEVEL_1, session_key, sizeof session_key, 7, 1, map, sizeof map,
                                     record, sizeof record);
    memcpy(right_tag, tag, PIECE);
    tag[0] ^= 1;
    return answer;
}

static uint32_t refuse_map(void)
{
    uint32_t last = BIKE_MAP_NEW_SESSION;
    uint32_t answer = bike_map_accept(BIKE_LEVEL_1, session_key, sizeof session_key, 7, record, sizeof record,
                                      map, sizeof map, &last);
    return answer == BIKE_MAP_OTHER_TAG ? BIKE_DONE : answer;
}

struct job {
    const char *name;
    uint32_t (*call)(void);
    const uint8_t *secrets[3]; /* or NULL */
};

static const struct job jobs[] = {
    {"key making", make_key, {seed, seed + PIECE, private_key}},
    {"wrapping", wrap, {message, session_key, NULL}},
    {"opening", open, {message, session_key, private_key}},
    {"writing a map", write_map, {session_key, NULL, NULL}},
    {"refusing a map", refuse_map, {session_key, right_tag, NULL}},
};

static void *only_call(void *argument)
{
    const struct job *job = argument;
    if (job->call() != BIKE_DONE)
        fail("a call was refused");
    return NULL;
}

static void *call_and_wipe(void *argument)
{
    only_call(argument);
    bike_wipe_stack();
    return NULL;
}

/* How many copies of the job's secrets a thread leaves. */
static unsigned long left_by(void *(*start)(void *), const struct job *job)
{
    pthread_t thread;
    pthread_attr_t attributes;
    unsigned long copies = 0;
    memset(stack, 0, sizeof stack);
    if (pthread_attr_init(&attributes) != 0 || pthread_attr_setstack(&attributes, stack, sizeof stack) != 0
        || pthread_create(&thread, &attributes, start, (void *)job) != 0 || pthread_join(thread, NULL) != 0)
        fail("no thread can be started");
    for (size_t at = 0; at + PIECE <= sizeof stack; at++)
        for (int i = 0; i < 3; i++)
            copies += job->secrets[i] != NULL && memcmp(stack + at, job->secrets[i], PIECE) == 0;
    return copies;
}

int main(void)
{
    unsigned long before = 0, after = 0;
    long got = getrandom(seed, sizeof seed, 0) + getrandom(message, sizeof message, 0);
    if (got != (long)(sizeof seed + sizeof message))
        fail("no random bytes");
    for (size_t i = 0; i < sizeof jobs / sizeof jobs[0]; i++) {
        unsigned long plain = left_by(only_call, &jobs[i]), wiped = left_by(call_and_wipe, &jobs[i]);
        printf("copies of secrets on the stack after %-14s  %lu; after bike_wipe_stack  %lu\n", jobs[i].name, plain,
               wiped);
        before += plain;
        after += wiped;
    }
    if (before == 0 || after != 0)
        fail(after != 0 ? "something is left" : "nothing is left in any case: this shows nothing");
    return 0;
}
