/* Processor time of the library and of the second program in one run, and the library's stack: key making, wrapping and
 * opening at each level. */
#include <pthread.h>
#include <stdio.h>
#include <stdlib.h>
#include <string.h>
#include <time.h>

#include "../reference/casefile.h"
#include "../reference/generator.h"
#include "bike.h"
#include "doors.h"

enum { DEFAULT_MILLISECONDS = 500, MOST_MILLISECONDS = 60000, RUNS = 9, STACK_BYTES = 1 << 21, MARK = 0xa5 };

static const char program[] = "bench";

/* The buffers of an exchange, as long as Level 5 needs them. */
static struct {
    uint8_t seed[BIKE_SEED_BYTES], message[BIKE_MESSAGE_BYTES], session_key[BIKE_SESSION_KEY_BYTES];
    uint8_t public_key[BIKE_LEVEL_5_PUBLIC_KEY_BYTES], private_key[BIKE_LEVEL_5_PRIVATE_KEY_BYTES];
    uint8_t ciphertext[BIKE_LEVEL_5_CIPHERTEXT_BYTES], report[BIKE_REPORT_BYTES];
} lent;

/* A work of one of the two at a level. */
struct job {
    uint32_t (*call)(const struct doors *doors, const struct level *v);
    const struct doors *doors;
    const struct level *v;
};

static uint32_t nothing(const struct doors *doors, const struct level *v)
{
    return doors != NULL && v != NULL ? BIKE_DONE : BIKE_NO_LEVEL;
}

static uint32_t make_key(const struct doors *doors, const struct level *v)
{
    return doors->make_key(v->number, lent.seed, sizeof lent.seed, lent.public_key, polynomial_bytes(v),
                           lent.private_key, private_key_bytes(v), lent.report, sizeof lent.report);
}

static uint32_t wrap(const struct doors *doors, const struct level *v)
{
    return doors->wrap(v->number, lent.public_key, polynomial_bytes(v), lent.message, sizeof lent.message,
                       lent.ciphertext, ciphertext_bytes(v), lent.session_key, sizeof lent.session_key);
}

static uint32_t open(const struct doors *doors, const struct level *v)
{
    return doors->open(v->number, lent.private_key, private_key_bytes(v), lent.ciphertext, ciphertext_bytes(v),
                       lent.session_key, sizeof lent.session_key);
}

static void *done(void *argument)
{
    const struct job *job = argument;
    if (job->call(job->doors, job->v) != BIKE_DONE)
        refuse(program, "a call was refused", "");
    return NULL;
}

static double seconds(void)
{
    struct timespec now;
    clock_gettime(CLOCK_PROCESS_CPUTIME_ID, &now);
    return (double)now.tv_sec + (double)now.tv_nsec / 1e9;
}

/* Milliseconds of one call, from as many calls as fill the time. */
static double time_of(struct job job, double milliseconds)
{
    unsigned long calls = 0;
    double start = seconds(), taken = 0;
    while (calls == 0 || taken * 1000 < milliseconds) {
        done(&job);
        calls++;
        taken = seconds() - start;
    }
    return taken * 1000 / (double)calls;
}

/* Of several runs that fill the time together. */
struct times {
    double median, least;
};

static struct times times_of(struct job job, unsigned long milliseconds)
{
    double rising[RUNS];
    for (int n = 0; n < RUNS; n++) {
        double time = time_of(job, (double)milliseconds / RUNS);
        int at = n;
        for (; at > 0 && rising[at - 1] > time; at--)
            rising[at] = rising[at - 1];
        rising[at] = time;
    }
    return (struct times){rising[RUNS / 2], rising[0]};
}

/* How much of a thread's own stack does not hold the mark any more. */
static size_t touched_by(struct job job)
{
    static _Alignas(4096) uint8_t stack[STACK_BYTES];
    pthread_t thread;
    pthread_attr_t attributes;
    size_t left = 0;
    memset(stack, MARK, sizeof stack);
    if (pthread_attr_init(&attributes) != 0 || pthread_attr_setstack(&attributes, stack, sizeof stack) != 0
        || pthread_create(&thread, &attributes, done, &job) != 0 || pthread_join(thread, NULL) != 0)
        refuse(program, "no thread can be started", "");
    while (left < sizeof stack && stack[left] == MARK)
        left++;
    return sizeof stack - left;
}

static size_t stack_of(struct job job)
{
    return touched_by(job) - touched_by((struct job){nothing, job.doors, job.v});
}

/* In the order in which each work finds what it needs in the buffers. */
static const struct {
    const char *name;
    uint32_t (*call)(const struct doors *doors, const struct level *v);
} works[] = {{"key making", make_key}, {"wrapping", wrap}, {"opening", open}};

static void bench(const struct level *v, unsigned long milliseconds)
{
    struct source g = source_of("bench");
    source_bytes(&g, lent.seed, sizeof lent.seed);
    source_bytes(&g, lent.message, sizeof lent.message);
    printf("Level %lu               library           reference  reference / library  library's stack\n",
           (unsigned long)v->number);
    for (size_t i = 0; i < sizeof works / sizeof works[0]; i++) {
        struct job ours = {works[i].call, &library, v}, theirs = {works[i].call, &reference, v};
        struct times a = times_of(ours, milliseconds), b = times_of(theirs, milliseconds);
        printf("  %-10s %8.3f %8.3f   %8.3f %8.3f %20.2f %13lu kB\n", works[i].name, a.median, a.least, b.median,
               b.least, b.median / a.median, (unsigned long)(stack_of(ours) + 999) / 1000);
    }
}

/* What host/run tells by this name. */
static const char *told(const char *name)
{
    const char *text = getenv(name);
    return text != NULL && text[0] != '\0' ? text : "unknown";
}

int main(int argc, char **argv)
{
    if (argc > 2)
        refuse(program, "wanted: at most one number, the milliseconds to spend on each figure", "");
    unsigned long milliseconds = argc == 2 ? number_of(program, argv[1], MOST_MILLISECONDS) : DEFAULT_MILLISECONDS;
    printf("Processor: %s; kit: %s.\n", told("PROCESSOR"), told("KIT"));
    printf("Processor time of a call in milliseconds, median and least of %d runs.\n", RUNS);
    for (uint32_t level = 1; level <= 5; level += 2)
        bench(level_of(level), milliseconds);
    puts("Decoding has no door of its own; it is most of opening.");
    return 0;
}
