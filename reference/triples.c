/* Writes files of triples for the bench report; see usage(). */
#include <stdio.h>
#include <string.h>

#include "generator.h"
#include "report.h"

static const char program[] = "triples";

enum { TRIPLE_MAX = 3 * 6 + PRIVATE_KEY_MAX + POLYNOMIAL_MAX + SHORT_BYTES };

/* The three records of a triple, one after the other; `start` is where each begins, and the last where all end. */
struct file {
    uint8_t bytes[TRIPLE_MAX];
    size_t start[4];
};

static uint8_t *add_record(struct file *file, int i, const struct level *v, uint32_t thing)
{
    uint8_t *head = file->bytes + file->start[i];
    size_t n = thing_bytes(v, thing);
    for (int k = 0; k < 4; k++)
        head[k] = (uint8_t)(n >> 8 * k);
    head[4] = (uint8_t)thing;
    head[5] = (uint8_t)v->number;
    file->start[i + 1] = file->start[i] + 6 + n;
    return head + 6;
}

static void put_triple(struct file *file, const struct level *v, const struct key *key, const struct poly *h,
                       const uint8_t *m)
{
    file->start[0] = 0;
    key_to_bytes(v, key, add_record(file, 0, v, 3));
    poly_to_bytes(h, add_record(file, 1, v, 2), polynomial_bytes(v));
    memcpy(add_record(file, 2, v, 5), m, SHORT_BYTES);
}

static void emit(const struct file *file)
{
    fwrite(file->bytes, 1, file->start[3], stdout);
}

/* Whose public key the triple has. */
enum owner { OWN, OTHERS, NOBODYS };

static struct poly public_of(struct source *g, const struct level *v, const struct key *key, enum owner owner)
{
    struct poly h = poly_zero();
    if (owner == OWN)
        key_public(v, key, &h);
    if (owner == OTHERS)
        h = random_public_key(g, v);
    return h;
}

static void random_triple(struct file *file, struct source *g, const struct level *v,
                          struct key (*some_key)(struct source *, const struct level *), enum owner owner,
                          uint32_t replaced)
{
    uint8_t m[SHORT_BYTES], digest[DIGEST_MAX];
    struct key key = some_key(g, v);
    struct poly h = public_of(g, v, &key, owner);
    digest_of_poly(v, &h, digest);
    message_bound(g, v, digest, replaced, m);
    put_triple(file, v, &key, &h, m);
}

/* One that decodes after so many rounds: honest ones take 2 or 3, a zero public key halves the error's weight, and keys
 * of a window take more. */
static void triple_decoding(struct file *file, struct source *g, const struct level *v, uint32_t rounds,
                            uint32_t replaced)
{
    struct report report;
    do {
        random_triple(file, g, v, rounds > 3 ? window_key : random_key, rounds < 2 ? NOBODYS : OWN, replaced);
        report = report_of(file->bytes, file->start[3]);
    } while (report.decoded[rounds] == 0);
}

/* Levels 1 and 3: 1 to 5 rounds, and undecoded; 0, 1 and 2 replaced positions. Then two of Level 5: 1 round under a zero
 * public key, and an honest one. */
static void committed(void)
{
    struct source g = source_of("bench report");
    struct file file;
    for (uint32_t rounds = 1; rounds <= ROUNDS_MOST; rounds++)
        for (uint32_t level = 1; level <= 3; level += 2) {
            triple_decoding(&file, &g, level_of(level), rounds, (rounds + level / 2) % 3);
            emit(&file);
        }
    for (uint32_t level = 1; level <= 3; level += 2) {
        random_triple(&file, &g, level_of(level), random_key, OTHERS, 1);
        emit(&file);
    }
    for (uint32_t rounds = 1; rounds <= 2; rounds++) {
        triple_decoding(&file, &g, level_of(5), rounds, rounds);
        emit(&file);
    }
}

/* What stops a run: a record's head, its place, its absence, or what the triple holds. */
static void damage(struct file *file, struct source *g, const struct level *v)
{
    int i = (int)source_below(g, 3);
    uint8_t *head = file->bytes + file->start[i];
    size_t pad = file->start[1] + 6 + polynomial_bytes(v) - 1, position = 6 + 2 * source_below(g, 2 * v->d);
    uint32_t how = source_below(g, 7);
    switch (how) {
    case 0: head[source_below(g, 4)] ^= (uint8_t)(1u << source_below(g, 8)); break;
    case 1: head[4] = (uint8_t)source_below(g, 9); break;
    case 2: head[5] = (uint8_t)source_below(g, 6); break;
    case 3: file->start[3] = source_below(g, (uint32_t)file->start[3]); break;
    case 4: file->bytes[pad] |= (uint8_t)(1u << (v->r % 8 + source_below(g, 8 - v->r % 8))); break;
    case 5: file->bytes[position + 1] = 0xff; break;
    default: file->bytes[pad] |= 0x80, file->bytes[position + 1] = 0xff; break;
    }
}

/* Three triples of any level and kind, of which one is damaged. */
static void random_file(const char *seed)
{
    struct source g = source_of(seed);
    uint32_t damaged = source_below(&g, 3);
    for (uint32_t i = 0; i < 3; i++) {
        struct file file;
        const struct level *v = level_of(1 + 2 * source_below(&g, 3));
        enum owner owner = (enum owner)source_below(&g, 3);
        uint32_t near = source_below(&g, 2);
        random_triple(&file, &g, v, near == 0 ? window_key : random_key, owner, source_below(&g, 3));
        if (i == damaged)
            damage(&file, &g, v);
        emit(&file);
    }
}

static void usage(void)
{
    fputs("usage: triples SEED         three triples of records, one of them damaged, determined by SEED\n"
          "       triples --committed  the fixed file that a repository keeps\n",
          stdout);
}

int main(int argc, char **argv)
{
    if (argc != 2)
        refuse(program, "wrong arguments; see --help", "");
    if (strcmp(argv[1], "--help") == 0)
        usage();
    else if (strcmp(argv[1], "--committed") == 0)
        committed();
    else
        random_file(argv[1]);
    return ferror(stdout) || fflush(stdout) != 0;
}
