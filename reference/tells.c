/* Shows that a case file tells each wrong reading from the right one, or searches decoder cases; see usage(). */
#include <stdio.h>
#include <stdlib.h>
#include <string.h>

#include "casefile.h"
#include "generator.h"
#include "wrong.h"

/* A case of an entry without a level, or of a level that is refused, counts for all levels. */
enum class { LEVEL_1, LEVEL_3, LEVEL_5, NO_LEVEL, CLASSES };

static enum class class_of(const struct test_case *c)
{
    bool takes_level = c->entry >= PRODUCT && c->entry != READ_RECORD;
    if (!takes_level || level_of(c->level) == NULL)
        return NO_LEVEL;
    return c->level == 1 ? LEVEL_1 : c->level == 3 ? LEVEL_3 : LEVEL_5;
}

/* Some readings are wrong at Level 5 alone. Others are right there: its packed keys have 16 bits a position and no pad,
 * and its polynomials three pad bits. */
static bool concerns(int reading, enum class class)
{
    static const int right_at_5[] = {W_PACK_16, W_PACK_NEW_BYTE, W_UNPACK_NO_PAD, W_UNPACK_LAST_PAD,
                                     W_UNPACK_FOUR_FIRST, W_PAD_FROM_5};
    if (reading >= W_PAD_FROM_3 && class != LEVEL_5)
        return false;
    for (size_t i = 0; i < sizeof right_at_5 / sizeof right_at_5[0]; i++)
        if (reading == right_at_5[i] && class == LEVEL_5)
            return false;
    return true;
}

struct line {
    struct test_case test;
    struct result right;
};

static const char program[] = "tells";

static struct line *lines;
static unsigned long count;

static void usage(void)
{
    fputs("usage: tells CASES                              a table: the first case that tells each wrong reading\n"
          "       tells --search LEVEL KIND WEIGHT FROM TO  the wrong readings that each numbered decoder case tells\n"
          "KIND: 0 random error, 1 and a stray bit, 2 under a key of close positions, 3 at the key's own positions,\n"
          "4 under a key of a window; 5 an honest opening under such a key, of any WEIGHT.\n"
          "The first fails unless each reading is told at every level that it concerns, or by a case that has no good level.\n",
          stdout);
}

static void run_right(struct line *line)
{
    ref_wrong = W_NONE;
    case_run(&line->test, &line->right);
}

static bool is_told(const struct line *line, int reading)
{
    static struct result result;
    ref_wrong = reading;
    case_run(&line->test, &result);
    ref_wrong = W_NONE;
    return !case_same(&line->test, &line->right, &result);
}

static void load(const char *path)
{
    FILE *file = fopen(path, "rb");
    if (file == NULL)
        refuse(program, "cannot read ", path);
    enum reading reading = CASE_READ;
    while (reading == CASE_READ) {
        struct line *more = realloc(lines, (count + 1) * sizeof *lines);
        if (more == NULL)
            refuse(program, "out of memory for ", path);
        lines = more;
        reading = case_read(file, &lines[count].test);
        if (reading == CASE_READ)
            run_right(&lines[count++]);
    }
    if (reading == CASE_BAD)
        refuse(program, "a bad case in ", path);
    fclose(file);
}

/* Whether the cases found tell a reading, at each level that it concerns where it has to do with levels. */
static bool enough(int reading, const unsigned long first[CLASSES])
{
    bool each = true;
    for (int class = LEVEL_1; class < NO_LEVEL; class++)
        each = each && (first[class] != 0 || !concerns(reading, (enum class)class));
    return first[NO_LEVEL] != 0 || each;
}

/* The first case of each class that tells the reading, 0 for none; looks no further than to have enough. */
static bool find_first(int reading, unsigned long first[CLASSES])
{
    for (unsigned long i = 0; i < count && !enough(reading, first); i++) {
        enum class class = class_of(&lines[i].test);
        if (first[class] == 0 && is_told(&lines[i], reading))
            first[class] = i + 1;
    }
    return enough(reading, first);
}

static void print_case(unsigned long ordinal)
{
    if (ordinal == 0)
        printf("%8s", "-");
    else
        printf("%8lu", ordinal);
}

static bool table(void)
{
    int missing = 0;
    printf("wrong Level 1 Level 3 Level 5    none  (first case that tells it)\n");
    for (int reading = 1; reading < W_COUNT; reading++) {
        unsigned long first[CLASSES] = {0};
        bool told = find_first(reading, first);
        missing += !told;
        printf("%5d", reading);
        for (int class = 0; class < CLASSES; class++)
            print_case(first[class]);
        printf("  %s%s\n", wrong_text[reading], told ? "" : "  NOT TOLD");
    }
    printf("%d wrong readings, %d not told apart\n", W_COUNT - 1, missing);
    return missing == 0;
}

static uint32_t number(const char *text)
{
    return (uint32_t)number_of(program, text, UINT32_MAX);
}

static bool of_decoder(int reading)
{
    return (reading >= W_MINUS_P && reading <= W_WEIGHT_T) || reading == W_SLOPE || reading == W_LEAST
           || (reading >= W_SLOPE_OF_3 && reading <= W_MASKED_OF_3);
}

static void search(char **argv)
{
    static struct line line;
    const struct level *v = level_of(number(argv[0]));
    uint32_t kind = number(argv[1]), weight = number(argv[2]), to = number(argv[4]);
    if (v == NULL || kind > ERROR_KINDS || weight > (kind == OWN_PATTERN ? v->d : v->r))
        refuse(program, "no such level, kind or weight", "");
    for (uint32_t n = number(argv[3]); n < to; n++) {
        if (kind == ERROR_KINDS)
            case_open_numbered(&line.test, v, n);
        else
            case_decode_numbered(&line.test, v, (enum error_kind)kind, weight, n);
        run_right(&line);
        printf("%lu: answer %lu, told:", (unsigned long)n, (unsigned long)line.right.answer);
        for (int reading = 1; reading < W_COUNT; reading++)
            if (of_decoder(reading) && is_told(&line, reading))
                printf(" %d", reading);
        printf("\n");
    }
}

int main(int argc, char **argv)
{
    if (argc == 2 && strcmp(argv[1], "--help") == 0) {
        usage();
        return 0;
    }
    if (argc == 7 && strcmp(argv[1], "--search") == 0) {
        search(argv + 2);
        return 0;
    }
    if (argc != 2 || argv[1][0] == '-')
        refuse(program, "wrong arguments; see --help", "");
    load(argv[1]);
    return table() ? 0 : 1;
}
