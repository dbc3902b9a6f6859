/* Writes case files with the lines that a right program answers them with; see usage(). */
#include "cases.h"

#include <stdio.h>
#include <string.h>

#include "generator.h"
#include "wrong.h"

static const char program[] = "cases";

static struct {
    FILE *cases, *expected;
    unsigned long count;
    int reading; /* of the expected lines: 0 is the right one */
} to;

void emit(const struct test_case *c)
{
    static struct result result;
    case_write(to.cases, c);
    ref_wrong = to.reading;
    case_run(c, &result);
    ref_wrong = W_NONE;
    case_print(to.expected, ++to.count, c, &result);
}

static void random_cases(const char *seed, unsigned long count)
{
    struct test_case c;
    struct source g = source_of(seed);
    for (unsigned long i = 0; i < count; i++) {
        random_case(&c, &g);
        emit(&c);
    }
}

static void answer(void)
{
    struct test_case c;
    static struct result result;
    unsigned long count = 0;
    while (count < CASES_MAX) {
        enum reading reading = case_read(stdin, &c);
        if (reading == CASE_BAD)
            printf("bad case %lu\n", count + 1);
        if (reading != CASE_READ)
            break;
        case_run(&c, &result);
        case_print(stdout, ++count, &c, &result);
    }
    printf("end %lu\n", count);
}

static void usage(void)
{
    fputs("usage: cases SEED COUNT CASES EXPECTED [--wrong N]   COUNT random cases, determined by SEED\n"
          "       cases --committed CASES EXPECTED [--wrong N]  the fixed set that a repository keeps\n"
          "       cases --answer                                the lines for the case file on standard input\n"
          "Writes the case file to CASES and the lines that answer it to EXPECTED, with --wrong N those of a wrong\n"
          "reading (tells prints their numbers). COUNT is at most 65536.\n",
          stdout);
}

static FILE *create(const char *path)
{
    FILE *file = fopen(path, "wb");
    if (file == NULL)
        refuse(program, "cannot write ", path);
    return file;
}

static void close_file(FILE *file, const char *path)
{
    if (ferror(file) || fclose(file) != 0)
        refuse(program, "cannot write ", path);
}

int main(int argc, char **argv)
{
    if (argc == 2 && strcmp(argv[1], "--help") == 0) {
        usage();
        return 0;
    }
    if (argc == 2 && strcmp(argv[1], "--answer") == 0) {
        answer();
        return ferror(stdin) || ferror(stdout);
    }
    if (argc >= 4 && strcmp(argv[argc - 2], "--wrong") == 0) {
        to.reading = (int)number_of(program, argv[argc - 1], W_COUNT - 1);
        argc -= 2;
    }
    bool fixed = argc == 4 && strcmp(argv[1], "--committed") == 0;
    if (!fixed && argc != 5)
        refuse(program, "wrong arguments; see --help", "");
    unsigned long count = fixed ? 0 : number_of(program, argv[2], CASES_MAX);
    to.cases = create(argv[argc - 2]);
    to.expected = create(argv[argc - 1]);
    if (fixed) {
        committed();
        committed_maps();
        committed_syndromes();
        committed_rotations();
        committed_level_5();
    } else {
        random_cases(argv[1], count);
    }
    fprintf(to.expected, "end %lu\n", to.count);
    close_file(to.cases, argv[argc - 2]);
    close_file(to.expected, argv[argc - 1]);
    return 0;
}
