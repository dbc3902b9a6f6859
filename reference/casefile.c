/* Case files: reading, writing and running a case; and what the programs say of bad arguments. */
#include "casefile.h"

#include <stdlib.h>
#include <string.h>

#include "scheme.h"

/* A number that is no entry's has no inputs. */
static const struct {
    unsigned given, ins, outs, numbers;
} shapes[ENTRIES] = {
    [SHAKE256] = {0, 1, 1, 0},        [SHA3_384] = {0, 1, 1, 0},    [PRODUCT] = {0, 2, 1, 0},
    [INVERSE] = {0, 1, 1, 1},         [ERROR_OF] = {0, 1, 2, 1},    [DECODE] = {0, 2, 2, 0},
    [MAKE_KEY] = {0, 1, 2, 4},        [WRAP] = {0, 2, 2, 0},        [OPEN] = {0, 2, 1, 0},
    [READ_RECORD] = {0, 1, 0, 3},     [PACK_KEY] = {0, 1, 1, 0},    [UNPACK_KEY] = {0, 1, 1, 0},
    [FAIR_POLYNOMIAL] = {0, 1, 1, 2}, [WRITE_MAP] = {2, 2, 1, 0},   [ACCEPT_MAP] = {2, 3, 0, 1},
    [DECODE_EARLY] = {0, 2, 2, 1},    [ROTATE_KEY] = {1, 1, 1, 0},
};

unsigned case_ins(uint32_t entry)
{
    return shapes[entry].ins;
}

unsigned case_outs(uint32_t entry)
{
    return shapes[entry].outs;
}

unsigned case_numbers(uint32_t entry)
{
    return shapes[entry].numbers;
}

size_t case_unit(uint32_t entry)
{
    return entry == FAIR_POLYNOMIAL ? 4 : 1;
}

/* What a line shows in hex: the outputs, or the stored map. */
static unsigned case_shown(uint32_t entry)
{
    return entry == ACCEPT_MAP ? 1 : case_outs(entry);
}

static bool read_number(FILE *file, uint32_t *number)
{
    uint8_t bytes[4];
    if (fread(bytes, 1, 4, file) != 4)
        return false;
    *number = little_endian(bytes, 4);
    return true;
}

static bool read_length(FILE *file, size_t *n)
{
    uint32_t number;
    if (!read_number(file, &number) || number > BUFFER_MAX)
        return false;
    *n = number;
    return true;
}

enum reading case_read(FILE *file, struct test_case *c)
{
    int entry = getc(file);
    if (entry == EOF)
        return CASE_END;
    c->entry = (uint32_t)entry;
    if (entry >= ENTRIES || case_ins(c->entry) == 0 || !read_number(file, &c->level))
        return CASE_BAD;
    for (unsigned i = 0; i < shapes[c->entry].given; i++)
        if (!read_number(file, &c->given[i]))
            return CASE_BAD;
    for (unsigned i = 0; i < case_ins(c->entry); i++)
        if (!read_length(file, &c->in[i].n) || c->in[i].n % case_unit(c->entry) != 0
            || fread(c->in[i].bytes, 1, c->in[i].n, file) != c->in[i].n)
            return CASE_BAD;
    for (unsigned i = 0; i < case_outs(c->entry); i++)
        if (!read_length(file, &c->out[i]))
            return CASE_BAD;
    return CASE_READ;
}

static void write_number(FILE *file, size_t number)
{
    for (int i = 0; i < 4; i++)
        putc((int)(number >> 8 * i & 0xff), file);
}

void case_write(FILE *file, const struct test_case *c)
{
    putc((int)c->entry, file);
    write_number(file, c->level);
    for (unsigned i = 0; i < shapes[c->entry].given; i++)
        write_number(file, c->given[i]);
    for (unsigned i = 0; i < case_ins(c->entry); i++) {
        write_number(file, c->in[i].n);
        fwrite(c->in[i].bytes, 1, c->in[i].n, file);
    }
    for (unsigned i = 0; i < case_outs(c->entry); i++)
        write_number(file, c->out[i]);
}

static uint32_t read_record(const uint8_t *bytes, size_t n, uint32_t numbers[3])
{
    struct ref_record record;
    uint32_t answer = ref_read_record(bytes, n, &record);
    numbers[0] = record.level;
    numbers[1] = record.thing;
    numbers[2] = record.body;
    return answer;
}

/* Memory of exactly n bytes, so that a sanitizer sees every step beyond it. */
static void *exactly(size_t n)
{
    void *bytes = malloc(n);
    if (bytes == NULL && n > 0)
        refuse("case", "out of memory", "");
    return bytes;
}

static uint32_t fair_polynomial(const struct test_case *c, const uint8_t *bytes, uint8_t *out, uint32_t numbers[2])
{
    uint32_t *words = exactly(c->in[0].n);
    size_t n = c->in[0].n / 4;
    for (size_t i = 0; i < n; i++)
        words[i] = little_endian(bytes + 4 * i, 4);
    uint32_t answer = ref_fair_polynomial(c->level, words, n, out, c->out[0], numbers);
    free(words);
    return answer;
}

static uint32_t call(const struct test_case *c, uint8_t *const in[3], uint8_t *const out[2],
                     uint32_t numbers[NUMBERS_MAX])
{
    const uint8_t *a = in[0], *b = in[1];
    size_t an = c->in[0].n, bn = c->in[1].n;
    uint8_t *x = out[0], *y = out[1];
    size_t xn = c->out[0], yn = c->out[1];
    switch (c->entry) {
    case SHAKE256: return ref_shake256(a, an, x, xn);
    case SHA3_384: return ref_sha3_384(a, an, x, xn);
    case PRODUCT: return ref_product(c->level, a, an, b, bn, x, xn);
    case INVERSE: return ref_inverse(c->level, a, an, x, xn, numbers);
    case ERROR_OF: return ref_error_of(c->level, a, an, x, xn, y, yn, numbers);
    case DECODE: return ref_decode(c->level, a, an, b, bn, x, xn, y, yn);
    case MAKE_KEY: return ref_make_key(c->level, a, an, x, xn, y, yn, numbers);
    case WRAP: return ref_wrap(c->level, a, an, b, bn, x, xn, y, yn);
    case OPEN: return ref_open(c->level, a, an, b, bn, x, xn);
    case PACK_KEY: return ref_pack_key(c->level, a, an, x, xn);
    case UNPACK_KEY: return ref_unpack_key(c->level, a, an, x, xn);
    case FAIR_POLYNOMIAL: return fair_polynomial(c, a, x, numbers);
    case WRITE_MAP: return ref_map_write(c->level, a, an, c->given[0], c->given[1], b, bn, x, xn);
    case ACCEPT_MAP:
        numbers[0] = c->given[1];
        return ref_map_accept(c->level, a, an, c->given[0], b, bn, in[2], c->in[2].n, numbers);
    case DECODE_EARLY: return ref_decode_early(c->level, a, an, b, bn, x, xn, y, yn, numbers);
    case ROTATE_KEY: return ref_rotate_key(c->level, c->given[0], a, an, x, xn);
    default: return read_record(a, an, numbers);
    }
}

static void keep(struct buffer *b, const uint8_t *bytes, size_t n)
{
    b->n = n;
    for (size_t k = 0; k < n; k++)
        b->bytes[k] = bytes[k];
}

void case_run(const struct test_case *c, struct result *result)
{
    uint8_t *in[3] = {NULL, NULL, NULL}, *out[2] = {NULL, NULL};
    for (unsigned i = 0; i < case_ins(c->entry); i++) {
        in[i] = exactly(c->in[i].n);
        for (size_t k = 0; k < c->in[i].n; k++)
            in[i][k] = c->in[i].bytes[k];
    }
    for (unsigned i = 0; i < case_outs(c->entry); i++) {
        out[i] = exactly(c->out[i]);
        for (size_t k = 0; k < c->out[i]; k++)
            out[i][k] = 0xa5;
    }
    result->answer = call(c, in, out, result->numbers);
    for (unsigned i = 0; i < case_outs(c->entry); i++)
        keep(&result->out[i], out[i], c->out[i]);
    if (c->entry == ACCEPT_MAP)
        keep(&result->out[0], in[2], c->in[2].n);
    for (int i = 0; i < 3; i++)
        free(in[i]);
    for (int i = 0; i < 2; i++)
        free(out[i]);
}

bool case_same(const struct test_case *c, const struct result *a, const struct result *b)
{
    if (a->answer != b->answer)
        return false;
    for (unsigned i = 0; i < case_numbers(c->entry); i++)
        if (a->numbers[i] != b->numbers[i])
            return false;
    for (unsigned i = 0; i < case_shown(c->entry); i++)
        if (memcmp(a->out[i].bytes, b->out[i].bytes, a->out[i].n) != 0)
            return false;
    return true;
}

static void print_hex(FILE *file, const struct buffer *b)
{
    putc(' ', file);
    if (b->n == 0)
        putc('-', file);
    for (size_t i = 0; i < b->n; i++)
        fprintf(file, "%02x", b->bytes[i]);
}

void case_print(FILE *file, unsigned long ordinal, const struct test_case *c, const struct result *result)
{
    fprintf(file, "%lu %lu %lu", ordinal, (unsigned long)c->entry, (unsigned long)result->answer);
    for (unsigned i = 0; i < case_shown(c->entry); i++)
        print_hex(file, &result->out[i]);
    for (unsigned i = 0; i < case_numbers(c->entry); i++)
        fprintf(file, " %lu", (unsigned long)result->numbers[i]);
    putc('\n', file);
}

_Noreturn void refuse(const char *program, const char *why, const char *what)
{
    fprintf(stderr, "%s: %s%s\n", program, why, what);
    exit(2);
}

unsigned long number_of(const char *program, const char *text, unsigned long most)
{
    char *end;
    unsigned long n = strtoul(text, &end, 10);
    if (text[0] < '0' || text[0] > '9' || *end != '\0' || n > most)
        refuse(program, "not a number, or too large: ", text);
    return n;
}
