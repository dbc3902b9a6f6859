/* The record reader. */
#include "bike.h"
#include "scheme.h"
#include "wrong.h"

enum { HEAD_BYTES = 6, THINGS = 6 };

static uint32_t big_endian(const uint8_t *bytes, size_t n)
{
    uint32_t number = 0;
    for (size_t i = 0; i < n; i++)
        number = number << 8 | bytes[i];
    return number;
}

static size_t bytes_of_thing(const struct level *v, uint32_t thing)
{
    switch (thing) {
    case 1: return SEED_BYTES;
    case 2: return polynomial_bytes(v) - wrong(W_SLIDE_SIZES);
    case 3: return private_key_bytes(v);
    case 4: return ciphertext_bytes(v) - wrong(W_SLIDE_SIZES);
    default: return SHORT_BYTES; /* 5 message, 6 session key */
    }
}

/* 8 and 9: kind unknown, or the length not that kind's. */
static uint32_t judge_kind(uint32_t level, uint32_t thing, uint32_t body)
{
    const struct level *v = wrong(W_RECORD_NO_5) && level == 5 ? NULL : level_of(level);
    if (wrong(W_THING_7) && v != NULL && thing == 7)
        return 0;
    if (wrong(W_ANY_LEVEL) && (thing == 5 || thing == 6))
        return body == SHORT_BYTES ? 0 : 9;
    if (v == NULL || thing < 1 || thing > THINGS)
        return 8;
    if (wrong(W_OLD_LENGTHS) && thing == 3 && body == private_key_bytes(v) - digest_bytes())
        return 0;
    return body == bytes_of_thing(v, thing) ? 0 : 9;
}

uint32_t ref_read_record(const uint8_t *bytes, size_t n, struct ref_record *record)
{
    *record = (struct ref_record){0, 0, 0};
    if (n < HEAD_BYTES)
        return 7;
    uint32_t body = (wrong(W_BIG_ENDIAN_BODY) ? big_endian : little_endian)(bytes, 4);
    uint32_t kind = (wrong(W_BIG_ENDIAN_KIND) ? big_endian : little_endian)(bytes + 4, 2);
    if (wrong(W_LENGTH_16))
        body &= 0xffff;
    uint32_t answer = judge_kind(kind / 256, kind % 256, body);
    bool cut = n - HEAD_BYTES < body || (wrong(W_EXACT_RECORD) && n - HEAD_BYTES != body);
    bool later = (wrong(W_EIGHT_BEFORE_SEVEN) && answer == 8) || (wrong(W_NINE_BEFORE_SEVEN) && answer == 9);
    if (cut && !later)
        return 7;
    if (answer == 0)
        *record = (struct ref_record){kind / 256, kind % 256, body};
    return answer;
}
