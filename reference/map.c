/* The map write of document 02, CR 6: writer and acceptance. */
#include <string.h>

#include "bike.h"
#include "kmac.h"
#include "scheme.h"
#include "wrong.h"

enum {
    KIND_AT = 4,
    KART_AT = 6,
    COUNTER_AT = 10,
    MAP_AT = 14,
    TAG_AT = 270,
    RECORD_BYTES = 302,
    MAP_BYTES = 256,
    TAG_BYTES = 32,
    THING = 7
};

static void put(uint8_t *bytes, uint32_t number, size_t n)
{
    for (size_t i = 0; i < n; i++)
        bytes[i] = (uint8_t)(number >> 8 * i);
}

static uint32_t number_at(const uint8_t *bytes, size_t n, bool big_endian)
{
    uint32_t number = 0;
    for (size_t i = 0; i < n; i++)
        number |= (uint32_t)bytes[big_endian ? n - 1 - i : i] << 8 * i;
    return number;
}

static uint32_t kart_in(const uint8_t *record)
{
    return number_at(record + KART_AT, 4, wrong(W_MAP_BIG_ENDIAN_KART));
}

static uint32_t counter_in(const uint8_t *record)
{
    return number_at(record + COUNTER_AT, 4, wrong(W_MAP_BIG_ENDIAN_COUNTER));
}

static void tag_of(const uint8_t *key, const uint8_t *record, uint8_t *tag)
{
    uint8_t covered[RECORD_BYTES] = {0};
    size_t from = wrong(W_MAP_BODY_ALONE) ? KART_AT : KIND_AT;
    size_t to = wrong(W_MAP_OVER_TAG) ? RECORD_BYTES : TAG_AT;
    memcpy(covered, record, TAG_AT);
    kmac256(key, SHORT_BYTES, (const uint8_t *)"kart map", wrong(W_MAP_NO_CUSTOM) ? 0 : 8, covered + from, to - from,
            tag, TAG_BYTES);
}

/* Whether a session may have this level. */
static bool session_level(uint32_t level)
{
    return level_of(level) != NULL && !(wrong(W_MAP_NO_5) && level == 5);
}

uint32_t ref_map_write(uint32_t level, const uint8_t *key, size_t keyn, uint32_t kart, uint32_t counter,
                       const uint8_t *map, size_t mapn, uint8_t *record, size_t recordn)
{
    bool lengths = keyn == SHORT_BYTES && mapn == MAP_BYTES && recordn == RECORD_BYTES;
    uint32_t answer = !session_level(level) ? 1 : lengths ? 0 : 2;
    if (answer != 0) {
        for (size_t i = 0; i < recordn && !wrong(W_LEAVES_BYTES); i++)
            record[i] = 0;
        return answer;
    }
    put(record, RECORD_BYTES - KART_AT, 4);
    put(record + KIND_AT, 256 * level + THING, 2);
    put(record + KART_AT, kart, 4);
    put(record + COUNTER_AT, counter, 4);
    memcpy(record + MAP_AT, map, MAP_BYTES);
    tag_of(key, record, record + TAG_AT);
    return 0;
}

/* 7, 8 and 9, as document 01 has them for its own things. */
static uint32_t judge_form(uint32_t level, const uint8_t *record, size_t n)
{
    if (n < KART_AT || n - KART_AT < number_at(record, 4, false))
        return 7;
    if (wrong(W_MAP_EXACT) && n != RECORD_BYTES)
        return 7;
    uint32_t kind = number_at(record + KIND_AT, 2, false);
    bool other = wrong(W_MAP_OTHER_LEVEL) && kind % 256 == THING && level_of(kind / 256) != NULL;
    if (kind != 256 * level + THING && !other)
        return 8;
    return number_at(record, 4, false) == RECORD_BYTES - KART_AT ? 0 : 9;
}

static bool above(uint32_t counter, uint32_t last)
{
    if (wrong(W_MAP_SIGNED))
        return (counter ^ 0x80000000) > (last ^ 0x80000000);
    return counter > last || (wrong(W_MAP_EQUAL_COUNTER) && counter == last);
}

/* 11, 12 and 13. */
static uint32_t judge_meaning(const uint8_t *key, uint32_t kart, const uint8_t *record, uint32_t last)
{
    uint8_t tag[TAG_BYTES];
    tag_of(key, record, tag);
    bool other_tag = memcmp(tag, record + TAG_AT, TAG_BYTES) != 0;
    bool other_kart = kart_in(record) != kart, old = !above(counter_in(record), last);
    if (wrong(W_MAP_KART_FIRST) && other_kart)
        return 12;
    if (wrong(W_MAP_COUNTER_FIRST) && !other_tag && old)
        return 13;
    return other_tag ? 11 : other_kart ? 12 : old ? 13 : 0;
}

/* What the wrong readings of a refusal do to the map and the counter. */
static void refused(uint32_t answer, const uint8_t *record, uint8_t *stored, size_t storedn, uint32_t *last)
{
    if (wrong(W_MAP_ZEROED))
        memset(stored, 0, storedn);
    if (wrong(W_MAP_HALF_WRITTEN) && answer == 11)
        memcpy(stored, record + MAP_AT, MAP_BYTES / 2);
    if (wrong(W_MAP_COUNTER_MOVES) && answer >= 11)
        *last = counter_in(record);
}

uint32_t ref_map_accept(uint32_t level, const uint8_t *key, size_t keyn, uint32_t kart, const uint8_t *record, size_t n,
                        uint8_t *stored, size_t storedn, uint32_t *last)
{
    uint32_t answer = !session_level(level) ? 1 : keyn != SHORT_BYTES || storedn != MAP_BYTES ? 2 : 0;
    if (answer == 0)
        answer = judge_form(level, record, n);
    if (answer == 0)
        answer = judge_meaning(key, kart, record, *last);
    if (answer != 0) {
        refused(answer, record, stored, storedn, last);
        return answer;
    }
    memcpy(stored, record + MAP_AT, MAP_BYTES);
    *last = counter_in(record);
    return 0;
}
