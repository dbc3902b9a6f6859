/* Packed private keys: where each bit of each position stands. */
#include "packing.h"

#include <string.h>

#include "wrong.h"

uint32_t position_bits(const struct level *v)
{
    uint32_t bits = 0;
    while (v->r >> bits != 0)
        bits++;
    if (wrong(W_PACK_15) && bits > 15)
        return 15;
    return wrong(W_PACK_16) ? 16 : bits;
}

/* Of the row, for one half. */
static uint32_t half_bits(const struct level *v)
{
    uint32_t bits = v->d * position_bits(v);
    return wrong(W_PACK_NEW_BYTE) ? (bits + 7) / 8 * 8 : bits;
}

static size_t row_bytes(const struct level *v)
{
    return (2 * half_bits(v) + 7) / 8;
}

size_t packed_key_bytes(const struct level *v)
{
    return SHORT_BYTES + digest_bytes() + row_bytes(v);
}

/* Where the three parts start: sigma, D, the row. */
struct starts {
    size_t sigma, digest, row;
};

static struct starts starts_of(const struct level *v)
{
    size_t sigma = SHORT_BYTES, digest = digest_bytes();
    if (wrong(W_PACK_SIGMA_LAST))
        return (struct starts){digest + row_bytes(v), 0, digest};
    if (wrong(W_PACK_D_LAST))
        return (struct starts){0, sigma + row_bytes(v), sigma};
    return (struct starts){0, sigma, sigma + digest};
}

/* The place in the row of bit k of a position. */
static size_t place_of(const struct level *v, int half, uint32_t index, uint32_t k)
{
    uint32_t width = position_bits(v);
    if (wrong(W_PACK_H1_FIRST))
        half = 1 - half;
    return half * half_bits(v) + index * width + (wrong(W_PACK_HIGH_FIRST) ? width - 1 - k : k);
}

static uint8_t mask_of(size_t place)
{
    return (uint8_t)(1u << (wrong(W_PACK_BYTE_HIGH) ? 7 - place % 8 : place % 8));
}

void key_to_packed(const struct level *v, const struct key *key, uint8_t *bytes)
{
    struct starts at = starts_of(v);
    uint8_t *row = bytes + at.row;
    memset(bytes, 0, packed_key_bytes(v));
    memcpy(bytes + at.sigma, key->sigma, SHORT_BYTES);
    memcpy(bytes + at.digest, key->digest, digest_bytes());
    for (int half = 0; half < 2; half++)
        for (uint32_t index = 0; index < v->d; index++)
            for (uint32_t k = 0; k < position_bits(v); k++) {
                size_t place = place_of(v, half, index, k);
                if (key->h[half][index] >> k & 1)
                    row[place / 8] |= mask_of(place);
            }
}

struct key key_of_packed(const struct level *v, const uint8_t *bytes)
{
    struct starts at = starts_of(v);
    const uint8_t *row = bytes + at.row;
    struct key key;
    memcpy(key.sigma, bytes + at.sigma, SHORT_BYTES);
    memcpy(key.digest, bytes + at.digest, digest_bytes());
    for (int half = 0; half < 2; half++)
        for (uint32_t index = 0; index < v->d; index++) {
            key.h[half][index] = 0;
            for (uint32_t k = 0; k < position_bits(v); k++) {
                size_t place = place_of(v, half, index, k);
                if (row[place / 8] & mask_of(place))
                    key.h[half][index] |= 1u << k;
            }
        }
    return key;
}

uint32_t packed_pad_bits(const struct level *v)
{
    return (uint32_t)(8 * row_bytes(v)) - 2 * half_bits(v);
}

bool packed_pad_set(const struct level *v, const uint8_t *bytes)
{
    const uint8_t *row = bytes + starts_of(v).row;
    size_t end = 8 * row_bytes(v);
    bool last = (wrong(W_UNPACK_LAST_PAD) && packed_pad_bits(v) > 0) || (wrong(W_PACK_PAD_5) && v->number == 5);
    for (size_t place = last ? end - 1 : 2 * half_bits(v); place < end; place++)
        if (row[place / 8] & mask_of(place))
            return !wrong(W_UNPACK_NO_PAD);
    return false;
}
