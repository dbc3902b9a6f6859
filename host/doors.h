/* The doors of the libraries and of the second program, under one set of names. */
#ifndef HOST_DOORS_H
#define HOST_DOORS_H

#include <stddef.h>
#include <stdint.h>

struct doors {
    uint32_t (*make_key)(uint32_t level, const uint8_t *seed, size_t seedn,
                         uint8_t *pub, size_t pubn, uint8_t *priv, size_t privn, uint8_t *report, size_t reportn);
    uint32_t (*wrap)(uint32_t level, const uint8_t *pub, size_t pubn, const uint8_t *m, size_t mn,
                     uint8_t *c, size_t cn, uint8_t *k, size_t kn);
    uint32_t (*open)(uint32_t level, const uint8_t *priv, size_t privn, const uint8_t *c, size_t cn,
                     uint8_t *k, size_t kn);
    uint32_t (*pack_key)(uint32_t level, const uint8_t *priv, size_t privn, uint8_t *packed, size_t packedn);
    uint32_t (*unpack_key)(uint32_t level, const uint8_t *packed, size_t packedn, uint8_t *priv, size_t privn);
    uint32_t (*map_write)(uint32_t level, const uint8_t *k, size_t kn, uint32_t kart, uint32_t counter,
                          const uint8_t *map, size_t mapn, uint8_t *record, size_t recordn);
    uint32_t (*map_accept)(uint32_t level, const uint8_t *k, size_t kn, uint32_t kart,
                           const uint8_t *record, size_t recordn, uint8_t *stored, size_t storedn, uint32_t *last);
};

extern const struct doors library, reference;

#endif
