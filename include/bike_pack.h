/* Private keys in a shorter form (at Level 5 in another order, as long), for a controller's tag, as the archive libpacking.a has it. Link it beside
 * libexchange.a: opening takes the form of bike.h, so a controller unpacks the key that it reads from its tag.
 *
 * Buffers, answers and zeros after a refusal are as bike.h says. Both forms are secret. Each private key has one packed
 * form, and unpacking it gives the same private key. */
#ifndef BIKE_PACK_H
#define BIKE_PACK_H

#include "bike.h"

#ifdef __cplusplus
extern "C" {
#endif

enum {
    BIKE_LEVEL_1_PACKED_KEY_BYTES = 313,
    BIKE_LEVEL_3_PACKED_KEY_BYTES = 451,
    BIKE_LEVEL_5_PACKED_KEY_BYTES = 612 /* as long as the private key: 16 bits a position in both */
};

/* Packs a private key. Gives 0, 1, 2 or 4. */
uint32_t bike_pack_key(uint32_t level, const uint8_t *private_key, size_t private_key_bytes,
                       uint8_t *packed_key, size_t packed_key_bytes);

/* Unpacks one. Gives 0, 1, 2, 3 or 4; 3 if one of the 4 upper bits of its last byte is set at Level 1, of the 6 at
 * Level 3; at Level 5 there is no pad bit, and never 3. */
uint32_t bike_unpack_key(uint32_t level, const uint8_t *packed_key, size_t packed_key_bytes,
                         uint8_t *private_key, size_t private_key_bytes);

#ifdef __cplusplus
}
#endif

#endif
