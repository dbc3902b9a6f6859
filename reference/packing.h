/* Packed private keys (document 02, CR 1 and CR 4): sigma and D, then the positions of h0 and of h1 as one row of bits,
 * low bit first with no gaps, and zero bits to the byte's end. */
#ifndef REF_PACKING_H
#define REF_PACKING_H

#include <stdbool.h>
#include <stddef.h>
#include <stdint.h>

#include "scheme.h"

/* As many as r has binary digits. */
uint32_t position_bits(const struct level *v);
size_t packed_key_bytes(const struct level *v);

void key_to_packed(const struct level *v, const struct key *key, uint8_t *bytes);
struct key key_of_packed(const struct level *v, const uint8_t *bytes);

/* The number of pad bits, and whether one is set. */
uint32_t packed_pad_bits(const struct level *v);
bool packed_pad_set(const struct level *v, const uint8_t *bytes);

#endif
