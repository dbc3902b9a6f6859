/* Rotated private keys (document 02, CR 11): h0 and h1 times the same power of X, positions in rising order; sigma and D
 * stay. */
#ifndef REF_ROTATION_H
#define REF_ROTATION_H

#include <stdint.h>

#include "scheme.h"

/* By k below r. */
struct key key_rotated(const struct level *v, const struct key *key, uint32_t k);

#endif
