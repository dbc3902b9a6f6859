/* The Black-Gray-Flip decoder. */
#ifndef REF_DECODER_H
#define REF_DECODER_H

#include <stdbool.h>
#include <stdint.h>

#include "ring.h"
#include "scheme.h"

/* T for a residual of weight S. */
uint32_t threshold(const struct level *v, uint32_t S);

/* count[j], for each j below r: how many of the d positions p of h have bit (j + p) mod r set in the residual. */
void count_all(uint32_t r, uint32_t d, const uint32_t h[], const struct poly *residual, uint8_t count[]);

/* Five rounds; true exactly if the final residual is 0. The error found is in e either way. */
bool bgf(const struct level *v, const struct key *key, const struct poly *s, struct poly e[2]);

/* The same, but it ends as soon as the residual is 0; `rounds` is how many were done. */
bool bgf_early(const struct level *v, const struct key *key, const struct poly *s, struct poly e[2], uint32_t *rounds);

#endif
