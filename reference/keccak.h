/* Keccak-f[1600] and the sponge of FIPS 202. */
#ifndef REF_KECCAK_H
#define REF_KECCAK_H

#include <stddef.h>
#include <stdint.h>

enum { SHAKE256_RATE = 136, SHA3_384_RATE = 104, SHA3_384_BYTES = 48 };

struct sponge {
    uint64_t A[5][5]; /* lane (x, y) */
    size_t rate, place;
};

/* Absorb any number of times, then finish once, then squeeze any number of times. */
void shake256_start(struct sponge *s);
void sha3_384_start(struct sponge *s);
void sponge_absorb(struct sponge *s, const uint8_t *bytes, size_t n);
void shake256_finish(struct sponge *s);
void sha3_384_finish(struct sponge *s);
void cshake256_finish(struct sponge *s);
void sponge_squeeze(struct sponge *s, uint8_t *out, size_t n);

#endif
