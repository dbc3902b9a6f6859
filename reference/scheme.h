/* The level table, the byte layouts, the two samplers and the hash functions H, L, K, D and f. */
#ifndef REF_SCHEME_H
#define REF_SCHEME_H

#include <stdbool.h>
#include <stddef.h>
#include <stdint.h>

#include "ring.h"

enum { D_MAX = 137, T_MAX = 264, SHORT_BYTES = 32, SEED_BYTES = 64, DIGEST_MAX = 48 };
enum { WORDS_MAX = 512 }; /* that a polynomial may use */
enum { POLYNOMIAL_MAX = (R_MAX + 7) / 8, PRIVATE_KEY_MAX = 4 * D_MAX + SHORT_BYTES + DIGEST_MAX };

struct level {
    uint32_t number, r, d, t;
    uint64_t slope, offset, divisor; /* of the threshold */
    uint32_t least;                  /* threshold */
    uint32_t mask;                   /* of a word, in the fair sampler */
};

const struct level *level_of(uint32_t number); /* NULL: no such level */
size_t polynomial_bytes(const struct level *v);
size_t ciphertext_bytes(const struct level *v);
size_t private_key_bytes(const struct level *v);
size_t digest_bytes(void); /* D's: 32 */

struct key {
    uint32_t h[2][D_MAX]; /* positions of h0 and of h1 */
    uint8_t sigma[SHORT_BYTES];
    uint8_t digest[DIGEST_MAX]; /* D, of the public key */
};

struct key key_of_bytes(const struct level *v, const uint8_t *bytes);
void key_to_bytes(const struct level *v, const struct key *key, uint8_t *bytes);
bool key_is_good(const struct level *v, const struct key *key);
struct poly key_half(const struct level *v, const struct key *key, int half);
/* h = h1 / h0; false exactly if h0 has no inverse. */
bool key_public(const struct level *v, const struct key *key, struct poly *h);
/* e0·h0 + e1·h1 */
struct poly syndrome_of(const struct level *v, const struct key *key, const struct poly e[2]);

/* What one polynomial's positions are drawn as, in the order of listing. */
struct drawn {
    uint32_t listed, used;
    uint32_t large, again; /* of the used words, those passed over: too large, or listed already */
    uint32_t list[D_MAX];
};

struct drawn draw(const struct level *v, const uint32_t words[], size_t n);
bool ran_out(const struct level *v, const struct drawn *drawn);
/* With what each half is drawn as; all but D. */
struct key key_of_seed(const struct level *v, const uint8_t *seed, struct drawn drawn[2]);

uint32_t little_endian(const uint8_t *bytes, size_t n);

/* Gives the number of steps in which i stood in for a listed position. */
uint32_t sample(uint32_t len, uint32_t wt, const uint32_t s[], uint32_t list[]);

uint32_t hash_H(const struct level *v, const uint8_t *m, struct poly e[2]); /* gives what sample gives */
void hash_L(const struct level *v, const struct poly e[2], uint8_t *out);
void hash_K(const struct level *v, const uint8_t *m, const uint8_t *c, uint8_t *out);
void hash_D(const struct level *v, const uint8_t *pub, uint8_t *out);
void hash_f(const uint8_t *m, const uint8_t *digest, uint8_t *out);
uint32_t bound_H(const struct level *v, const uint8_t *m, const uint8_t *digest, struct poly e[2]); /* H(f(m, h)) */

#endif
