/* What cases are made of: a random source that a label determines, values worth trying, and damage. */
#ifndef REF_GENERATOR_H
#define REF_GENERATOR_H

#include <stdbool.h>
#include <stddef.h>
#include <stdint.h>

#include "casefile.h"
#include "keccak.h"
#include "ring.h"
#include "scheme.h"

/* SHAKE256 of the label. */
struct source {
    struct sponge stream;
};

struct source source_of(const char *label);
void source_bytes(struct source *g, uint8_t *out, size_t n);
uint32_t source_word(struct source *g);
uint32_t source_below(struct source *g, uint32_t end);

struct poly random_poly(struct source *g, const struct level *v);
struct poly random_poly_of_weight(struct source *g, const struct level *v, uint32_t weight);
struct poly power_of_X(uint32_t i);
struct poly all_ones(const struct level *v);
struct poly random_public_key(struct source *g, const struct level *v);
struct key random_key(struct source *g, const struct level *v);
/* All positions of a half within 4d places. */
struct key close_key(struct source *g, const struct level *v);
/* All positions of a half within so many places that about half of H's errors decode: there a wrong decoder shows. */
struct key window_key(struct source *g, const struct level *v);
/* A message for which H's sampler replaces exactly so many positions; and one whose f does, bound to a digest. */
void message_replacing(struct source *g, const struct level *v, uint32_t replaced, uint8_t *m);
void message_bound(struct source *g, const struct level *v, const uint8_t *digest, uint32_t replaced, uint8_t *m);
void digest_of_poly(const struct level *v, const struct poly *h, uint8_t *digest);
/* A message whose replaced positions a wrong reading counts otherwise. */
void message_miscounted(struct source *g, const struct level *v, int reading, uint8_t *m);
/* A seed whose halves draw a listed position again so many times. */
void seed_repeating(struct source *g, const struct level *v, uint32_t again0, uint32_t again1, uint8_t *seed);
/* Word n, which is listed after the n before it, or is passed over. */
void word_after(struct source *g, const struct level *v, bool is_listed, uint32_t words[], uint32_t n);
void random_error(struct source *g, const struct level *v, uint32_t weight, struct poly e[2]);

/* A ciphertext with c0·h0 = syndrome and c1 = m xor L(e). */
void ciphertext_of(const struct level *v, const struct key *key, const struct poly *syndrome,
                   const struct poly e[2], const uint8_t *m, uint8_t *c);

/* Cases whose buffers have the right lengths. */
void case_hash(struct test_case *c, struct source *g, uint32_t entry, size_t message, size_t digest);
void case_product(struct test_case *c, const struct level *v, const struct poly *a, const struct poly *b);
void case_inverse(struct test_case *c, const struct level *v, const struct poly *a);
void case_error_of(struct test_case *c, const struct level *v, const uint8_t *m);
void case_decode(struct test_case *c, const struct level *v, const struct key *key, const struct poly *syndrome);
void case_make_key(struct test_case *c, const struct level *v, const uint8_t *seed);
void case_fair(struct test_case *c, const struct level *v, const uint32_t words[], uint32_t n);
void case_wrap(struct test_case *c, const struct level *v, const struct poly *h, const uint8_t *m);
void case_open(struct test_case *c, const struct level *v, const struct key *key, const uint8_t *ciphertext);
/* Another D in a case's private key. */
void set_digest(struct test_case *c, const uint8_t *digest);
void case_pack_key(struct test_case *c, const struct level *v, const struct key *key);
void case_unpack_key(struct test_case *c, const struct level *v, const struct key *key);
void case_rotate_key(struct test_case *c, const struct level *v, const struct key *key, uint32_t k);
/* A record whose head says `body` and `kind`, followed by n random bytes. */
void case_record(struct test_case *c, struct source *g, uint32_t body, uint32_t kind, size_t n);
size_t thing_bytes(const struct level *v, uint32_t thing);
/* A random map under a random session key; and its record at a controller with that key, that kart number and another
 * map. */
void case_write_map(struct test_case *c, struct source *g, const struct level *v, uint32_t kart, uint32_t counter);
void case_accept_map(struct test_case *c, struct source *g, const struct level *v, uint32_t kart, uint32_t counter,
                     uint32_t last);

/* Decoder cases: a random error; with one stray bit in the syndrome; under a key whose positions stand close together;
 * at so many of each half's own positions; under a key of a window. Numbered, so that a search can find those that
 * tell a wrong reading. */
enum error_kind { PLAIN, STRAY_BIT, CLOSE_KEY, OWN_PATTERN, WINDOW_KEY, ERROR_KINDS };
void case_decode_numbered(struct test_case *c, const struct level *v, enum error_kind kind, uint32_t weight,
                          uint32_t number);

/* The same decoded by the entry that stops early. */
void case_early_numbered(struct test_case *c, const struct level *v, enum error_kind kind, uint32_t weight,
                         uint32_t number);

/* A ciphertext for a key: an honest one, or one whose error, message or bytes are not what wrapping gives. With
 * MOVED_E0 and MOVED_E1 one bit of that half of the message's error stands elsewhere. */
enum opening { HONEST, STRAY, OTHER_ERROR, LIGHT_ERROR, C0_BIT, C1_BIT, NO_SYNDROME, ANY_BYTES, MOVED_E0, MOVED_E1,
               OPENINGS };
void opening_case(struct test_case *c, struct source *g, const struct level *v, const struct key *key,
                  enum opening how, uint32_t replaced);

/* An honest one under a key of a window: numbered, like a decoder case, whose wrong readings it tells in few bytes. */
void case_open_numbered(struct test_case *c, const struct level *v, uint32_t number);

/* An ordinary good case of an entry that takes a level. */
void ordinary_case(struct test_case *c, struct source *g, uint32_t entry, const struct level *v);

/* A random case, damaged or not, of any entry or of the one given. */
void random_case(struct test_case *c, struct source *g);
void random_case_of(struct test_case *c, struct source *g, uint32_t entry);

/* Damage that is refused with 2: a buffer's wrong length; inputs are numbered first, then outputs. */
enum bad_length { EMPTY, ONE_LESS, ONE_MORE, OTHER_LEVEL, BAD_LENGTHS };
unsigned case_buffers(const struct test_case *c);
void damage_length(struct test_case *c, struct source *g, unsigned buffer, enum bad_length how);

/* Damage that is refused with 3: pad bits of an input, as a number; with 4: a private key's position. */
bool has_pad(const struct test_case *c, unsigned input);
void damage_pad(struct test_case *c, unsigned input, uint32_t bits);
bool has_key(const struct test_case *c);
void set_position(struct test_case *c, int half, uint32_t index, uint32_t position);
uint32_t get_position(const struct test_case *c, int half, uint32_t index);

#endif
