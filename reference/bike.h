/* The second program's entries: document 01's ten, and document 02's. A buffer is a pointer and its length; buffers must
 * not overlap.
 *
 * Answers: 0 done; 1 level is not 1, 3 or 5; 2 a buffer has a wrong length; 3 a pad bit is set; 4 a private key's
 * position is >= r or not rising; 5 no inverse exists; 6 decoding failed; 7 record cut; 8 record of unknown kind;
 * 9 record length not its kind's; 10 the words ran out. The smallest number that applies is given, but 10 before 5;
 * after 1 nothing else is looked at, and a refusal fills all outputs with zero at their actual lengths. The numbers
 * that an entry reports are 0 then, but for the rounds with 6 and the products with 5. */
#ifndef REF_BIKE_H
#define REF_BIKE_H

#include <stddef.h>
#include <stdint.h>

struct ref_record {
    uint32_t level, thing, body; /* all 0 after a refusal */
};

uint32_t ref_shake256(const uint8_t *m, size_t mn, uint8_t *out, size_t on);
uint32_t ref_sha3_384(const uint8_t *m, size_t mn, uint8_t *out, size_t on);

uint32_t ref_product(uint32_t level, const uint8_t *a, size_t an, const uint8_t *b, size_t bn,
                     uint8_t *out, size_t on);
/* With the full products of its chain, which 5 tells too. */
uint32_t ref_inverse(uint32_t level, const uint8_t *a, size_t an, uint8_t *out, size_t on, uint32_t *products);

uint32_t ref_error_of(uint32_t level, const uint8_t *m, size_t mn,
                      uint8_t *e0, size_t e0n, uint8_t *e1, size_t e1n, uint32_t *replaced);
uint32_t ref_decode(uint32_t level, const uint8_t *key, size_t keyn, const uint8_t *s, size_t sn,
                    uint8_t *e0, size_t e0n, uint8_t *e1, size_t e1n);
/* The same, with the fewest rounds that leave residual 0; 5 where none does, with answer 6. */
uint32_t ref_decode_early(uint32_t level, const uint8_t *key, size_t keyn, const uint8_t *s, size_t sn,
                          uint8_t *e0, size_t e0n, uint8_t *e1, size_t e1n, uint32_t *rounds);

/* The numbers are used words and those of them passed over: of h0, then of h1. */
uint32_t ref_make_key(uint32_t level, const uint8_t *seed, size_t seedn,
                      uint8_t *pub, size_t pubn, uint8_t *priv, size_t privn, uint32_t numbers[4]);
/* As C sees it: the four numbers in a buffer of 16 bytes, 4 each, little-endian. */
uint32_t ref_make_key_door(uint32_t level, const uint8_t *seed, size_t seedn,
                           uint8_t *pub, size_t pubn, uint8_t *priv, size_t privn, uint8_t *report, size_t reportn);
/* One polynomial as key making draws it, from at most 512 words; with its two numbers. */
uint32_t ref_fair_polynomial(uint32_t level, const uint32_t *words, size_t n, uint8_t *out, size_t on,
                             uint32_t numbers[2]);
uint32_t ref_wrap(uint32_t level, const uint8_t *h, size_t hn, const uint8_t *m, size_t mn,
                  uint8_t *c, size_t cn, uint8_t *k, size_t kn);
uint32_t ref_open(uint32_t level, const uint8_t *key, size_t keyn, const uint8_t *c, size_t cn,
                  uint8_t *k, size_t kn);

uint32_t ref_read_record(const uint8_t *bytes, size_t n, struct ref_record *record);

uint32_t ref_pack_key(uint32_t level, const uint8_t *key, size_t keyn, uint8_t *packed, size_t packedn);
uint32_t ref_unpack_key(uint32_t level, const uint8_t *packed, size_t packedn, uint8_t *key, size_t keyn);

/* 15 k is not below r; it comes after 4. */
uint32_t ref_rotate_key(uint32_t level, uint32_t k, const uint8_t *key, size_t keyn, uint8_t *rotated, size_t rotatedn);

/* 11 the tag is not right; 12 the kart is another; 13 the counter is not above the last one. A refused acceptance
 * changes nothing. */
uint32_t ref_map_write(uint32_t level, const uint8_t *key, size_t keyn, uint32_t kart, uint32_t counter,
                       const uint8_t *map, size_t mapn, uint8_t *record, size_t recordn);
uint32_t ref_map_accept(uint32_t level, const uint8_t *key, size_t keyn, uint32_t kart, const uint8_t *record, size_t n,
                        uint8_t *stored, size_t storedn, uint32_t *last);

#endif
