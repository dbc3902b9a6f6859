/* BIKE at Levels 1, 3 and 5, as the archive libexchange.a has it: make a key pair, wrap a message to a public key, open a ciphertext.
 *
 * Buffers. The caller owns every buffer, and the library keeps none: it holds no state, allocates nothing and may be called from
 * several threads at once. A buffer is a pointer and its length in bytes, and must have exactly the length that is named below.
 * No pointer may be null, and the buffers of one call must not overlap; nothing checks that. Inputs never change.
 *
 * Answers. A call gives one number. After BIKE_DONE every output holds its value. Any other number is a refusal, and then every
 * byte of every output is zero, at the length that was lent, right or wrong: no earlier content is left. The smallest number that
 * applies is given; after BIKE_NO_LEVEL nothing else is looked at.
 *
 * Older keys. A private key ends with a digest of its public key. Keys made before it had one are 32 bytes shorter and
 * are refused with BIKE_BAD_LENGTH: make a new pair. A ciphertext of that time opens to a key that nobody else has.
 * Key making draws positions otherwise than it once did: an old seed gives another pair, the pair it gave stays good.
 *
 * Secrets. Seeds and messages come from the caller's random source: a seed for each key pair, a message for each wrapping, none
 * of them twice. Seed, private key, message and session key are secret; public key and ciphertext are not. docs/SECURITY.md says what
 * is kept from whom, and what an app does after each answer.
 *
 * Stack. A call takes less than BIKE_STACK_BYTES at every level (host/run bench measures it), and leaves copies of its secrets
 * there: bike_wipe_stack overwrites them. */
#ifndef BIKE_H
#define BIKE_H

#include <stddef.h>
#include <stdint.h>

#ifdef __cplusplus
extern "C" {
#endif

enum {
    BIKE_SEED_BYTES = 64,
    BIKE_MESSAGE_BYTES = 32,
    BIKE_SESSION_KEY_BYTES = 32,
    BIKE_REPORT_BYTES = 16,
    BIKE_STACK_BYTES = 768 * 1024,

    BIKE_LEVEL_1 = 1,
    BIKE_LEVEL_1_PUBLIC_KEY_BYTES = 1541,
    BIKE_LEVEL_1_PRIVATE_KEY_BYTES = 348,
    BIKE_LEVEL_1_CIPHERTEXT_BYTES = 1573,

    BIKE_LEVEL_3 = 3,
    BIKE_LEVEL_3_PUBLIC_KEY_BYTES = 3083,
    BIKE_LEVEL_3_PRIVATE_KEY_BYTES = 476,
    BIKE_LEVEL_3_CIPHERTEXT_BYTES = 3115,

    BIKE_LEVEL_5 = 5,
    BIKE_LEVEL_5_PUBLIC_KEY_BYTES = 5122,
    BIKE_LEVEL_5_PRIVATE_KEY_BYTES = 612,
    BIKE_LEVEL_5_CIPHERTEXT_BYTES = 5154
};

enum {
    BIKE_DONE = 0,
    BIKE_NO_LEVEL = 1,     /* a level other than 1, 3 and 5 */
    BIKE_BAD_LENGTH = 2,   /* a buffer, input or output, has a wrong length */
    BIKE_BAD_PAD = 3,      /* a pad bit is set in the public key or the ciphertext: one of the 5 upper bits of byte 1540
                            * at Level 1 or 3082 at Level 3, of the 3 upper bits of byte 5121 at Level 5 */
    BIKE_BAD_POSITION = 4, /* a position in the private key is too large, or not larger than the one before it */
    BIKE_NO_INVERSE = 5,   /* a polynomial has no inverse: no function of this header gives it, which is proved */
    BIKE_NO_WORDS = 10     /* the seed's words ran out before the key had its positions: take another seed */
};

/* Makes the key pair that the seed determines. Gives 0, 1, 2 or 10. The report has four
 * numbers: how many words were drawn for h0 and how many of these were passed over, then both for h1. It had 8 bytes
 * once, and before that there was none: callers that were compiled with an older header must be compiled anew. */
uint32_t bike_make_key(uint32_t level, const uint8_t *seed, size_t seed_bytes,
                       uint8_t *public_key, size_t public_key_bytes,
                       uint8_t *private_key, size_t private_key_bytes,
                       uint8_t *report, size_t report_bytes);

/* Number i of a report, the first being number 0: four bytes each, little-endian. */
static inline uint32_t bike_reported(const uint8_t *report, size_t i)
{
    return report[4 * i] | report[4 * i + 1] << 8 | report[4 * i + 2] << 16 | (uint32_t)report[4 * i + 3] << 24;
}

/* Wraps a message to a public key: the ciphertext for its owner, and the session key for this side. Gives 0, 1, 2 or 3. */
uint32_t bike_wrap(uint32_t level, const uint8_t *public_key, size_t public_key_bytes,
                   const uint8_t *message, size_t message_bytes,
                   uint8_t *ciphertext, size_t ciphertext_bytes,
                   uint8_t *session_key, size_t session_key_bytes);

/* Opens a ciphertext. Gives 0, 1, 2, 3 or 4. A ciphertext that wrapping did not make, or that was damaged, is no refusal: the
 * answer is 0, and the session key is one that nobody else has. That both sides have the same key shows when they use it. */
uint32_t bike_open(uint32_t level, const uint8_t *private_key, size_t private_key_bytes,
                   const uint8_t *ciphertext, size_t ciphertext_bytes,
                   uint8_t *session_key, size_t session_key_bytes);

/* Overwrites as much of the stack below the caller as a call can have used. To be called by the same function of the same thread,
 * after the call. It is not in the archive: compile bike_wipe.c, which lies beside this header, into the program. */
void bike_wipe_stack(void);

#ifdef __cplusplus
}
#endif

#endif
