/* KMAC256, in the words of NIST SP 800-185; section numbers in the comments. */
#include "kmac.h"

#include "keccak.h"
#include "wrong.h"

/* 2.3.1: x in as few bytes as hold it, one at least, the highest first; gives their number. */
static uint8_t in_bytes(uint64_t x, uint8_t bytes[8])
{
    uint8_t n = 1;
    while (n < 8 && x >> 8 * n != 0)
        n++;
    for (uint8_t i = 0; i < n; i++)
        bytes[i] = (uint8_t)(x >> 8 * (n - 1 - i));
    return n;
}

/* 2.3.1 */
static void left_encode(struct sponge *s, uint64_t x)
{
    uint8_t bytes[8], n = in_bytes(x, bytes);
    sponge_absorb(s, &n, 1);
    sponge_absorb(s, bytes, n);
}

/* 2.3.1 */
static void right_encode(struct sponge *s, uint64_t x)
{
    uint8_t bytes[8], n = in_bytes(x, bytes);
    sponge_absorb(s, bytes, n);
    sponge_absorb(s, &n, 1);
}

/* 2.3.2 */
static void encode_string(struct sponge *s, const uint8_t *bytes, size_t n)
{
    left_encode(s, 8 * (uint64_t)n);
    sponge_absorb(s, bytes, n);
}

/* 2.3.3: bytepad's zeros. A block begins where its left_encode does, so they go to the end of the sponge's block. */
static void end_block(struct sponge *s)
{
    const uint8_t zero = 0;
    while (s->place != 0)
        sponge_absorb(s, &zero, 1);
}

/* 4.3, and 3.3 for the cSHAKE256 in it */
void kmac256(const uint8_t *key, size_t key_n, const uint8_t *custom, size_t custom_n, const uint8_t *message,
             size_t message_n, uint8_t *out, size_t n)
{
    struct sponge s;
    shake256_start(&s);
    left_encode(&s, SHAKE256_RATE);
    encode_string(&s, (const uint8_t *)"KMAC", 4);
    encode_string(&s, custom, custom_n);
    end_block(&s);
    left_encode(&s, SHAKE256_RATE);
    encode_string(&s, key, key_n);
    end_block(&s);
    sponge_absorb(&s, message, message_n);
    right_encode(&s, wrong(W_MAP_KMACXOF) ? 0 : 8 * (uint64_t)n);
    cshake256_finish(&s);
    sponge_squeeze(&s, out, n);
}
