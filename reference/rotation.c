/* Rotated private keys: each position goes on by k round the circle, and then they are sorted. */
#include "rotation.h"

#include "wrong.h"

static void sort(uint32_t list[], uint32_t n)
{
    for (uint32_t i = 1; i < n; i++)
        for (uint32_t j = i; j > 0 && list[j] < list[j - 1]; j--) {
            uint32_t smaller = list[j];
            list[j] = list[j - 1];
            list[j - 1] = smaller;
        }
}

/* Bytes that go round as the positions do; only a wrong reading moves them. */
static void turn_bytes(uint8_t *bytes, uint32_t n, uint32_t k)
{
    uint8_t old[DIGEST_MAX];
    for (uint32_t i = 0; i < n; i++)
        old[i] = bytes[i];
    for (uint32_t i = 0; i < n; i++)
        bytes[(i + k) % n] = old[i];
}

struct key key_rotated(const struct level *v, const struct key *key, uint32_t k)
{
    struct key out = *key;
    for (int half = 0; half < (wrong(W_ROTATE_ONE_HALF) ? 1 : 2); half++) {
        for (uint32_t i = 0; i < v->d; i++)
            out.h[half][i] = (key->h[half][i] + (wrong(W_ROTATE_BACK) ? v->r - k : k)) % v->r;
        if (!wrong(W_ROTATE_UNSORTED))
            sort(out.h[half], v->d);
    }
    if (wrong(W_ROTATE_SIGMA))
        turn_bytes(out.sigma, SHORT_BYTES, k);
    if (wrong(W_ROTATE_D))
        turn_bytes(out.digest, (uint32_t)digest_bytes(), k);
    return out;
}
