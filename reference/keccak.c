/* Keccak-f[1600] and the sponge, in the words of FIPS 202; section numbers in the comments. */
#include "keccak.h"

#include <string.h>

#include "wrong.h"

static uint64_t rotate(uint64_t lane, unsigned by)
{
    by %= 64;
    return by == 0 ? lane : lane << by | lane >> (64 - by);
}

/* 3.2.1 */
static void theta(uint64_t A[5][5])
{
    uint64_t C[5];
    for (int x = 0; x < 5; x++)
        C[x] = A[x][0] ^ A[x][1] ^ A[x][2] ^ A[x][3] ^ A[x][4];
    for (int x = 0; x < 5; x++)
        for (int y = 0; y < 5; y++)
            A[x][y] ^= C[(x + 4) % 5] ^ rotate(C[(x + 1) % 5], 1);
}

/* 3.2.2 */
static void rho(uint64_t A[5][5])
{
    unsigned x = 1, y = 0;
    for (unsigned t = 0; t < 24; t++) {
        A[x][y] = rotate(A[x][y], (t + 1) * (t + 2) / 2);
        unsigned next = (2 * x + 3 * y) % 5;
        x = y;
        y = next;
    }
}

/* 3.2.3 */
static void pi(uint64_t A[5][5])
{
    uint64_t B[5][5];
    memcpy(B, A, sizeof B);
    for (int x = 0; x < 5; x++)
        for (int y = 0; y < 5; y++)
            A[x][y] = B[(x + 3 * y) % 5][x];
}

/* 3.2.4 */
static void chi(uint64_t A[5][5])
{
    uint64_t B[5][5];
    memcpy(B, A, sizeof B);
    for (int x = 0; x < 5; x++)
        for (int y = 0; y < 5; y++)
            A[x][y] = B[x][y] ^ (~B[(x + 1) % 5][y] & B[(x + 2) % 5][y]);
}

/* 3.2.5, algorithm 5: gives rc(t) and goes on to t + 1. Bit k of R is the standard's R[k]. */
static uint64_t next_rc(unsigned *R)
{
    uint64_t bit = *R & 1;
    *R <<= 1;
    if (*R & 0x100)
        *R ^= 0x171; /* R[0], R[4], R[5] and R[6] take R[8] in; R[8] itself is cut off */
    return bit;
}

/* 3.2.5, algorithm 6: the seven rc of a round go to the bits 2^j - 1 of lane (0, 0). */
static void iota(uint64_t A[5][5], unsigned *R)
{
    for (unsigned j = 0; j < 7; j++)
        A[0][0] ^= next_rc(R) << ((1u << j) - 1);
}

/* 3.3 */
static void keccak_f(uint64_t A[5][5])
{
    unsigned R = 1;
    for (int round = 0; round < 24; round++) {
        theta(A);
        rho(A);
        pi(A);
        chi(A);
        iota(A, &R);
    }
}

/* 3.1.2: byte i of the state lies in lane (x, y) with 5y + x = i div 8, lowest byte first. */
static uint64_t *lane_of(struct sponge *s, size_t i)
{
    return &s->A[i / 8 % 5][i / 40];
}

static void xor_byte(struct sponge *s, size_t i, uint8_t byte)
{
    *lane_of(s, i) ^= (uint64_t)byte << i % 8 * 8;
}

static void start(struct sponge *s, size_t rate)
{
    memset(s, 0, sizeof *s);
    s->rate = rate;
}

void shake256_start(struct sponge *s)
{
    start(s, SHAKE256_RATE);
}

void sha3_384_start(struct sponge *s)
{
    start(s, SHA3_384_RATE);
}

void sponge_absorb(struct sponge *s, const uint8_t *bytes, size_t n)
{
    for (size_t i = 0; i < n; i++) {
        xor_byte(s, s->place++, bytes[i]);
        if (s->place == s->rate) {
            keccak_f(s->A);
            s->place = 0;
        }
    }
}

/* 5.1 and B.2: suffix and pad10*1; `first` holds the suffix and the pad's first 1, low bit first. */
static void finish(struct sponge *s, uint8_t first)
{
    if (!(wrong(W_PAD_OVERWRITES) && s->place == s->rate - 1))
        xor_byte(s, s->place, first);
    xor_byte(s, s->rate - 1, 0x80);
    keccak_f(s->A);
    s->place = 0;
}

void shake256_finish(struct sponge *s)
{
    finish(s, wrong(W_RAW_SHAKE) ? 0x07 : 0x1f); /* 1111 and 1 */
}

void sha3_384_finish(struct sponge *s)
{
    finish(s, wrong(W_SHA3_NO_SUFFIX) ? 0x01 : 0x06); /* 01 and 1 */
}

void cshake256_finish(struct sponge *s)
{
    finish(s, 0x04); /* SP 800-185, 3.3: 00 and 1 */
}

void sponge_squeeze(struct sponge *s, uint8_t *out, size_t n)
{
    for (size_t i = 0; i < n; i++) {
        if (s->place == s->rate) {
            if (!wrong(W_ONE_BLOCK))
                keccak_f(s->A);
            s->place = 0;
        }
        out[i] = (uint8_t)(*lane_of(s, s->place) >> s->place % 8 * 8);
        s->place++;
    }
}
