/* The Black-Gray-Flip decoder: each counter and each residual is worked out from its definition. */
#include "decoder.h"

#include "wrong.h"

/* One mark for each bit of e0 and of e1. */
struct marks {
    bool at[2][R_MAX];
};

uint32_t threshold(const struct level *v, uint32_t S)
{
    uint64_t sum = (v->slope + (wrong(W_SLOPE) ? v->divisor / 10000000 : 0)) * S + v->offset;
    if (wrong(W_SLOPE_OF_3) && v->number == 5)
        sum = level_of(3)->slope * 10 * S + v->offset;
    if (wrong(W_SLOPE_ROUNDED) && v->number == 5)
        sum = v->slope / 10 * 10 * S + v->offset / 10 * 10;
    uint32_t least = v->least - wrong(W_LEAST);
    if (wrong(W_THRESHOLD_UP))
        sum += v->divisor - 1;
    uint32_t T = (uint32_t)(sum / v->divisor);
    return T > least || wrong(W_NO_LEAST) ? T : least;
}

void count_all(uint32_t r, uint32_t d, const uint32_t h[], const struct poly *residual, uint8_t count[])
{
    uint8_t twice[2 * R_MAX]; /* the residual twice in a row, so that bit (j + p) mod r is at j + p */
    for (uint32_t k = 0; k < r; k++)
        twice[k] = twice[k + r] = poly_bit(residual, k);
    for (uint32_t j = 0; j < r; j++)
        count[j] = 0;
    for (uint32_t i = 0; i < d; i++) {
        const uint8_t *from = twice + (wrong(W_MINUS_P) ? r - h[i] : h[i]);
        for (uint32_t j = 0; j < r; j++)
            count[j] = (uint8_t)(count[j] + from[j]);
    }
}

/* A syndrome to decode, and the key. */
struct task {
    const struct level *v;
    const struct key *key;
    const struct poly *s;
};

/* s + e0·h0 + e1·h1 */
static struct poly residual_of(const struct task *q, const struct poly e[2])
{
    struct poly found = syndrome_of(q->v, q->key, e);
    return poly_sum(q->s, &found);
}

static void mark(uint32_t counter, uint32_t T, bool *black, bool *gray)
{
    uint32_t margin = wrong(W_MARGIN_4) ? 4 : wrong(W_GRAY_ABOVE) ? 2 : 3;
    *black = wrong(W_BLACK_ABOVE) ? counter > T : counter >= T;
    *gray = counter >= T - margin && (!*black || wrong(W_BLACK_IS_GRAY));
}

/* Marks every bit by its counter in the residual of the round's start and flips the black ones. */
static void flip_step(const struct task *q, struct poly residual, uint32_t T, struct poly e[2],
                      struct marks *black, struct marks *gray)
{
    for (int half = 0; half < 2; half++) {
        uint8_t count[R_MAX];
        if (half == 1 && wrong(W_HALF_BY_HALF))
            residual = residual_of(q, e);
        count_all(q->v->r, q->v->d, q->key->h[half], &residual, count);
        for (uint32_t j = 0; j < q->v->r; j++) {
            mark(count[j], T, &black->at[half][j], &gray->at[half][j]);
            if (black->at[half][j])
                poly_flip(&e[half], j);
        }
    }
}

/* A wrong reading of flip_step: the residual follows each flip at once. */
static void live_flip_step(const struct task *q, struct poly residual, uint32_t T, struct poly e[2],
                           struct marks *black, struct marks *gray)
{
    for (int half = 0; half < 2; half++) {
        for (uint32_t j = 0; j < q->v->r; j++) {
            uint32_t counter = 0;
            for (uint32_t i = 0; i < q->v->d; i++)
                counter += poly_bit(&residual, (j + q->key->h[half][i]) % q->v->r);
            mark(counter, T, &black->at[half][j], &gray->at[half][j]);
            if (black->at[half][j]) {
                poly_flip(&e[half], j);
                residual = residual_of(q, e);
            }
        }
    }
}

/* Flips the marked bits whose counter in the residual reaches the bound. */
static void masked_step(const struct task *q, const struct poly *residual, const struct marks *mask, uint32_t bound,
                        struct poly e[2])
{
    void (*flip)(struct poly *, uint32_t) = wrong(W_MASKED_SETS) ? poly_set : poly_flip;
    for (int half = 0; half < 2; half++) {
        uint8_t count[R_MAX];
        count_all(q->v->r, q->v->d, q->key->h[half], residual, count);
        for (uint32_t j = 0; j < q->v->r; j++)
            if (mask->at[half][j] && count[j] >= bound)
                flip(&e[half], j);
    }
}

static uint32_t masked_bound(const struct level *v, uint32_t T)
{
    if (wrong(W_MASKED_T))
        return T;
    if (wrong(W_MASKED_OF_3) && v->number == 5)
        v = level_of(3);
    return (v->d + 1) / 2 + (wrong(W_MASKED_BOUND) ? 0 : 1);
}

/* S is the residual's weight at the round's start. The masked steps take black bits, then gray bits, each with the
 * residual worked out anew. */
static void bgf_round(const struct task *q, bool masked, struct poly e[2])
{
    struct marks black, gray;
    struct poly at_start = residual_of(q, e);
    uint32_t T = threshold(q->v, poly_weight(wrong(W_FIRST_S) ? q->s : &at_start));
    (wrong(W_LIVE_RESIDUAL) ? live_flip_step : flip_step)(q, at_start, T, e, &black, &gray);
    if (!masked)
        return;
    uint32_t bound = masked_bound(q->v, T);
    bool exchange = wrong(W_GRAY_FIRST);
    struct poly after_flips = residual_of(q, e);
    masked_step(q, wrong(W_BLACK_OLD) ? &at_start : &after_flips, exchange ? &gray : &black, bound, e);
    if (wrong(W_NO_GRAY_STEP))
        return;
    struct poly after_black = residual_of(q, e);
    masked_step(q, wrong(W_GRAY_OLD) ? &after_flips : &after_black, exchange ? &black : &gray, bound, e);
}

bool bgf(const struct level *v, const struct key *key, const struct poly *s, struct poly e[2])
{
    const struct task q = {v, key, s};
    int rounds = wrong(W_FOUR_ROUNDS) ? 4 : wrong(W_SIX_ROUNDS) ? 6 : 5;
    e[0] = e[1] = poly_zero();
    for (int round = 1; round <= rounds; round++) {
        bool masked = (round == 1 && !wrong(W_NO_MASKED)) || wrong(W_MASKED_ALWAYS);
        bgf_round(&q, masked, e);
    }
    if (wrong(W_WEIGHT_T) && poly_weight(&e[0]) + poly_weight(&e[1]) != v->t)
        return false;
    struct poly residual = residual_of(&q, e);
    return poly_weight(&residual) == 0 || wrong(W_NO_FINAL_CHECK);
}

/* What is told of so many rounds done. */
static uint32_t rounds_told(uint32_t done, bool decoded)
{
    if (!decoded && wrong(W_EARLY_FAILS_0))
        return 0;
    if (!decoded && wrong(W_EARLY_FAILS_6))
        return 6;
    return done + wrong(W_EARLY_FROM_1) + (done > 0 && wrong(W_EARLY_MASKED) ? 2 : 0);
}

bool bgf_early(const struct level *v, const struct key *key, const struct poly *s, struct poly e[2], uint32_t *rounds)
{
    const struct task q = {v, key, s};
    uint32_t done = 0, left = poly_weight(s);
    e[0] = e[1] = poly_zero();
    while ((left > wrong(W_EARLY_WEIGHT_1) || (done == 0 && wrong(W_EARLY_LATE_LOOK))) && done < 5) {
        bgf_round(&q, done == 0, e);
        struct poly residual = residual_of(&q, e);
        left = poly_weight(&residual);
        done++;
    }
    *rounds = rounds_told(done, left == 0);
    return left == 0;
}
