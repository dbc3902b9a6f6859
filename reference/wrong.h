/* Wrong readings of the rules, each one plausible. ref_wrong is 0 in every ordinary run; a test sets it to a number of
 * this list to switch that one reading on, and so learns whether a case file tells it from the right one. A reading's
 * number is its place in the list, from 1 on: a request adds its own at the end, in the order of landing. */
#ifndef REF_WRONG_H
#define REF_WRONG_H

#include <stdbool.h>

#define WRONG_READINGS(X) \
    X(SHA3_NO_SUFFIX, "SHA3-384 without the suffix 01") \
    X(RAW_SHAKE, "SHAKE256 with the suffix 11 instead of 1111") \
    X(PAD_OVERWRITES, "hash: the last pad bit overwrites the suffix where both share a byte") \
    X(ONE_BLOCK, "SHAKE256: output beyond the rate repeats the first block") \
    X(EMPTY_OUTPUT, "SHAKE256 refuses an output of length 0 with 2") \
    X(SHORT_DIGEST, "SHA3-384 takes an output of fewer than 48 bytes") \
    X(S0_FIRST, "sampler: the first step takes s_0") \
    X(UPWARDS, "sampler: i counted upwards") \
    X(NO_REPLACE, "sampler: a listed position is appended again") \
    X(MODULO, "sampler: the word modulo len - i") \
    X(BIG_ENDIAN_WORDS, "sampler: words big-endian") \
    X(E_EXCHANGED, "H: e0 and e1 exchanged") \
    X(H1_SAME_WORDS, "key making: h1 from word 0 again") \
    X(WHOLE_SEED, "key making: SHAKE256 of all 64 bytes of the seed") \
    X(SIGMA_FIRST, "key making: sigma is the seed's first half") \
    X(UNSORTED, "key making: positions in the order of listing") \
    X(H0_OVER_H1, "key making: h = h0 / h1") \
    X(BIG_ENDIAN_KEY, "private key: positions big-endian") \
    X(ALWAYS_INVERSE, "inverse: never refused with 5") \
    X(ALL_ONES_INVERSE, "inverse: refused for even weight only") \
    X(L_TRUNCATED, "L without each polynomial's last byte") \
    X(L_JOINED, "L over 2r bits in a row, no pad between") \
    X(L_E1_FIRST, "L over e1, then e0") \
    X(LAST_32, "L and K: the digest's last 32 bytes") \
    X(K_C_FIRST, "K over the ciphertext, then the message") \
    X(K_C0_ONLY, "K over the message and c0 only") \
    X(MINUS_P, "counter at j - p") \
    X(MARGIN_4, "gray margin 4") \
    X(GRAY_ABOVE, "gray above T - 3 only") \
    X(BLACK_ABOVE, "flips above T only") \
    X(BLACK_IS_GRAY, "black bits are marked gray too") \
    X(MASKED_BOUND, "masked bound (d + 1) / 2") \
    X(MASKED_T, "masked bound T") \
    X(MASKED_SETS, "a masked flip sets the bit") \
    X(NO_MASKED, "no masked steps") \
    X(NO_GRAY_STEP, "no gray step") \
    X(MASKED_ALWAYS, "masked steps in every round") \
    X(GRAY_FIRST, "gray step before the black step") \
    X(BLACK_OLD, "black step on the residual before the round's flips") \
    X(GRAY_OLD, "gray step on the residual before the black step") \
    X(HALF_BY_HALF, "e1's counters after e0's flips") \
    X(LIVE_RESIDUAL, "residual updated after each flip inside a round") \
    X(THRESHOLD_UP, "threshold rounded up") \
    X(NO_LEAST, "threshold without its lower bound") \
    X(FIRST_S, "S is the syndrome's weight in every round") \
    X(FOUR_ROUNDS, "four rounds") \
    X(SIX_ROUNDS, "six rounds") \
    X(NO_FINAL_CHECK, "final residual not looked at") \
    X(WEIGHT_T, "decoding fails unless the error's weight is t") \
    X(OPEN_KEEPS_E, "opening: a failed decoding's error is kept") \
    X(OPEN_WEIGHT, "opening checks only the weight") \
    X(OPEN_UNCHECKED, "opening: no comparison with H(m')") \
    X(OPEN_SIGMA, "opening always takes sigma") \
    X(OPEN_TELLS, "opening answers 6 where it falls back to sigma") \
    X(LEVEL_BYTE, "only the level's lowest byte is looked at") \
    X(AT_LEAST, "buffers longer than the level's are taken") \
    X(THREE_BEFORE_TWO, "3 before 2") \
    X(FOUR_BEFORE_THREE, "4 before 3") \
    X(PAD_BIT_3, "only the first pad bit is looked at") \
    X(NO_C0_PAD, "a ciphertext's pad is not looked at") \
    X(C1_PAD, "a ciphertext's pad is looked for in its last byte") \
    X(NOT_STRICT, "equal neighbours in a private key are taken") \
    X(ACROSS_HALVES, "positions must rise from h0 to h1 too") \
    X(FIRST_HALF, "only h0's positions are looked at") \
    X(POSITION_R, "position r is taken") \
    X(ZERO_KEY_REFUSED, "a zero public key is refused") \
    X(LEAVES_BYTES, "a refusal leaves the outputs as they are") \
    X(LEVEL_LEAVES, "refusal 1 leaves the outputs as they are") \
    X(LENGTH_LEAVES, "an output of a wrong length is left as it is") \
    X(FAILURE_LEAVES, "refusal 6 gives the error found so far") \
    X(BIG_ENDIAN_KIND, "record: kind big-endian") \
    X(BIG_ENDIAN_BODY, "record: length big-endian") \
    X(LENGTH_16, "record: only the length's low two bytes count") \
    X(EIGHT_BEFORE_SEVEN, "record: 8 before 7") \
    X(NINE_BEFORE_SEVEN, "record: 9 before 7") \
    X(EXACT_RECORD, "record: further bytes are refused with 7") \
    X(THING_7, "record: thing 7 is known, with any length") \
    X(ANY_LEVEL, "record: any level for things of 32 bytes") \
    X(SLIDE_SIZES, "record: polynomial lengths rounded down") \
    X(OPEN_E0, "opening compares e0 alone") \
    X(OPEN_E1, "opening compares e1 alone") \
    X(SLOPE, "threshold: a slope higher by 10^-7") \
    X(LEAST, "threshold: a lower bound one lower") \
    X(PACK_HIGH_FIRST, "packed key: a position's highest bit first") \
    X(PACK_BYTE_HIGH, "packed key: a byte filled from its highest bit") \
    X(PACK_16, "packed key: 16 bits a position") \
    X(PACK_NEW_BYTE, "packed key: each half begun at a new byte") \
    X(PACK_SIGMA_LAST, "packed key: sigma last") \
    X(PACK_H1_FIRST, "packed key: h1 before h0") \
    X(PACK_UNCHECKED, "packing: a bad position is packed") \
    X(UNPACK_NO_PAD, "unpacking: the pad is not looked at") \
    X(UNPACK_LAST_PAD, "unpacking: only the last pad bit is looked at") \
    X(UNPACK_FOUR_FIRST, "unpacking: 4 before 3") \
    X(UNPACK_LARGE, "unpacking: positions from r on are taken") \
    X(COUNT_EQUAL, "sampler: each step that appends i is counted") \
    X(COUNT_POSITIONS, "sampler: a position that is drawn again is counted once") \
    X(COUNTS_EXCHANGED, "key making: h1's numbers first") \
    X(COUNTS_ADDED, "key making: the halves' numbers added up") \
    X(COUNTS_KEPT, "numbers are reported after a refusal too") \
    X(F_D_FIRST, "f over D, then m") \
    X(D_TRUNCATED, "D over the public key without its last byte") \
    X(D_48, "D of 48 bytes") \
    X(D_LAST_32, "D and f: the digest's last 32 bytes") \
    X(K_OVER_F, "K over f in place of m") \
    X(C1_HIDES_F, "wrapping: c1 hides f in place of m") \
    X(H_BINDS, "H: of the message's digest") \
    X(OPEN_UNBOUND, "opening compares with H(m')") \
    X(OPEN_OWN_D, "opening takes D from the key's own public key") \
    X(D_BEFORE_SIGMA, "private key: D before sigma") \
    X(PACK_D_LAST, "packed key: D last") \
    X(OLD_LENGTHS, "private keys without D are taken, in records too") \
    X(NO_MASK, "fair sampler: words as they are, no mask") \
    X(WIDER_MASK, "fair sampler: a mask one bit wider") \
    X(MODULO_R, "fair sampler: modulo r in place of a mask") \
    X(R_TAKEN, "fair sampler: position r is taken") \
    X(DRAWN_REPLACED, "fair sampler: i stands in for a listed position, as in the other sampler") \
    X(H1_FROM_512, "key making: h1 from word 512") \
    X(BIG_ENDIAN_DRAWN, "key making: words big-endian") \
    X(LISTED_UNCOUNTED, "fair sampler: passed over without the words whose position is listed") \
    X(LARGE_UNCOUNTED, "fair sampler: passed over without the words that are too large") \
    X(USED_ALL, "fair sampler: used counted to the end of the words") \
    X(PASSED_FIRST, "fair sampler: passed over told before used") \
    X(TEN_COUNTS, "numbers are reported after 10") \
    X(TEN_BEFORE_TWO, "fair polynomial: 10 before 2") \
    X(ANY_WORDS, "fair polynomial: more than 512 words are taken") \
    X(MAP_BODY_ALONE, "map: the tag covers the body alone") \
    X(MAP_KMACXOF, "map: the tag is KMACXOF256") \
    X(MAP_NO_CUSTOM, "map: the tag has no customization") \
    X(MAP_OVER_TAG, "map: the tag covers its own place too") \
    X(MAP_BIG_ENDIAN_KART, "map: kart number big-endian") \
    X(MAP_BIG_ENDIAN_COUNTER, "map: counter big-endian") \
    X(MAP_EQUAL_COUNTER, "map: a counter equal to the last one is taken") \
    X(MAP_SIGNED, "map: counters are signed") \
    X(MAP_KART_FIRST, "map: 12 before 11") \
    X(MAP_COUNTER_FIRST, "map: 13 before 12") \
    X(MAP_OTHER_LEVEL, "map: thing 7 at another level is taken") \
    X(MAP_ZEROED, "map: a refusal zeroes the stored map") \
    X(MAP_HALF_WRITTEN, "map: the stored map is half written before the tag is looked at") \
    X(MAP_COUNTER_MOVES, "map: the counter moves with a refusal") \
    X(MAP_EXACT, "map: a longer record is refused") \
    X(EARLY_FROM_1, "stopping early: rounds counted from 1") \
    X(EARLY_LATE_LOOK, "stopping early: the residual is looked at only after round 1") \
    X(EARLY_MASKED, "stopping early: the masked steps counted as rounds") \
    X(EARLY_FAILS_0, "stopping early: 0 rounds told after 6") \
    X(EARLY_FAILS_6, "stopping early: 6 rounds told after 6") \
    X(EARLY_WEIGHT_1, "stopping early: at a residual of weight 1 too") \
    X(PRICE_CHECK, "price of an inverse: the last check counted") \
    X(PRICE_SQUARINGS, "price of an inverse: squarings counted") \
    X(PRICE_FIRST_DIGIT, "price of an inverse: the highest digit counted") \
    X(PRICE_0_AFTER_5, "price of an inverse: 0 told after 5") \
    X(PRICE_AFTER_3, "price of an inverse: the count told after 3") \
    X(ROTATE_BACK, "rotating: each position goes back by k") \
    X(ROTATE_ONE_HALF, "rotating: h0 alone is turned") \
    X(ROTATE_UNSORTED, "rotating: positions stay in the old order") \
    X(ROTATE_SIGMA, "rotating: sigma is turned too") \
    X(ROTATE_D, "rotating: D is turned too") \
    X(ROTATE_OWN_D, "rotating: D is worked out anew") \
    X(ROTATE_15_FIRST, "rotating: 15 before 4") \
    X(ROTATE_MODULO, "rotating: k is taken modulo r") \
    X(ROTATE_BY_R, "rotating: k = r is taken") \
    X(PAD_FROM_5, "pad: bits 5 to 7 of the last byte at every level") \
    X(PAD_FROM_3, "pad: bits 3 to 7 of the last byte at every level") \
    X(NO_LEVEL_5, "Level 5 is not known") \
    X(RECORD_NO_5, "record: Level 5 is not known") \
    X(MAP_NO_5, "map: Level 5 is not known") \
    X(SLOPE_OF_3, "Level 5: Level 3's slope") \
    X(SLOPE_ROUNDED, "Level 5: slope and offset over 10^7, as at the other levels") \
    X(MASKED_OF_3, "Level 5: Level 3's masked bound") \
    X(MASK_OF_3, "Level 5: Level 3's mask of a word") \
    X(PACK_15, "packed key: at most 15 bits a position") \
    X(PACK_PAD_5, "unpacking: at Level 5 the last byte's highest bit is a pad bit")

#define WRONG_NAME(name, text) W_##name,
enum { W_NONE, WRONG_READINGS(WRONG_NAME) W_COUNT };
#undef WRONG_NAME

extern int ref_wrong;
extern const char *const wrong_text[W_COUNT];

static inline bool wrong(int reading)
{
    return ref_wrong == reading;
}

#endif
