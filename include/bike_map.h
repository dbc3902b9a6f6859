/* The map write, as the archive libmaps.a has it: the phone writes a map for one kart, and the controller takes it in
 * only if it was meant for this kart, in this session, and now. It links beside libexchange.a (bike.h), which gives
 * both sides the session key.
 *
 * Buffers. The caller owns every buffer, and the library keeps none: it holds no state, allocates nothing and may be
 * called from several threads at once. A buffer is a pointer and its length in bytes. No pointer may be null, and the
 * buffers of one call, the counter among them, must not overlap; nothing checks that. Inputs never change.
 *
 * What a controller keeps. Its kart number, the stored map and the last accepted counter are the caller's.
 * bike_map_accept changes map and counter together after BIKE_DONE, and neither after any refusal, whatever the
 * lengths: what was stored stays stored.
 *
 * A new session. The last counter goes to BIKE_MAP_NEW_SESSION only together with a new session key; the stored map
 * stays. Opening a ciphertext a second time gives the same session key, and so is no new session: a host that set the
 * counter to 0 for a ciphertext that was played to it again would take this session's old map writes once more.
 * Counters are unsigned: 0 never goes in, 2^32 - 1 does, and after it a new session is needed.
 *
 * Secrets. The session key is secret; record, map, kart number and counter are not. */
#ifndef BIKE_MAP_H
#define BIKE_MAP_H

#include "bike.h"

#ifdef __cplusplus
extern "C" {
#endif

enum {
    BIKE_MAP_BYTES = 256,
    BIKE_MAP_RECORD_BYTES = 302,
    BIKE_MAP_NEW_SESSION = 0
};

/* Besides 0, 1 and 2 as in bike.h; 1 is of the session's level. The smallest number that applies is given. */
enum {
    BIKE_MAP_CUT = 7,            /* the record ends early */
    BIKE_MAP_OTHER_KIND = 8,     /* it is no map write of this session's level */
    BIKE_MAP_BAD_BODY = 9,       /* the length that it states is not a map write's */
    BIKE_MAP_OTHER_TAG = 11,     /* it was not written under this session's key, or was changed on its way */
    BIKE_MAP_OTHER_KART = 12,    /* it was written for another kart */
    BIKE_MAP_OLD_COUNTER = 13    /* its counter is not above the last accepted one */
};

/* Writes the record of a map for a kart. Session key 32 bytes, map 256, record 302. It compares no counters: the
 * caller counts up. Gives 0, 1 or 2; a refusal fills the record with zeros. */
uint32_t bike_map_write(uint32_t level, const uint8_t *session_key, size_t session_key_bytes, uint32_t kart,
                        uint32_t counter, const uint8_t *map, size_t map_bytes, uint8_t *record, size_t record_bytes);

/* Takes a record in, or refuses it. Session key 32 bytes, stored map 256; bytes after the record are not looked at.
 * After 0 the stored map is the record's and *last_counter its counter. Gives 0, 1, 2, 7, 8, 9, 11, 12 or 13. */
uint32_t bike_map_accept(uint32_t level, const uint8_t *session_key, size_t session_key_bytes, uint32_t kart,
                         const uint8_t *record, size_t record_bytes, uint8_t *stored_map, size_t stored_map_bytes,
                         uint32_t *last_counter);

#ifdef __cplusplus
}
#endif

#endif
