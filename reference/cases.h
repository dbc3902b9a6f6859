/* The maker of the fixed case set, and where cases go. */
#ifndef REF_CASES_H
#define REF_CASES_H

#include "casefile.h"

/* Writes a case and the line that answers it. */
void emit(const struct test_case *c);

/* The fixed set of document 01, of the map write after it, of more that is decoded after both, of rotated keys, and of
 * Level 5 last, with its maps. */
void committed(void);
void committed_maps(void);
void committed_syndromes(void);
void committed_rotations(void);
void committed_level_5(void);
void committed_maps_5(void);

#endif
