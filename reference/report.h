/* Document 02's bench report: what the triples at the front of some bytes add up to. */
#ifndef REF_REPORT_H
#define REF_REPORT_H

#include <stdbool.h>
#include <stddef.h>
#include <stdint.h>

enum { ROUNDS_MOST = 5 };

struct report {
    uint64_t triples, decoded[ROUNDS_MOST + 1], undecoded, replaced;
    bool stopped;
    uint32_t number; /* of what stopped it: 0 missing, out of turn or of mixed levels */
};

struct report report_of(const uint8_t *bytes, size_t n);

#endif
