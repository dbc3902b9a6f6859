/* The bench report, from the whole file at once. */
#include "report.h"

#include "bike.h"
#include "decoder.h"
#include "scheme.h"

enum { HEAD_BYTES = 6, TRIPLE = 3, OUT_OF_TURN = 0 };
static const uint32_t turns[TRIPLE] = {3, 2, 5}; /* private key, public key, message */
static const uint64_t triples_most = UINT64_C(1) << 32;

/* The bodies of a whole triple. */
struct triple {
    const struct level *v;
    const uint8_t *body[TRIPLE];
    size_t bytes; /* of all three records */
};

/* Each record by its form, then by its turn; false stops the run with the number. */
static bool read_triple(const uint8_t *bytes, size_t n, struct triple *triple, uint32_t *number)
{
    triple->bytes = 0;
    for (int i = 0; i < TRIPLE; i++) {
        struct ref_record record;
        *number = OUT_OF_TURN;
        if (triple->bytes == n)
            return false;
        *number = ref_read_record(bytes + triple->bytes, n - triple->bytes, &record);
        if (*number != 0)
            return false;
        if (i == 0)
            triple->v = level_of(record.level);
        if (record.thing != turns[i] || record.level != triple->v->number)
            return false;
        triple->body[i] = bytes + triple->bytes + HEAD_BYTES;
        triple->bytes += HEAD_BYTES + record.body;
    }
    return true;
}

/* Wraps and decodes; gives 0, or 3 or 4 and leaves the report as it is. */
static uint32_t add_triple(const struct triple *triple, struct report *report)
{
    const struct level *v = triple->v;
    size_t n = polynomial_bytes(v), c_bytes = ciphertext_bytes(v);
    uint8_t c[POLYNOMIAL_MAX + SHORT_BYTES], session_key[SHORT_BYTES], digest[DIGEST_MAX];
    uint32_t answer = ref_wrap(v->number, triple->body[1], n, triple->body[2], SHORT_BYTES, c, c_bytes,
                               session_key, SHORT_BYTES);
    if (answer != 0)
        return answer;
    struct key key = key_of_bytes(v, triple->body[0]);
    if (!key_is_good(v, &key))
        return 4;
    struct poly e[2], c0 = poly_of_bytes(c, n), h0 = key_half(v, &key, 0);
    struct poly syndrome = poly_product(v->r, &c0, &h0);
    uint32_t rounds;
    if (bgf_early(v, &key, &syndrome, e, &rounds))
        report->decoded[rounds]++;
    else
        report->undecoded++;
    hash_D(v, triple->body[1], digest);
    report->replaced += bound_H(v, triple->body[2], digest, e);
    report->triples++;
    return 0;
}

struct report report_of(const uint8_t *bytes, size_t n)
{
    struct report report = {0};
    size_t at = 0;
    while (!report.stopped && at < n && report.triples < triples_most) {
        struct triple triple;
        report.stopped = !read_triple(bytes + at, n - at, &triple, &report.number);
        if (report.stopped)
            break;
        report.number = add_triple(&triple, &report);
        report.stopped = report.number != 0;
        at += triple.bytes;
    }
    return report;
}
