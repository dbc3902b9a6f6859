/* KMAC256 of NIST SP 800-185. */
#ifndef REF_KMAC_H
#define REF_KMAC_H

#include <stddef.h>
#include <stdint.h>

void kmac256(const uint8_t *key, size_t key_n, const uint8_t *custom, size_t custom_n, const uint8_t *message,
             size_t message_n, uint8_t *out, size_t n);

#endif
