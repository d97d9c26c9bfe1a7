/* A digest of numbers: 32 bits that another row of numbers hardly gives (FNV-1a). */
#ifndef DIGEST_H
#define DIGEST_H

#include <stdint.h>

#define DIGEST_START 2166136261u

/* The digest with a byte more. */
static inline uint32_t digest_byte(uint32_t digest, uint8_t byte) { return (digest ^ byte) * 16777619u; }

/* The digest with a number of 32 bits more. */
static inline uint32_t digest_number(uint32_t digest, uint32_t n) {
    for (int i = 0; i < 4; i++) digest = digest_byte(digest, (uint8_t)(n >> 8 * i));
    return digest;
}

/* The digest with some bytes more. */
static inline uint32_t digest_bytes(uint32_t digest, const uint8_t *bytes, uint64_t len) {
    for (uint64_t i = 0; i < len; i++) digest = digest_byte(digest, bytes[i]);
    return digest;
}

#endif
