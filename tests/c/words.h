/* Words compared, bits of a double, and what stands around a lent buffer. */
#ifndef WORDS_H
#define WORDS_H

#include <stddef.h>
#include <stdint.h>
#include <string.h>

#define CANARY 0xc0ffee00c0ffee00u
#define MARGIN 16

static inline int same(const uint64_t *a, const uint64_t *b, size_t len) {
    return len == 0 || memcmp(a, b, len * sizeof(uint64_t)) == 0;
}

static inline uint64_t bits_of(double x) {
    uint64_t bits;
    memcpy(&bits, &x, sizeof bits);
    return bits;
}

static inline double of_bits(uint64_t bits) {
    double x;
    memcpy(&x, &bits, sizeof x);
    return x;
}

#endif
