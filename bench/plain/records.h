// Little-endian numbers in the lent records (01, 'Records').
#pragma once
#include <stdbool.h>
#include <stddef.h>
#include <stdint.h>

enum { RECORD = 32 };

static inline uint16_t word(const uint8_t *s) {
    return (uint16_t)(s[0] | s[1] << 8);
}

static inline uint32_t long_word(const uint8_t *s) {
    return word(s) | (uint32_t)word(s + 2) << 16;
}

static inline uint64_t longer_word(const uint8_t *s) {
    return long_word(s) | (uint64_t)long_word(s + 4) << 32;
}

static inline void put_word(uint8_t *s, uint16_t x) {
    s[0] = (uint8_t)x;
    s[1] = (uint8_t)(x >> 8);
}

static inline void put_long_word(uint8_t *s, uint32_t x) {
    put_word(s, (uint16_t)x);
    put_word(s + 2, (uint16_t)(x >> 16));
}

static inline void put_longer_word(uint8_t *s, uint64_t x) {
    put_long_word(s, (uint32_t)x);
    put_long_word(s + 4, (uint32_t)(x >> 32));
}

// Bits are gathered without a way out in between: so a compiler makes a few words of it, inlined or not.
static inline bool all_zero(const uint8_t *s, size_t from, size_t to) {
    uint8_t bits = 0;
    for (size_t i = from; i < to; i++) bits |= s[i];
    return bits == 0;
}
