// The repeatability test and the first group that meets it.
#pragma once
#include "rounding.h"

static inline bool repeats(const uint64_t *values, int size, uint16_t limit) {
    uint64_t low = values[0], high = values[0];
    for (int i = 1; i < size; i++) {
        if (values[i] < low) low = values[i];
        if (values[i] > high) high = values[i];
    }
    return (high - low) * 10000 <= limit * low;
}

// Its place, from 0, or -1.
static inline int first_group(const uint64_t *values, int count, int size, uint16_t limit) {
    for (int at = 0; at + size <= count; at++)
        if (repeats(values + at, size, limit)) return at;
    return -1;
}

static inline uint64_t mean(const uint64_t *values, int size) {
    uint64_t sum = 0;
    for (int i = 0; i < size; i++) sum += values[i];
    return rounded(sum, (uint64_t)size);
}
