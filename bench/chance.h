// Numbers by chance, the same for the same seed.
#pragma once
#include <stdbool.h>
#include <stdint.h>

typedef struct {
    uint64_t state;
} Chance;

// splitmix64
static inline uint64_t any(Chance *chance) {
    uint64_t x = chance->state += 0x9e3779b97f4a7c15u;
    x = (x ^ x >> 30) * 0xbf58476d1ce4e5b9u;
    x = (x ^ x >> 27) * 0x94d049bb133111ebu;
    return x ^ x >> 31;
}

static inline int64_t between(Chance *chance, int64_t lo, int64_t hi) {
    return lo + (int64_t)(any(chance) % (uint64_t)(hi - lo + 1));
}

// One time in n.
static inline bool once_in(Chance *chance, uint64_t n) {
    return any(chance) % n == 0;
}
