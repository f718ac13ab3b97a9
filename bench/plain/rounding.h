// The one rounding: n / d to the nearest whole number, halves up.
#pragma once
#include <stdbool.h>
#include <stdint.h>

__extension__ typedef unsigned __int128 wide;

static inline uint64_t rounded(wide n, uint64_t d) {
    return (uint64_t)((n + d / 2) / d);
}

// lo ≤ x ≤ hi.
static inline bool within(int64_t x, int64_t lo, int64_t hi) {
    return lo <= x && x <= hi;
}
