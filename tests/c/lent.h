// Lent bytes between guards, so that a byte written beside them is seen.
#pragma once
#include <stdbool.h>
#include <stdint.h>
#include <string.h>

enum { GUARD = 64, GUARDED = 0x5a, MOST_LENT = 4 << 20 };

typedef struct {
    uint8_t room[GUARD + MOST_LENT + GUARD];
    size_t length;
} Lent;

static inline uint8_t *lent_bytes(Lent *lent) {
    return lent->room + GUARD;
}

// As many bytes, whatever they hold, and the guards around them.
static inline void set_length(Lent *lent, size_t length) {
    lent->length = length;
    memset(lent->room, GUARDED, GUARD);
    memset(lent_bytes(lent) + length, GUARDED, GUARD);
}

static inline bool guards_stand(const Lent *lent) {
    const uint8_t *after = lent->room + GUARD + lent->length;
    for (int i = 0; i < GUARD; i++)
        if (lent->room[i] != GUARDED || after[i] != GUARDED) return false;
    return true;
}
