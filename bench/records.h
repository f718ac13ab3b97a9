// Records and settings as the inputs have them.
#pragma once
#include "chance.h"
#include <endakuro.h>

enum { RECORD_BYTES = 32, LONG_RECORD_BYTES = 48 };

static inline void put(uint8_t *at, int bytes, int64_t x) {
    for (int i = 0; i < bytes; i++) at[i] = (uint8_t)((uint64_t)x >> 8 * i);
}

static inline int64_t word_at(const uint8_t *at) {
    return at[0] | at[1] << 8;
}

// A prover as they are built: one of the four metals, or one time in four a certificate.
static inline EndakuroProver some_prover(Chance *chance) {
    return (EndakuroProver){.base = (uint32_t)between(chance, 100000, 1000000),
                            .diameter = (uint32_t)between(chance, 6000, 40000),
                            .wall = (uint32_t)between(chance, 250, 1000),
                            .modulus = (uint32_t)between(chance, 28000000, 30000000),
                            .coefficient = once_in(chance, 4) ? (uint16_t)between(chance, 100, 400) : 0,
                            .metal = (uint8_t)between(chance, 0, 3)};
}

// One setting at the edge of its range or outside it.
static inline void damage_prover(Chance *chance, EndakuroProver *prover) {
    switch (between(chance, 0, 5)) {
    case 0: prover->base = (uint32_t)between(chance, 99999999, 100000001); break;
    case 1: prover->diameter = (uint32_t)between(chance, 999, 1001); break;
    case 2: prover->wall = (uint32_t)between(chance, 2999, 3001); break;
    case 3: prover->modulus = (uint32_t)between(chance, 9999999, 10000001); break;
    case 4: prover->coefficient = (uint16_t)between(chance, 398, 402); break;
    default: prover->metal = (uint8_t)between(chance, 0, 6);
    }
}
