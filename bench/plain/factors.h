// Correction factors (01, 'Factors'), each rounded once; `one` is 10^places.
#pragma once
#include "rounding.h"
#include <endakuro.h>

// Water's F, and its equilibrium pressure: it does not boil in a prover.
enum { FOUR_PLACES = 10000, SIX_PLACES = 1000000, WATER = 320, WATER_PE = 0 };

// The cubical coefficient in 10^-7 per °F: a certificate wins over the name, 0 where there is neither.
static inline uint16_t coefficient_of(uint8_t metal, uint16_t certificate) {
    static const uint16_t named[] = {186, 288, 265, 180, 0};
    if (metal > 4) return 0;
    return certificate ? certificate : named[metal];
}

static inline bool is_metal(uint16_t gc) {
    return within(gc, 100, 400);
}

static inline bool is_pipe(const EndakuroProver *prover) {
    return within(prover->diameter, 1000, 60000) && within(prover->wall, 100, 3000) &&
           within(prover->modulus, 10000000, 40000000);
}

static inline uint64_t cts_of(int16_t t, uint16_t gc, uint32_t one) {
    return rounded((wide)(100000000 + (int64_t)(t - 600) * gc) * one, 100000000);
}

static inline uint64_t cps_of(uint16_t p, const EndakuroProver *prover, uint32_t one) {
    uint64_t stiffness = (uint64_t)prover->modulus * prover->wall;
    return rounded((wide)(stiffness + (uint64_t)p * prover->diameter) * one, stiffness);
}

// Measured from the equilibrium pressure, which is at most p.
static inline uint64_t cpl_of(uint16_t p, uint16_t f, uint16_t pe, uint32_t one) {
    return rounded((wide)100000000 * one, 100000000 - (uint64_t)f * (uint64_t)(p - pe));
}
