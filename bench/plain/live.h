// Live readings (01, 'Live readings'). A single times 10 is exact in a double, and so is the half added to
// it where it matters: only a number below 2^-24, which goes to 0 either way, could lose bits.
#pragma once
#include "rounding.h"
#include <endakuro.h>

static bool is_finite(float x) {
    return x - x == 0;
}

static double nearest(double x) {
    return x < 0 ? x - 0.5 : x + 0.5;
}

static EndakuroLive no_reading(uint16_t number) {
    return (EndakuroLive){.number = number};
}

EndakuroLive NAMED(live)(float temperature, float pressure) {
    double tenths = nearest((double)temperature * 10);
    double psi = nearest((double)pressure);
    if (JUDGING) {
        if (!is_finite(temperature)) return no_reading(12);
        if (!(tenths > -201 && tenths < 2001)) return no_reading(13);
        if (!is_finite(pressure)) return no_reading(12);
        if (!(psi > -1 && psi < 1501)) return no_reading(13);
    }
    return (EndakuroLive){.tenths = (int16_t)tenths, .psi = (uint16_t)(int32_t)psi};
}
