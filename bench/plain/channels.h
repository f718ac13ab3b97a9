// Smart transmitters (02, 'Smart transmitters'). A single times 18 is exact in a double, and so are the sums with 320
// and the half where it matters. Bits are lost in two places: below 2^-22, where the sum is 320 but for less than 2^-17
// and no half is near, and far outside the range.
#include "live.h"
#include <string.h>

static float single_from(uint32_t bits) {
    float single;
    memcpy(&single, &bits, sizeof single);
    return single;
}

static bool is_temperature(uint32_t kind) {
    return kind == ENDAKURO_FAHRENHEIT || kind == ENDAKURO_CELSIUS;
}

EndakuroLive NAMED(channels)(EndakuroChannel temperature, EndakuroChannel pressure) {
    float degrees = single_from(temperature.bits), gage = single_from(pressure.bits);
    bool celsius = temperature.kind == ENDAKURO_CELSIUS;
    double tenths = nearest(celsius ? (double)degrees * 18 + 320 : (double)degrees * 10);
    double psi = nearest((double)gage);
    if (JUDGING) {
        if (temperature.kind == ENDAKURO_FAULT) return no_reading(34);
        if (!is_temperature(temperature.kind)) return no_reading(35);
        if (!is_finite(degrees)) return no_reading(12);
        if (!(tenths > -201 && tenths < 2001)) return no_reading(13);
        if (pressure.kind == ENDAKURO_FAULT) return no_reading(34);
        if (pressure.kind != ENDAKURO_PRESSURE) return no_reading(35);
        if (!is_finite(gage)) return no_reading(12);
        if (!(psi > -1 && psi < 1501)) return no_reading(13);
    }
    return (EndakuroLive){.tenths = (int16_t)tenths, .psi = (uint16_t)(int32_t)psi};
}
