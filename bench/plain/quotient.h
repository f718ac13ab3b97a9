// a * b / d, rounded, where 64 bits hold it.
#include "rounding.h"
#include <endakuro.h>

EndakuroQuotient NAMED(rounded_ratio)(uint64_t a, uint64_t b, uint64_t d) {
    if (JUDGING && d == 0) return (EndakuroQuotient){.kind = ENDAKURO_ZERO_DIVISOR};
    wide n = (wide)a * b + d / 2;
    if (JUDGING && n >> 64 >= d) return (EndakuroQuotient){.kind = ENDAKURO_TOO_LARGE};
    return (EndakuroQuotient){.value = (uint64_t)(n / d)};
}
