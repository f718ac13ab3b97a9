// Numbers for the panel (02, 'Numbers for the panel'). A single holds every whole number here, so the division is
// what rounds, once.
#include "rounding.h"
#include <endakuro.h>

static EndakuroPanel shown(float single) {
    return (EndakuroPanel){.shown = single};
}

static EndakuroPanel nothing_shown(void) {
    return (EndakuroPanel){.number = 13};
}

EndakuroPanel NAMED(panel_temperature)(int16_t tenths) {
    if (JUDGING && !within(tenths, -200, 2000)) return nothing_shown();
    return shown((float)tenths / 10.0f);
}

EndakuroPanel NAMED(panel_pressure)(uint16_t psi) {
    if (JUDGING && !within(psi, 0, 1500)) return nothing_shown();
    return shown((float)psi);
}
