// Numbers for the panel: a temperature and a pressure of each input.
#include "kind.h"
#include "plain.h"
#include <string.h>

typedef struct {
    int16_t tenths;
    uint16_t psi;
} Input;

typedef struct {
    EndakuroPanel temperature, pressure;
} Shown;

static Input inputs[CHUNK];
static Shown answers[SIDES][CHUNK];

// At an end of its range or past it, or any number of its type.
static void damage(Chance *chance, Input *input) {
    switch (between(chance, 0, 4)) {
    case 0: input->tenths = (int16_t)between(chance, -202, -199); break;
    case 1: input->tenths = (int16_t)between(chance, 1999, 2002); break;
    case 2: input->tenths = (int16_t)any(chance); break;
    case 3: input->psi = (uint16_t)between(chance, 1499, 1502); break;
    default: input->psi = (uint16_t)any(chance);
    }
}

static void make(Chance *chance, int count, bool damaged) {
    for (int i = 0; i < count; i++) {
        inputs[i] = (Input){.tenths = (int16_t)between(chance, -200, 2000), .psi = (uint16_t)between(chance, 0, 1500)};
        if (damaged) damage(chance, &inputs[i]);
    }
}

static void work(int side, int count) {
    typedef EndakuroPanel Temperature(int16_t);
    typedef EndakuroPanel Pressure(uint16_t);
    static Temperature *const temperature[SIDES] = {endakuro_panel_temperature, plain_panel_temperature,
                                                    bare_panel_temperature, previous_panel_temperature};
    static Pressure *const pressure[SIDES] = {endakuro_panel_pressure, plain_panel_pressure, bare_panel_pressure,
                                              previous_panel_pressure};
    for (int i = 0; i < count; i++) {
        answers[side][i].temperature = temperature[side](inputs[i].tenths);
        answers[side][i].pressure = pressure[side](inputs[i].psi);
    }
}

// Bit by bit: as numbers, 0 and -0 would be equal.
static bool same(const EndakuroPanel *a, const EndakuroPanel *b) {
    return a->number == b->number && a->record == b->record && memcmp(&a->shown, &b->shown, sizeof a->shown) == 0;
}

static long differences(int side, int count) {
    long different = 0;
    for (int i = 0; i < count; i++) {
        const Shown *a = &answers[OURS][i], *b = &answers[side][i];
        different += !same(&a->temperature, &b->temperature) || !same(&a->pressure, &b->pressure);
    }
    return different;
}

const Kind panel = {"panel numbers", 1000000, CHUNK, make, work, differences};
