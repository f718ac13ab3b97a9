// Smart transmitters: live readings of a temperature channel, in °F or °C, and a pressure channel.
#include "live_answers.h"
#include "plain.h"
#include <string.h>

typedef struct {
    EndakuroChannel temperature, pressure;
} Input;

static Input inputs[CHUNK];
static LiveAnswers answers;

static EndakuroChannel carrying(uint32_t kind, double number) {
    float single = (float)number;
    EndakuroChannel channel = {.kind = kind};
    memcpy(&channel.bits, &single, sizeof single);
    return channel;
}

// An exact half, or the single next to it on either side.
static EndakuroChannel halfway(Chance *chance, uint32_t kind, double number) {
    EndakuroChannel channel = carrying(kind, number);
    channel.bits += (uint32_t)between(chance, -1, 1);
    return channel;
}

static double odd_quarter(Chance *chance, int64_t lo, int64_t hi) {
    return (double)(between(chance, lo, hi) | 1) / 4;
}

// One in eight at a half, for °C and °F at the odd quarters of a degree.
static EndakuroChannel some_celsius(Chance *chance) {
    if (once_in(chance, 8)) return halfway(chance, ENDAKURO_CELSIUS, odd_quarter(chance, -115, 373));
    return carrying(ENDAKURO_CELSIUS, (double)between(chance, -288888, 933333) / 10000);
}

static EndakuroChannel some_fahrenheit(Chance *chance) {
    if (once_in(chance, 8)) return halfway(chance, ENDAKURO_FAHRENHEIT, odd_quarter(chance, -79, 799));
    return carrying(ENDAKURO_FAHRENHEIT, (double)between(chance, -200000, 2000000) / 10000);
}

static EndakuroChannel some_pressure(Chance *chance) {
    if (once_in(chance, 8)) return halfway(chance, ENDAKURO_PRESSURE, (double)between(chance, 0, 1499) + 0.5);
    return carrying(ENDAKURO_PRESSURE, (double)between(chance, 0, 15000000) / 10000);
}

// Up to a tenth or a psi on either side of an end of the range.
static EndakuroChannel some_end(Chance *chance) {
    double beside = (double)between(chance, -10, 10) / 10;
    double tenths = (once_in(chance, 2) ? -200 : 2000) + beside;
    switch (between(chance, 0, 2)) {
    case 0: return carrying(ENDAKURO_FAHRENHEIT, tenths / 10);
    case 1: return carrying(ENDAKURO_CELSIUS, (tenths - 320) / 18);
    default: return carrying(ENDAKURO_PRESSURE, (once_in(chance, 2) ? 0 : 1500) + beside);
    }
}

// Some have several faults, of which the first in the paper's order is told.
static void damage(Chance *chance, EndakuroChannel *channel) {
    do {
        switch (between(chance, 0, 6)) {
        case 0: *channel = some_end(chance); break;
        case 1: channel->bits = (uint32_t)any(chance); break;
        // a NaN in most cases, and an infinity
        case 2: channel->bits |= 0x7f800000; break;
        case 3: channel->bits = once_in(chance, 2) ? 0x7f800000 : 0xff800000; break;
        case 4: channel->kind = (uint32_t)between(chance, 0, 5); break;
        case 5: channel->kind ^= 1u << between(chance, 0, 31); break;
        default: *channel = (EndakuroChannel){.kind = ENDAKURO_FAULT, .bits = (uint32_t)between(chance, 0, 255)};
        }
    } while (once_in(chance, 3));
}

static void exchange(Input *input) {
    *input = (Input){.temperature = input->pressure, .pressure = input->temperature};
}

static void make(Chance *chance, int count, bool damaged) {
    for (int i = 0; i < count; i++) {
        Input *input = &inputs[i];
        input->temperature = once_in(chance, 2) ? some_celsius(chance) : some_fahrenheit(chance);
        input->pressure = some_pressure(chance);
        if (damaged && once_in(chance, 2)) damage(chance, &input->temperature);
        if (damaged && once_in(chance, 2)) damage(chance, &input->pressure);
        if (damaged && once_in(chance, 8)) exchange(input);
    }
}

// Beside an archive that has no such function the library runs beside itself.
static void work(int side, int count) {
    typedef EndakuroLive Work(EndakuroChannel, EndakuroChannel);
    Work *previous = previous_channels ? previous_channels : endakuro_channels;
    Work *const live[SIDES] = {endakuro_channels, plain_channels, bare_channels, previous};
    for (int i = 0; i < count; i++) answers[side][i] = live[side](inputs[i].temperature, inputs[i].pressure);
}

static long differences(int side, int count) {
    return different_readings(answers, side, count);
}

const Kind channels = {"smart transmitters", 1000000, CHUNK, make, work, differences};
