// The base volume of a bidirectional prover: the ball goes out and back over the same measure of water, and three
// round trips in a row have to agree.
//     tests/c/build target/c/round_trips examples/c/round_trips.c && tests/c/run target/c/round_trips
#include <endakuro.h>
#include <stdio.h>
#include <string.h>

enum { RECORD = 32, PASSES = 8, FILLS = 2 };

// A draw is what gives the base volume, so that there is none yet.
static const EndakuroProver prover = {.base = 0,
                                      .diameter = 10020, // 10.020 inches
                                      .wall = 365,
                                      .modulus = 28000000,
                                      .coefficient = 0, // no certificate: the metal by its name
                                      .metal = ENDAKURO_STAINLESS_316};

static void put(uint8_t *at, uint32_t value, int bytes) {
    for (int i = 0; i < bytes; i++) at[i] = (uint8_t)(value >> 8 * i);
}

// One fill of an 11547.80 cubic inch measure, read on its scale in 0.01 cubic inch.
static void frame(uint8_t *record, int pass, int16_t scale, uint16_t pressure) {
    memset(record, 0, RECORD);
    put(record, 1154780, 4);
    put(record + 4, (uint16_t)scale, 2);
    put(record + 6, 562, 2); // the prover at 56.2 °F
    put(record + 8, 565, 2); // the measure at 56.5 °F
    put(record + 10, 265, 2);
    put(record + 12, 999980, 4); // CTDW
    record[16] = (uint8_t)pass;
    put(record + 18, pressure, 2);
}

static void draw(const uint8_t *records, size_t passes) {
    EndakuroPasses trips = endakuro_trips(prover, records, passes * FILLS * RECORD);
    printf("%zu passes:", passes);
    for (int i = 0; i < trips.count; i++)
        printf(" %llu.%02llu", (unsigned long long)trips.volumes[i] / 100, (unsigned long long)trips.volumes[i] % 100);
    EndakuroDraw base = endakuro_bidirectional(prover, records, passes * FILLS * RECORD);
    if (base.number != 0) {
        printf(" refused: number %u, record %u\n", base.number, base.record);
        return;
    }
    printf(" cubic inches\n  base volume %llu.%02llu cubic inches, %llu.%04llu barrels, from pass %u on\n",
           (unsigned long long)base.base / 100, (unsigned long long)base.base % 100,
           (unsigned long long)base.barrels / 10000, (unsigned long long)base.barrels % 10000, base.first);
}

int main(void) {
    // The ball was slow to leave on its first round trip.
    static const int16_t scales[PASSES] = {-4800, -1100, -4100, -1100, -4050, -1130, -4120, -1040};
    uint8_t records[PASSES * FILLS * RECORD];
    for (int pass = 0; pass < PASSES; pass++) {
        uint16_t pressure = pass % 2 == 0 ? 40 : 42; // out and back may differ in pressure
        for (int fill = 0; fill < FILLS; fill++)
            frame(records + RECORD * (FILLS * pass + fill), pass + 1, scales[pass], pressure);
    }
    draw(records, PASSES);
    draw(records, PASSES - 1); // a ball that did not come back
    draw(records, 4);
    put(records + RECORD * 3 + 18, 40, 2); // two pressures in one pass
    draw(records, PASSES);
    return 0;
}
