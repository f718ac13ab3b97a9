// F from the table in place of F from a keyboard: the one entry of the 11.2.1 table that its text prints, 20.0 °API at
// 100.0 °F, and the barrels of its example. A skid lends as much of the printed table as it needs.
//     tests/c/build target/c/compressibility examples/c/compressibility.c && tests/c/run target/c/compressibility
#include <endakuro.h>
#include <stdio.h>

enum { RECORD = 8, ENTRIES = 1, PRESSURE = 500 };

static void put(uint8_t *at, uint16_t value) {
    at[0] = (uint8_t)value;
    at[1] = (uint8_t)(value >> 8);
}

// 0.448 in the printed table is 0.448 / 100,000 per psi: 448 in 10^-8.
static void frame(uint8_t *record, int16_t temperature, uint16_t gravity, uint16_t f) {
    put(record, (uint16_t)temperature);
    put(record + 2, gravity);
    put(record + 4, f);
    put(record + 6, 0);
}

static void look_up(const uint8_t *table, int16_t temperature, uint16_t gravity) {
    EndakuroEntry entry = endakuro_look_up(temperature, gravity, table, ENTRIES * RECORD);
    printf("%d.%d °F, %u.%u °API: ", temperature / 10, temperature % 10, gravity / 10, gravity % 10);
    if (entry.number) {
        printf("refused %u, record %u\n", entry.number, entry.record);
        return;
    }
    EndakuroFactor cpl = endakuro_cpl_four(PRESSURE, entry.compressibility, 0);
    printf("F 0.%08u of %d.%d °F and %u.%u °API; at %d psi CPL %u.%04u\n", entry.compressibility,
           entry.temperature / 10, entry.temperature % 10, entry.gravity / 10, entry.gravity % 10, PRESSURE,
           cpl.value / 10000, cpl.value % 10000);
}

int main(void) {
    uint8_t table[ENTRIES * RECORD];
    frame(table, 1000, 200, 448);
    look_up(table, 1000, 199);
    look_up(table, 1002, 202);
    // the nearest half degree is another, and the table has no entry for it
    look_up(table, 1003, 199);
    look_up(table, 2001, 199);
    // an entry that was typed off the half degree
    frame(table, 1001, 200, 448);
    look_up(table, 1000, 199);
    return 0;
}
