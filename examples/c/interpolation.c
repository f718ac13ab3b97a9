// Pulse interpolation: this prover is small, and whole pulses are too coarse for it. A file of run records is moved
// forward, to the form that counts thousandths of a pulse; its job is proved there, and the file moved back.
//     tests/c/build target/c/interpolation examples/c/interpolation.c && tests/c/run target/c/interpolation
#include <endakuro.h>
#include <stdio.h>
#include <string.h>

enum { RUNS = 5, SHORT = 32, LONG = 48, REPORT = 32, K = 250000, HOUSE_LIMIT = 5 };

static const EndakuroProver prover = {.base = 20000, // 2.0000 barrels
                                      .diameter = 10020,
                                      .wall = 365,
                                      .modulus = 30000000,
                                      .coefficient = 0, // no certificate: the metal by its name
                                      .metal = ENDAKURO_MILD_CARBON};

static void put(uint8_t *at, uint64_t value, int bytes) {
    for (int i = 0; i < bytes; i++) at[i] = (uint8_t)(value >> 8 * i);
}

// One run's record of the short form, as the flow computer frames it: gasoline at 73.5 °F and 40 psi.
static void frame(uint8_t *record, uint32_t pulses) {
    static const uint16_t fields[] = {735, 735, 40, 40, 9907, 9908, 820, 820};
    memset(record, 0, SHORT);
    put(record, pulses, 4);
    for (int i = 0; i < 8; i++) put(record + 4 + 2 * i, fields[i], 2);
}

static void tell_job(const char *what, EndakuroReport job) {
    printf("%s: ", what);
    if (job.number != 0) {
        printf("refused %u, record %u\n", job.number, job.record);
        return;
    }
    printf("factor %u.%04u from run %u of %u\n", job.factor / 10000, job.factor % 10000, job.first, job.runs);
}

static void prove_short(const char *what, const uint8_t *records) {
    uint8_t report[REPORT];
    tell_job(what, endakuro_prove(1, prover, K, HOUSE_LIMIT, records, RUNS * SHORT, report, REPORT));
}

static void prove_long(const char *what, const uint8_t *records) {
    uint8_t report[REPORT];
    tell_job(what, endakuro_prove_long(1, prover, K, HOUSE_LIMIT, records, RUNS * LONG, report, REPORT));
}

// A refusal writes nothing, so that the file is moved whole or not at all.
static void tell_move(const char *what, EndakuroMoved moved) {
    printf("%s: ", what);
    if (moved.number != 0) {
        printf("refused %u, record %u\n", moved.number, moved.record);
        return;
    }
    printf("%u records moved\n", moved.count);
}

int main(void) {
    static const uint32_t whole[RUNS] = {500, 501, 500, 501, 500};
    static const uint64_t interpolated[RUNS] = {500412, 500503, 500380, 500551, 500447}; // 500.412 pulses ..
    uint8_t counted[RUNS * SHORT], records[RUNS * LONG], again[RUNS * SHORT];

    for (int i = 0; i < RUNS; i++) frame(counted + SHORT * i, whole[i]);
    prove_short("whole pulses", counted);
    tell_move("forward", endakuro_forward(counted, sizeof counted, records, sizeof records));
    prove_long("the same pulses in thousandths", records);

    // the counter interpolates
    for (int i = 0; i < RUNS; i++) put(records + LONG * i, interpolated[i], 8);
    prove_long("thousandths of a pulse", records);
    EndakuroPart used = endakuro_accept_long(prover, K, HOUSE_LIMIT, records, sizeof records);
    printf("  the accepted runs are the %zu bytes from %zu\n", used.length, used.start);
    EndakuroRun first = endakuro_run_long(prover, K, records, LONG);
    printf("  the first indicates %u.%04u barrels, factor %u.%04u\n", (unsigned)first.indicated / 10000,
           (unsigned)first.indicated % 10000, (unsigned)first.factor / 10000, (unsigned)first.factor % 10000);
    tell_move("back", endakuro_back(records, sizeof records, again, sizeof again));

    // only whole counts can go back
    for (int i = 0; i < RUNS; i++) put(records + LONG * i, 1000 * (uint64_t)whole[i], 8);
    tell_move("back", endakuro_back(records, sizeof records, again, sizeof again));
    printf("  the bytes are %s\n", memcmp(counted, again, sizeof again) == 0 ? "those of before" : "others");
    return 0;
}
