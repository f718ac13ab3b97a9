// A prover skid's morning: two shippers ask for the prover, each gets its jobs in turn, and every report is
// written and read back. A bad frame costs nobody the morning.
//     tests/c/build target/c/skid examples/c/skid.c && tests/c/run target/c/skid
#include <endakuro.h>
#include <stdio.h>

enum { RECORD = 32, RUNS = 6, K = 10000000, HOUSE_LIMIT = 5 };

static const EndakuroProver prover = {.base = 200000, // 20.0000 barrels
                                      .diameter = 10020,
                                      .wall = 365,
                                      .modulus = 30000000,
                                      .coefficient = 0, // no certificate: the metal by its name
                                      .metal = ENDAKURO_MILD_CARBON};

// A liquid in the line, at prover and meter.
typedef struct {
    uint16_t temperature, pressure, prover_ctl, meter_ctl, compressibility, equilibrium;
} Liquid;

static const Liquid gasoline = {.temperature = 735, // 73.5 °F
                                .pressure = 40,
                                .prover_ctl = 9907,
                                .meter_ctl = 9908,
                                .compressibility = 820,
                                .equilibrium = 0}; // it does not boil in the line
static const Liquid propane = {.temperature = 770,
                               .pressure = 385,
                               .prover_ctl = 9780,
                               .meter_ctl = 9789,
                               .compressibility = 2850,
                               .equilibrium = 115}; // below 115 psi it boils

static void put(uint8_t *at, uint32_t value, int bytes) {
    for (int i = 0; i < bytes; i++) at[i] = (uint8_t)(value >> 8 * i);
}

// One run's record, as the flow computer frames it.
static void frame(uint8_t *record, uint32_t pulses, const Liquid *liquid) {
    for (int i = 0; i < RECORD; i++) record[i] = 0;
    put(record, pulses, 4);
    put(record + 4, liquid->temperature, 2);
    put(record + 6, liquid->temperature, 2);
    put(record + 8, liquid->pressure, 2);
    put(record + 10, liquid->pressure, 2);
    put(record + 12, liquid->prover_ctl, 2);
    put(record + 14, liquid->meter_ctl, 2);
    put(record + 16, liquid->compressibility, 2);
    put(record + 18, liquid->compressibility, 2);
    put(record + 20, liquid->equilibrium, 2);
    put(record + 22, liquid->equilibrium, 2);
}

// What the operator's panel takes of a liquid; were either number refused, it would keep what it shows.
static void show(const Liquid *liquid) {
    EndakuroPanel temperature = endakuro_panel_temperature((int16_t)liquid->temperature);
    EndakuroPanel pressure = endakuro_panel_pressure(liquid->pressure);
    if (temperature.number != 0 || pressure.number != 0) return;
    printf("  the panel shows %.1f °F and %.0f psi\n", temperature.shown, pressure.shown);
}

// Proves a job and keeps its report in the 32 bytes; no input needs a check first.
static void prove(uint32_t request, const uint8_t *runs, uint8_t *report) {
    EndakuroReport job = endakuro_prove(request, prover, K, HOUSE_LIMIT, runs, RUNS * RECORD, report, RECORD);
    EndakuroReport kept = endakuro_read(report, RECORD);
    if (job.number != 0) {
        printf("request %u refused: number %u, record %u\n", request, job.number, job.record);
        printf("  the report kept is still that of request %u\n", kept.request);
        return;
    }
    printf("request %u proved: factor %u.%04u from run %u of %u\n", request, job.factor / 10000, job.factor % 10000,
           job.first, job.runs);
    EndakuroPart used = endakuro_accept(prover, K, HOUSE_LIMIT, runs, RUNS * RECORD);
    printf("  the accepted runs are the %zu bytes from %zu\n", used.length, used.start);
    printf("  its report, read back: request %u, factors %u %u %u %u %u\n", kept.request, kept.f1, kept.f2, kept.f3,
           kept.f4, kept.f5);
}

// What the meter passed of a liquid, by the factor that was proved with it.
static void issue(uint16_t factor, const Liquid *liquid) {
    EndakuroVolumes volumes = endakuro_ticket((EndakuroTicket){.opening = 10000000, // 100,000.00 barrels
                                                               .closing = 10050000,
                                                               .mf = factor,
                                                               .ctl = liquid->meter_ctl,
                                                               .pressure = liquid->pressure,
                                                               .compressibility = liquid->compressibility,
                                                               .equilibrium = liquid->equilibrium,
                                                               .sediment = 0});
    printf("a ticket by that factor: combined factor %u.%04u, net %u.%02u barrels\n", volumes.factor / 10000,
           volumes.factor % 10000, volumes.net / 100, volumes.net % 100);
}

int main(void) {
    static const uint32_t pulses[RUNS] = {200180, 200000, 200020, 199980, 200010, 199990};
    uint8_t runs[RUNS * RECORD], report[RECORD] = {0};

    EndakuroBook book = endakuro_empty();
    endakuro_request(&book, 0, 101);
    endakuro_request(&book, 0, 102);
    endakuro_request(&book, 1, 201);
    endakuro_request(&book, 1, 202);
    printf("shipper 0 asks for 101 again: number %u\n", endakuro_request(&book, 0, 101).number);
    printf("shipper 0 takes 102 back: number %u\n", endakuro_withdraw(&book, 0, 102).number);

    for (EndakuroTaken next = endakuro_take(&book); next.number == 0; next = endakuro_take(&book)) {
        const Liquid *liquid = next.shipper == 0 ? &gasoline : &propane;
        printf("the prover goes to shipper %u\n", next.shipper);
        show(liquid);
        for (int i = 0; i < RUNS; i++) frame(runs + RECORD * i, pulses[i], liquid);
        if (next.request == 201) put(runs + 2 * RECORD + 8, 110, 2); // at the third run the prover's propane boils
        prove(next.request, runs, report);
    }

    EndakuroReport kept = endakuro_read(report, RECORD);
    issue(kept.factor, &propane);
    EndakuroFactors factors = {kept.f1, kept.f2, kept.f3, kept.f4, kept.f5};
    EndakuroReport next = endakuro_write(kept.request + 1, kept.runs, kept.first, factors, report, RECORD);
    printf("a report written from its fields: request %u, factor %u\n", next.request, next.factor);
    return 0;
}
