// The job of a pipe prover (01, 'Proving, by pipe prover'), with runs in either form (02, 'Longer run records, and the
// way back').
#include "factors.h"
#include "group.h"
#include "run.h"
#include <string.h>

static uint64_t run_factor(const EndakuroProver *prover, uint16_t gc, const Run *run, uint64_t indicated) {
    uint64_t cts = cts_of(run->prover_t, gc, FOUR_PLACES);
    uint64_t cps = cps_of(run->prover_p, prover, FOUR_PLACES);
    uint64_t cpl = cpl_of(run->prover_p, run->prover_f, run->prover_pe, FOUR_PLACES);
    uint64_t prover_factor = rounded((wide)cts * cps * run->prover_ctl * cpl, 1000000000000);
    uint64_t meter_cpl = cpl_of(run->meter_p, run->meter_f, run->meter_pe, FOUR_PLACES);
    uint64_t meter_product = rounded((wide)run->meter_ctl * meter_cpl, 10000);
    uint64_t prover_volume = rounded((wide)prover->base * prover_factor, 10000);
    uint64_t meter_volume = rounded((wide)indicated * meter_product, 10000);
    return rounded((wide)prover_volume * 10000, meter_volume);
}

static EndakuroReport no_report(uint16_t number, uint16_t record) {
    return (EndakuroReport){.number = number, .record = record};
}

static EndakuroReport report_of(uint32_t request, int runs, int first, const uint64_t *five, uint8_t *buffer) {
    EndakuroReport report = {.request = request,
                             .factor = (uint16_t)mean(five, 5),
                             .first = (uint8_t)first,
                             .runs = (uint8_t)runs,
                             .f1 = (uint16_t)five[0],
                             .f2 = (uint16_t)five[1],
                             .f3 = (uint16_t)five[2],
                             .f4 = (uint16_t)five[3],
                             .f5 = (uint16_t)five[4]};
    memset(buffer, 0, RECORD);
    put_long_word(buffer, request);
    put_word(buffer + 4, report.factor);
    buffer[6] = report.first;
    buffer[7] = report.runs;
    for (int i = 0; i < 5; i++) put_word(buffer + 8 + 2 * i, (uint16_t)five[i]);
    return report;
}

static EndakuroReport work_out(uint32_t request, const EndakuroProver *prover, uint16_t gc, uint32_t k, uint16_t limit,
                               const Run *runs, int count, uint8_t *buffer) {
    uint64_t factors[20];
    for (int i = 0; i < count; i++) {
        uint64_t indicated = rounded((wide)runs[i].thousandths * 10000, k);
        if (JUDGING && (indicated < 1 || indicated > 100000000)) return no_report(7, (uint16_t)(i + 1));
        factors[i] = run_factor(prover, gc, &runs[i], indicated);
        if (JUDGING && (factors[i] < 8000 || factors[i] > 12000)) return no_report(8, (uint16_t)(i + 1));
    }
    int at = first_group(factors, count, 5, limit);
    return at < 0 ? no_report(9, 0) : report_of(request, count, at + 1, factors + at, buffer);
}

BY_FORM EndakuroReport prove_job(uint32_t request, EndakuroProver prover, uint32_t k, uint16_t limit,
                                 const uint8_t *records, size_t size, uint8_t *buffer, size_t room, bool in_long_form) {
    uint16_t gc = coefficient_of(prover.metal, prover.coefficient);
    size_t each = record_size(in_long_form);
    if (JUDGING) {
        if (room != RECORD) return no_report(14, 0);
        if (request == 0) return no_report(22, 0);
        if (size % each != 0 || !within((int64_t)(size / each), 5, 20)) return no_report(1, 0);
        if (!is_metal(gc) || !is_pipe(&prover) || !within(prover.base, 1, 100000000)) return no_report(3, 0);
        if (!within(k, 1, 1000000000) || !within(limit, 1, 100)) return no_report(4, 0);
    }
    int count = (int)(size / each);
    Run runs[20];
    for (int i = 0; i < count; i++) {
        const uint8_t *record = records + each * (size_t)i;
        runs[i] = run_from(record, in_long_form);
        if (!JUDGING) continue;
        uint16_t fault = fault_in(record, &runs[i], in_long_form);
        if (fault) return no_report(fault, (uint16_t)(i + 1));
    }
    return work_out(request, &prover, gc, k, limit, runs, count, buffer);
}

EndakuroReport NAMED(prove)(uint32_t request, EndakuroProver prover, uint32_t k, uint16_t limit, const uint8_t *records,
                            size_t size, uint8_t *buffer, size_t room) {
    return prove_job(request, prover, k, limit, records, size, buffer, room, false);
}

EndakuroReport NAMED(prove_long)(uint32_t request, EndakuroProver prover, uint32_t k, uint16_t limit,
                                 const uint8_t *records, size_t size, uint8_t *buffer, size_t room) {
    return prove_job(request, prover, k, limit, records, size, buffer, room, true);
}
