// The water draw (01, 'Water draw'; 02, 'Bidirectional provers'): factors at 6 places, volumes in 0.01 cubic inch.
#include "factors.h"
#include "group.h"
#include "records.h"

typedef struct {
    uint32_t certified, ctdw;
    int16_t scale, prover_t, measure_t;
    uint16_t gc, p;
    uint8_t pass;
} Fill;

static Fill fill_from(const uint8_t *s) {
    return (Fill){.certified = long_word(s),
                  .scale = (int16_t)word(s + 4),
                  .prover_t = (int16_t)word(s + 6),
                  .measure_t = (int16_t)word(s + 8),
                  .gc = word(s + 10),
                  .ctdw = long_word(s + 12),
                  .pass = s[16],
                  .p = word(s + 18)};
}

static bool is_fill(const Fill *fill) {
    return within(fill->certified, 20000, 100000000) && within(fill->scale, -10000, 10000) &&
           within(fill->prover_t, 350, 1050) && within(fill->measure_t, 321, 1050) &&
           within(fill->gc, 100, 400) && within(fill->ctdw, 980000, 1020000) && within(fill->p, 0, 1500);
}

// Passes start at 1 and never go back or skip; the fills of a pass carry one pressure.
static bool keeps_rule(const Fill *fill, const Fill *before) {
    if (!before) return fill->pass == 1;
    return fill->pass == before->pass ? fill->p == before->p : fill->pass == before->pass + 1;
}

static uint64_t drawn_by(const Fill *fill, uint16_t gc) {
    uint64_t adjusted = (uint64_t)((int64_t)fill->certified + fill->scale);
    uint64_t measure = cts_of(fill->measure_t, fill->gc, SIX_PLACES);
    uint64_t prover = cts_of(fill->prover_t, gc, SIX_PLACES);
    uint64_t ccts = rounded((wide)measure * 1000000, prover);
    return rounded((wide)adjusted * fill->ctdw * ccts, 1000000000000);
}

static EndakuroDraw no_draw(uint16_t number, uint16_t record) {
    return (EndakuroDraw){.number = number, .record = record};
}

// Round trips: each odd pass with the even one after it.
static int pair_up(uint64_t *volumes, int passes) {
    for (int trip = 0; trip < passes / 2; trip++) volumes[trip] = volumes[2 * trip] + volumes[2 * trip + 1];
    return passes / 2;
}

static bool are_passes(int passes, bool in_pairs) {
    return in_pairs ? passes % 2 == 0 && within(passes, 6, 20) : within(passes, 3, 20);
}

static inline EndakuroDraw draw_water(EndakuroProver prover, const uint8_t *records, size_t size, bool in_pairs) {
    uint16_t gc = coefficient_of(prover.metal, prover.coefficient);
    if (JUDGING) {
        if (size % RECORD != 0 || !within((int64_t)(size / RECORD), 3, 60)) return no_draw(1, 0);
        if (!is_metal(gc) || !is_pipe(&prover)) return no_draw(3, 0);
    }
    int count = (int)(size / RECORD);
    Fill fills[60];
    for (int i = 0; i < count; i++) {
        const uint8_t *record = records + RECORD * i;
        fills[i] = fill_from(record);
        if (!JUDGING) continue;
        if (!is_fill(&fills[i])) return no_draw(5, (uint16_t)(i + 1));
        if (record[17] || !all_zero(record, 20, RECORD)) return no_draw(2, (uint16_t)(i + 1));
        if (!keeps_rule(&fills[i], i ? &fills[i - 1] : NULL)) return no_draw(6, (uint16_t)(i + 1));
    }
    int passes = fills[count - 1].pass;
    if (JUDGING && !are_passes(passes, in_pairs)) return no_draw(1, 0);

    uint64_t volumes[20];
    int i = 0;
    for (int pass = 0; pass < passes; pass++) {
        uint64_t sum = 0;
        uint16_t p = fills[i].p;
        for (; i < count && fills[i].pass == pass + 1; i++) sum += drawn_by(&fills[i], gc);
        uint64_t correction = cps_of(p, &prover, SIX_PLACES) * cpl_of(p, WATER, WATER_PE, SIX_PLACES);
        volumes[pass] = rounded((wide)sum * 1000000000000, correction);
    }
    int at = first_group(volumes, in_pairs ? pair_up(volumes, passes) : passes, 3, 2);
    if (at < 0) return no_draw(9, 0);
    uint64_t base = mean(volumes + at, 3);
    uint8_t first = (uint8_t)(in_pairs ? 2 * at + 1 : at + 1);
    return (EndakuroDraw){.base = base, .barrels = rounded((wide)base * 10000, 970200), .first = first};
}

EndakuroDraw NAMED(draw)(EndakuroProver prover, const uint8_t *records, size_t size) {
    return draw_water(prover, records, size, false);
}

EndakuroDraw NAMED(bidirectional)(EndakuroProver prover, const uint8_t *records, size_t size) {
    return draw_water(prover, records, size, true);
}
