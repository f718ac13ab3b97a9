// Water draws: three to ten passes of one to five fills; of a bidirectional prover three to six round trips.
#include "kind.h"
#include "plain.h"
#include "records.h"
#include <string.h>

enum { MOST_FILLS = 60 };

typedef struct {
    EndakuroProver prover;
    size_t size;
    uint8_t records[MOST_FILLS * RECORD_BYTES];
} Draw;

static Draw inputs[CHUNK];
static EndakuroDraw answers[SIDES][CHUNK];

// What all fills of a draw have in common, but for the scatter of its scale readings.
typedef struct {
    int64_t certified, scatter, t, coefficient, ctdw;
} Measure;

static void make_fill(Chance *chance, uint8_t *record, const Measure *measure, int64_t pass, int64_t pressure) {
    memset(record, 0, RECORD_BYTES);
    put(record, 4, measure->certified);
    put(record + 4, 2, between(chance, -measure->scatter, measure->scatter));
    put(record + 6, 2, measure->t);
    put(record + 8, 2, measure->t + between(chance, -2, 2));
    put(record + 10, 2, measure->coefficient);
    put(record + 12, 4, measure->ctdw);
    put(record + 16, 1, pass);
    put(record + 18, 2, pressure);
}

static void damage(Chance *chance, Draw *draw) {
    switch (between(chance, 0, 4)) {
    case 0: draw->size = (size_t)between(chance, 0, (int64_t)sizeof draw->records); break;
    case 1: damage_prover(chance, &draw->prover); break;
    case 2: draw->records[32 * between(chance, 0, 9) + 16] += (uint8_t)between(chance, 1, 2); break;
    default: draw->records[between(chance, 0, (int64_t)draw->size - 1)] = (uint8_t)any(chance);
    }
}

static void make_draws(Chance *chance, int count, bool damaged, bool in_pairs) {
    for (int i = 0; i < count; i++) {
        Draw *draw = &inputs[i];
        draw->prover = some_prover(chance);
        Measure measure = {.certified = between(chance, 100000, 5000000),
                           .t = between(chance, 500, 900),
                           .coefficient = between(chance, 150, 300),
                           .ctdw = between(chance, 999000, 1001000)};
        measure.scatter = measure.certified / between(chance, 2000, 20000);
        int64_t passes = in_pairs ? 2 * between(chance, 3, 6) : between(chance, 3, 10);
        int64_t fills = between(chance, 1, 5);
        uint8_t *record = draw->records;
        for (int64_t pass = 1; pass <= passes; pass++) {
            int64_t pressure = between(chance, 20, 60);
            for (int64_t fill = 0; fill < fills; fill++, record += RECORD_BYTES)
                make_fill(chance, record, &measure, pass, pressure);
        }
        draw->size = (size_t)(record - draw->records);
        if (damaged) damage(chance, draw);
    }
}

static void make(Chance *chance, int count, bool damaged) { make_draws(chance, count, damaged, false); }

static void make_trips(Chance *chance, int count, bool damaged) { make_draws(chance, count, damaged, true); }

typedef EndakuroDraw Draws(EndakuroProver, const uint8_t *, size_t);

static void work_by(Draws *draw, int side, int count) {
    for (int i = 0; i < count; i++) answers[side][i] = draw(inputs[i].prover, inputs[i].records, inputs[i].size);
}

static void work(int side, int count) {
    static Draws *const draw[SIDES] = {endakuro_draw, plain_draw, bare_draw, previous_draw};
    work_by(draw[side], side, count);
}

// Beside an archive that has no such function the library runs beside itself.
static void work_trips(int side, int count) {
    Draws *previous = previous_bidirectional ? previous_bidirectional : endakuro_bidirectional;
    Draws *const draw[SIDES] = {endakuro_bidirectional, plain_bidirectional, bare_bidirectional, previous};
    work_by(draw[side], side, count);
}

static bool same(const EndakuroDraw *a, const EndakuroDraw *b) {
    return a->number == b->number && a->record == b->record && a->base == b->base && a->barrels == b->barrels &&
           a->first == b->first;
}

static long differences(int side, int count) {
    long different = 0;
    for (int i = 0; i < count; i++) different += !same(&answers[OURS][i], &answers[side][i]);
    return different;
}

const Kind draws = {"water draws", 100000, CHUNK, make, work, differences};
const Kind round_trips = {"bidirectional draws", 100000, CHUNK, make_trips, work_trips, differences};
