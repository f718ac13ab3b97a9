// Look-ups in lent tables of 4,096 records: a block of the printed table each, some gravities by some temperatures. A
// chunk's inputs share a few tables; a fault is an input's own, and stands in its table for its own call alone.
#include "kind.h"
#include "plain.h"
#include "records.h"
#include <string.h>

enum { ENTRY_BYTES = 8, ENTRIES = 4096, TABLE_BYTES = ENTRIES * ENTRY_BYTES, TABLES = 8 };
enum { COLDEST = -200, HOTTEST = 2000, LIGHTEST = 900, LARGEST_F = 10000 };

// Where the numbers of a record stand in it.
enum { TEMPERATURE = 0, GRAVITY = 2, COMPRESSIBILITY = 4, ZEROS = 6 };

typedef struct {
    int16_t temperature;
    uint16_t gravity;
    int table;
    size_t length;
    // the record that it has of its own, and whose place it takes
    int place;
    uint8_t record[ENTRY_BYTES];
} Input;

// With room behind for a length of one record too many.
static uint8_t tables[TABLES][TABLE_BYTES + ENTRY_BYTES];
static Input inputs[CHUNK];
static EndakuroEntry answers[SIDES][CHUNK];

static uint8_t *record_in(int table, int64_t place) {
    return tables[table] + ENTRY_BYTES * place;
}

// Where a block begins. The first table's has the least pair of all, the one of the last the greatest.
static int64_t some_begin(Chance *chance, int table, int64_t least, int64_t greatest) {
    if (table == 0) return least;
    return table == TABLES - 1 ? greatest : 5 * between(chance, least / 5, greatest / 5);
}

// 16, 32, 64 or 128 gravities, each with as many temperatures as 4,096 records leave it.
static void make_table(Chance *chance, int table) {
    int64_t gravities = 16 << between(chance, 0, 3), temperatures = ENTRIES / gravities;
    int64_t heaviest = some_begin(chance, table, 0, LIGHTEST - 5 * (gravities - 1));
    int64_t coldest = some_begin(chance, table, COLDEST, HOTTEST - 5 * (temperatures - 1));
    for (int64_t place = 0; place < ENTRIES; place++) {
        uint8_t *record = record_in(table, place);
        memset(record, 0, ENTRY_BYTES);
        put(record + TEMPERATURE, 2, coldest + 5 * (place % temperatures));
        put(record + GRAVITY, 2, heaviest + 5 * (place / temperatures));
        put(record + COMPRESSIBILITY, 2, between(chance, 300, 1500));
    }
}

static int64_t temperature_of(const uint8_t *record) {
    return (int16_t)word_at(record + TEMPERATURE);
}

// A number that goes to this half degree, and is within the range itself.
static int64_t around(Chance *chance, int64_t half, int64_t lo, int64_t hi) {
    return between(chance, half - 2 < lo ? lo : half - 2, half + 2 > hi ? hi : half + 2);
}

// Of a pair in the table, but one in sixteen of any.
static void ask(Chance *chance, Input *input) {
    const uint8_t *record = record_in(input->table, between(chance, 0, ENTRIES - 1));
    int64_t temperature = around(chance, temperature_of(record), COLDEST, HOTTEST);
    int64_t gravity = around(chance, word_at(record + GRAVITY), 0, LIGHTEST);
    if (once_in(chance, 16)) {
        temperature = between(chance, COLDEST, HOTTEST);
        gravity = between(chance, 0, LIGHTEST);
    }
    input->temperature = (int16_t)temperature;
    input->gravity = (uint16_t)gravity;
}

// One number of a record at the edge of its range or outside it, off its half degree, or out of its order.
static void damage_record(Chance *chance, uint8_t *record) {
    switch (between(chance, 0, 7)) {
    case 0: put(record + TEMPERATURE, 2, COLDEST - 5 * between(chance, 0, 1)); break;
    case 1: put(record + TEMPERATURE, 2, HOTTEST + 5 * between(chance, 0, 1)); break;
    case 2: put(record + TEMPERATURE, 2, temperature_of(record) + between(chance, -6, 6)); break;
    case 3: put(record + GRAVITY, 2, LIGHTEST + 5 * between(chance, 0, 1)); break;
    case 4: put(record + GRAVITY, 2, word_at(record + GRAVITY) + between(chance, -6, 6)); break;
    case 5: put(record + COMPRESSIBILITY, 2, between(chance, LARGEST_F - 1, LARGEST_F + 2)); break;
    case 6: record[ZEROS + between(chance, 0, 1)] = (uint8_t)any(chance); break;
    default: record[between(chance, 0, ENTRY_BYTES - 1)] = (uint8_t)any(chance);
    }
}

// Any, one of whole records, or one of those beside the least and the most that may be lent.
static size_t some_length(Chance *chance) {
    switch (between(chance, 0, 3)) {
    case 0: return (size_t)between(chance, 0, TABLE_BYTES + ENTRY_BYTES);
    case 1: return (size_t)between(chance, 0, 2 * ENTRY_BYTES);
    case 2: return (size_t)between(chance, TABLE_BYTES - ENTRY_BYTES, TABLE_BYTES + ENTRY_BYTES);
    default: return (size_t)(ENTRY_BYTES * between(chance, 0, ENTRIES + 1));
    }
}

static void damage_asked(Chance *chance, Input *input) {
    switch (between(chance, 0, 3)) {
    case 0: input->temperature = (int16_t)between(chance, COLDEST - 3, COLDEST + 1); break;
    case 1: input->temperature = (int16_t)between(chance, HOTTEST - 1, HOTTEST + 3); break;
    case 2: input->gravity = (uint16_t)between(chance, LIGHTEST - 1, LIGHTEST + 3); break;
    default: input->temperature = (int16_t)any(chance), input->gravity = (uint16_t)any(chance);
    }
}

// Some have several faults, of which the first in the paper's order is told.
static void damage(Chance *chance, Input *input) {
    do {
        switch (between(chance, 0, 5)) {
        case 0: input->length = some_length(chance); break;
        case 1: damage_asked(chance, input); break;
        // its neighbour's or another's record once more
        case 2: memcpy(input->record, record_in(input->table, input->place ^ 1), ENTRY_BYTES); break;
        case 3: memcpy(input->record, record_in(input->table, between(chance, 0, ENTRIES - 1)), ENTRY_BYTES); break;
        default: damage_record(chance, input->record);
        }
    } while (once_in(chance, 3));
}

// Any, but one in eight the first or the last.
static int some_place(Chance *chance) {
    if (once_in(chance, 8)) return once_in(chance, 2) ? 0 : ENTRIES - 1;
    return (int)between(chance, 0, ENTRIES - 1);
}

static void make(Chance *chance, int count, bool damaged) {
    for (int table = 0; table < TABLES; table++) make_table(chance, table);
    // one has a fault to begin with, beside those of its inputs
    if (damaged) damage_record(chance, record_in(1, some_place(chance)));
    for (int i = 0; i < count; i++) {
        Input *input = &inputs[i];
        input->table = (int)between(chance, 0, TABLES - 1);
        input->length = TABLE_BYTES;
        input->place = some_place(chance);
        memcpy(input->record, record_in(input->table, input->place), ENTRY_BYTES);
        ask(chance, input);
        if (damaged) damage(chance, input);
    }
}

// The input's record and the one in the table change places.
static void exchange(Input *input) {
    uint8_t kept[ENTRY_BYTES], *record = record_in(input->table, input->place);
    memcpy(kept, record, ENTRY_BYTES);
    memcpy(record, input->record, ENTRY_BYTES);
    memcpy(input->record, kept, ENTRY_BYTES);
}

// Beside an archive that has no such function the library runs beside itself.
static void work(int side, int count) {
    typedef EndakuroEntry Work(int16_t, uint16_t, const uint8_t *, size_t);
    Work *previous = previous_look_up ? previous_look_up : endakuro_look_up;
    Work *const look_up[SIDES] = {endakuro_look_up, plain_look_up, bare_look_up, previous};
    for (int i = 0; i < count; i++) {
        Input *input = &inputs[i];
        exchange(input);
        answers[side][i] = look_up[side](input->temperature, input->gravity, tables[input->table], input->length);
        exchange(input);
    }
}

static bool same(const EndakuroEntry *a, const EndakuroEntry *b) {
    return a->number == b->number && a->record == b->record && a->temperature == b->temperature &&
           a->gravity == b->gravity && a->compressibility == b->compressibility;
}

static long differences(int side, int count) {
    long different = 0;
    for (int i = 0; i < count; i++) different += !same(&answers[OURS][i], &answers[side][i]);
    return different;
}

const Kind look_ups = {"look-ups in 4,096", 10000, CHUNK, make, work, differences};
