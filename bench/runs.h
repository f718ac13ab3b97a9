// Run records as the inputs have them, in either form.
#pragma once
#include "records.h"
#include <string.h>

typedef struct {
    int bytes;
    // where the fields behind the pulse count begin, and the bytes that have no name
    int fields, unnamed;
    // what it counts a pulse as
    int64_t pulse;
} Form;

static const Form short_form = {.bytes = RECORD_BYTES, .fields = 4, .unnamed = 24, .pulse = 1};
static const Form long_form = {.bytes = LONG_RECORD_BYTES, .fields = 8, .unnamed = 28, .pulse = 1000};

// The liquid of a job; one in two boils at line conditions.
typedef struct {
    int64_t ctl, f, pe;
} Liquid;

static inline Liquid some_liquid(Chance *chance) {
    return (Liquid){.ctl = between(chance, 9500, 10200),
                    .f = between(chance, 300, 1000),
                    .pe = once_in(chance, 2) ? between(chance, 50, 250) : 0};
}

static inline void make_run(Chance *chance, const Form *form, uint8_t *record, int64_t count, const Liquid *liquid) {
    uint8_t *fields = record + form->fields;
    memset(record, 0, (size_t)form->bytes);
    put(record, form->fields, count);
    int64_t t = between(chance, 600, 900);
    put(fields, 2, t);
    put(fields + 2, 2, t + between(chance, -5, 5));
    int64_t p = liquid->pe + between(chance, 20, 300);
    put(fields + 4, 2, p);
    put(fields + 6, 2, p + between(chance, -20, 20));
    put(fields + 8, 2, liquid->ctl + between(chance, -1, 1));
    put(fields + 10, 2, liquid->ctl);
    put(fields + 12, 2, liquid->f);
    put(fields + 14, 2, liquid->f);
    if (liquid->pe == 0) return;
    put(fields + 16, 2, liquid->pe);
    // never above the meter's pressure, which may be as low as the prover's Pe
    put(fields + 18, 2, liquid->pe - between(chance, 0, 9));
}

// A count at an end of its range or past it, an equilibrium pressure at its P or past it, a byte without a name, or any
// byte.
static inline void damage_run(Chance *chance, const Form *form, uint8_t *record) {
    uint8_t *fields = record + form->fields;
    int64_t meter = between(chance, 0, 1);
    switch (between(chance, 0, 3)) {
    case 0: put(record, form->fields, (meter ? 1 : 100000000) * form->pulse + between(chance, -1, 1)); break;
    case 1: put(fields + 16 + 2 * meter, 2, word_at(fields + 4 + 2 * meter) + between(chance, -1, 2)); break;
    case 2: record[between(chance, form->unnamed, form->bytes - 1)] = (uint8_t)any(chance); break;
    default: record[between(chance, 0, form->bytes - 1)] = (uint8_t)any(chance);
    }
}
