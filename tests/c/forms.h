// The two forms of a run record: how each is laid out, and the functions that take it.
#pragma once
#include <endakuro.h>

typedef struct Form {
    // of a record, and of its pulse count, behind which the fields begin
    size_t bytes, count_bytes;
    // what a pulse counts as
    uint64_t pulse;
    EndakuroReport (*prove)(uint32_t, EndakuroProver, uint32_t, uint16_t, const uint8_t *, size_t, uint8_t *, size_t);
    EndakuroPart (*accept)(EndakuroProver, uint32_t, uint16_t, const uint8_t *, size_t);
    EndakuroRun (*run)(EndakuroProver, uint32_t, const uint8_t *, size_t);
    // to the other form
    EndakuroMoved (*move)(const uint8_t *, size_t, uint8_t *, size_t);
    const struct Form *other;
} Form;

static const Form long_form;

static const Form short_form = {.bytes = 32,
                                .count_bytes = 4,
                                .pulse = 1,
                                .prove = endakuro_prove,
                                .accept = endakuro_accept,
                                .run = endakuro_run,
                                .move = endakuro_forward,
                                .other = &long_form};

static const Form long_form = {.bytes = 48,
                               .count_bytes = 8,
                               .pulse = 1000,
                               .prove = endakuro_prove_long,
                               .accept = endakuro_accept_long,
                               .run = endakuro_run_long,
                               .move = endakuro_back,
                               .other = &short_form};
