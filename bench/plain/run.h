// A run and its record, in either form (01, 'Records'; 02, 'Longer run records, and the way back').
#pragma once
#include "records.h"
#include "rounding.h"

// The bytes of a record of the long form, and of the ten fields behind the pulse count, which are the same in both.
enum { LONG_RECORD = 48, FIELDS = 20 };

// What takes the form as an argument stands in line wherever it is used: each form then has its code as if written for
// it alone.
#define BY_FORM static inline __attribute__((always_inline))

// The count is held in thousandths of a pulse, whatever the form of its record.
typedef struct {
    uint64_t thousandths;
    int16_t prover_t, meter_t;
    uint16_t prover_p, meter_p, prover_ctl, meter_ctl, prover_f, meter_f, prover_pe, meter_pe;
} Run;

BY_FORM size_t record_size(bool in_long_form) {
    return in_long_form ? LONG_RECORD : RECORD;
}

// Where the fields begin: behind a count of 4 bytes, or of 8.
BY_FORM size_t fields_at(bool in_long_form) {
    return in_long_form ? 8 : 4;
}

BY_FORM uint64_t thousandths_in(const uint8_t *record, bool in_long_form) {
    return in_long_form ? longer_word(record) : (uint64_t)long_word(record) * 1000;
}

BY_FORM Run run_from(const uint8_t *record, bool in_long_form) {
    const uint8_t *s = record + fields_at(in_long_form);
    return (Run){thousandths_in(record, in_long_form),
                 (int16_t)word(s),
                 (int16_t)word(s + 2),
                 word(s + 4),
                 word(s + 6),
                 word(s + 8),
                 word(s + 10),
                 word(s + 12),
                 word(s + 14),
                 word(s + 16),
                 word(s + 18)};
}

// A count of 2^63 and more is below any range as a signed number.
static inline bool is_run(const Run *run) {
    return within((int64_t)run->thousandths, 1000, 100000000000) && within(run->prover_t, -200, 2000) &&
           within(run->meter_t, -200, 2000) && within(run->prover_p, run->prover_pe, 1500) &&
           within(run->meter_p, run->meter_pe, 1500) && within(run->prover_ctl, 5000, 15000) &&
           within(run->meter_ctl, 5000, 15000) && within(run->prover_f, 0, 10000) && within(run->meter_f, 0, 10000);
}

// What a record is refused for by itself: 5, then 2; 0 where it is in order.
BY_FORM uint16_t fault_in(const uint8_t *record, const Run *run, bool in_long_form) {
    if (!is_run(run)) return 5;
    return all_zero(record, fields_at(in_long_form) + FIELDS, record_size(in_long_form)) ? 0 : 2;
}
