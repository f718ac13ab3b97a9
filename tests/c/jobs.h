// Jobs, one run of a job, and moving: entries whose run records come in two forms.
#pragma once
#include "answers.h"
#include "forms.h"

// The same records in the other form and moved back from there, and a buffer for the same job in the other form.
static Lent moved, returned, other_buffer;

// Moves the lent records to the other form; from there they come back as they were.
static EndakuroMoved move_on(const Form *form) {
    set_length(&moved, records.length / form->bytes * form->other->bytes);
    EndakuroMoved on = form->move(lent_bytes(&records), records.length, lent_bytes(&moved), moved.length);
    require(guards_stand(&moved), "moved beside the buffer");
    if (on.number != 0) return on;
    set_length(&returned, records.length);
    EndakuroMoved back = form->other->move(lent_bytes(&moved), moved.length, lent_bytes(&returned), returned.length);
    bool same = back.number == 0 && memcmp(lent_bytes(&returned), lent_bytes(&records), records.length) == 0;
    require(same && guards_stand(&returned), "other records, moved and moved back");
    return on;
}

// Moving judges records as a job does, first to last, each with 5 and 2: it refuses the job's record and no other, but
// for an earlier one whose count is not whole. A job that was refused before its records were judged says nothing.
static void require_judged_alike(uint16_t job_number, uint16_t job_record, EndakuroMoved on) {
    bool not_whole = on.number == 36;
    bool alike = true;
    switch (job_number) {
    case 2:
    case 5: alike = not_whole ? on.record < job_record : on.number == job_number && on.record == job_record; break;
    case 0:
    case 7:
    case 8:
    case 9: alike = not_whole || on.number == 0; break;
    }
    require(alike, "records judged otherwise by moving");
}

static void prove_in(const Form *form) {
    uint32_t request = number();
    EndakuroProver prover = settings();
    uint32_t k = number();
    uint16_t limit = (uint16_t)number();
    lend_buffer();
    lend_records();
    set_length(&other_buffer, buffer.length);
    memcpy(lent_bytes(&other_buffer), lent_bytes(&buffer), buffer.length);
    EndakuroReport r = form->prove(request, prover, k, limit, lent_bytes(&records), records.length, lent_bytes(&buffer),
                                   buffer.length);
    require(r.request == (r.number ? 0 : request), "another request number");
    EndakuroMoved on = move_on(form);
    require_judged_alike(r.number, r.record, on);
    if (on.number == 0) {
        EndakuroReport other = form->other->prove(request, prover, k, limit, lent_bytes(&moved), moved.length,
                                                  lent_bytes(&other_buffer), other_buffer.length);
        bool same = memcmp(&r, &other, offsetof(EndakuroReport, f5) + sizeof r.f5) == 0 &&
                    memcmp(lent_bytes(&buffer), lent_bytes(&other_buffer), buffer.length) == 0;
        require(same, "another report of the same runs in the other form");
    }
    tell(r.number, r.record, VALUES(r.factor, r.first, r.runs, r.f1, r.f2, r.f3, r.f4, r.f5));
    tell_buffer();
}

static void prove(void) { prove_in(&short_form); }

static void prove_long(void) { prove_in(&long_form); }

static void runs_in(const Form *form) {
    EndakuroProver prover = settings();
    uint32_t k = number();
    uint16_t limit = (uint16_t)number();
    lend_records();
    EndakuroPart r = form->accept(prover, k, limit, lent_bytes(&records), records.length);
    require(r.length || r.start == 0, "no part, with a start");
    if (move_on(form).number == 0) {
        EndakuroPart other = form->other->accept(prover, k, limit, lent_bytes(&moved), moved.length);
        bool same = other.start * form->bytes == r.start * form->other->bytes &&
                    other.length * form->bytes == r.length * form->other->bytes;
        require(same, "another part of the same runs in the other form");
    }
    printf("ok");
    tell_bytes(lent_bytes(&records) + r.start, r.length);
}

static void runs(void) { runs_in(&short_form); }

static void runs_long(void) { runs_in(&long_form); }

static void run_in(const Form *form) {
    EndakuroProver prover = settings();
    uint32_t k = number();
    lend_records();
    EndakuroRun r = form->run(prover, k, lent_bytes(&records), records.length);
    EndakuroMoved on = move_on(form);
    require_judged_alike(r.number, r.record, on);
    if (on.number == 0) {
        EndakuroRun other = form->other->run(prover, k, lent_bytes(&moved), moved.length);
        bool same = other.number == r.number && other.record == r.record &&
                    memcmp(&other.indicated, &r.indicated, sizeof r - offsetof(EndakuroRun, indicated)) == 0;
        require(same, "other figures of the same run in the other form");
    }
    tell(r.number, r.record,
         VALUES((int64_t)r.indicated, (int64_t)r.cts, (int64_t)r.cps, (int64_t)r.prover_cpl, (int64_t)r.prover_factor,
                (int64_t)r.meter_cpl, (int64_t)r.meter_product, (int64_t)r.prover_volume, (int64_t)r.meter_volume,
                (int64_t)r.factor));
}

static void run(void) { run_in(&short_form); }

static void run_long(void) { run_in(&long_form); }

static void move_from(const Form *form) {
    lend_buffer();
    lend_records();
    EndakuroMoved r = form->move(lent_bytes(&records), records.length, lent_bytes(&buffer), buffer.length);
    require(r.count == (r.number ? 0 : records.length / form->bytes), "another count of records");
    tell(r.number, r.record, NULL, 0);
    tell_buffer();
}

static void forward(void) { move_from(&short_form); }

static void back(void) { move_from(&long_form); }
