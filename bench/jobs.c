// Jobs of twenty runs, with their reports; of run records in either form.
#include "kind.h"
#include "plain.h"
#include "runs.h"

enum { RUNS = 20, MOST_BYTES = RUNS * LONG_RECORD_BYTES };

typedef struct {
    uint32_t request;
    EndakuroProver prover;
    uint32_t k;
    uint16_t limit;
    size_t size, room;
    uint8_t records[MOST_BYTES];
} Job;

typedef struct {
    EndakuroReport report;
    uint8_t buffer[RECORD_BYTES];
} Answer;

static Job inputs[CHUNK];
static Answer answers[SIDES][CHUNK];

static void damage(Chance *chance, const Form *form, Job *job) {
    switch (between(chance, 0, 7)) {
    case 0: job->request = 0; break;
    case 1: job->room = (size_t)between(chance, 30, 34); break;
    case 2: job->size = (size_t)between(chance, 0, RUNS * form->bytes); break;
    case 3: job->k = (uint32_t)(once_in(chance, 2) ? between(chance, 0, 100) : between(chance, 0, UINT32_MAX)); break;
    case 4: job->limit = (uint16_t)between(chance, 0, 102); break;
    case 5: damage_prover(chance, &job->prover); break;
    default: {
        uint8_t *record = job->records + form->bytes * between(chance, 0, RUNS - 1);
        damage_run(chance, form, record);
        // twice in one record: then the order of its refusals is seen
        if (once_in(chance, 2)) damage_run(chance, form, record);
    }
    }
}

// Runs that differ by a few pulses in 10,000, so that the first qualifying five come early, late or never. In the long
// form hardly a count is whole.
static void make_jobs(Chance *chance, const Form *form, int count, bool damaged) {
    for (int i = 0; i < count; i++) {
        Job *job = &inputs[i];
        job->request = (uint32_t)between(chance, 1, UINT32_MAX);
        job->prover = some_prover(chance);
        job->k = (uint32_t)between(chance, 2000000, 20000000);
        job->limit = 5;
        job->size = (size_t)(RUNS * form->bytes);
        job->room = RECORD_BYTES;
        int64_t counted = (int64_t)job->prover.base * job->k / (10000000 / form->pulse);
        int64_t scatter = between(chance, 5, 60);
        Liquid liquid = some_liquid(chance);
        for (int run = 0; run < RUNS; run++) {
            int64_t off = counted * between(chance, -scatter, scatter) / 100000;
            make_run(chance, form, job->records + form->bytes * run, counted + off, &liquid);
        }
        if (damaged) damage(chance, form, job);
    }
    // bytes that no side has written yet are the same for all
    memset(answers, 0xa5, sizeof answers);
}

static void make(Chance *chance, int count, bool damaged) { make_jobs(chance, &short_form, count, damaged); }

static void make_long(Chance *chance, int count, bool damaged) { make_jobs(chance, &long_form, count, damaged); }

typedef EndakuroReport Prove(uint32_t, EndakuroProver, uint32_t, uint16_t, const uint8_t *, size_t, uint8_t *, size_t);

static void work_by(Prove *prove, int side, int count) {
    for (int i = 0; i < count; i++) {
        const Job *job = &inputs[i];
        Answer *answer = &answers[side][i];
        answer->report =
            prove(job->request, job->prover, job->k, job->limit, job->records, job->size, answer->buffer, job->room);
    }
}

static void work(int side, int count) {
    static Prove *const prove[SIDES] = {endakuro_prove, plain_prove, bare_prove, previous_prove};
    work_by(prove[side], side, count);
}

// Beside an archive that has no such function the library runs beside itself.
static void work_long(int side, int count) {
    Prove *previous = previous_prove_long ? previous_prove_long : endakuro_prove_long;
    Prove *const prove[SIDES] = {endakuro_prove_long, plain_prove_long, bare_prove_long, previous};
    work_by(prove[side], side, count);
}

static bool same(const Answer *x, const Answer *y) {
    const EndakuroReport *a = &x->report, *b = &y->report;
    return a->number == b->number && a->record == b->record && a->request == b->request && a->factor == b->factor &&
           a->first == b->first && a->runs == b->runs && a->f1 == b->f1 && a->f2 == b->f2 && a->f3 == b->f3 &&
           a->f4 == b->f4 && a->f5 == b->f5 && memcmp(x->buffer, y->buffer, RECORD_BYTES) == 0;
}

static long differences(int side, int count) {
    long different = 0;
    for (int i = 0; i < count; i++) different += !same(&answers[OURS][i], &answers[side][i]);
    return different;
}

const Kind jobs = {"jobs of twenty runs", 100000, CHUNK, make, work, differences};
const Kind long_jobs = {"jobs of long records", 100000, CHUNK, make_long, work_long, differences};
