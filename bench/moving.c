// Files of run records moved forward, to the long form, and back: those that are timed have 4,096 records, or 512.
#include "kind.h"
#include "plain.h"
#include "runs.h"

// As many records in a chunk, whatever its files have.
enum { MOST = 4096, FEWER = 512, CHUNK_RECORDS = 65536 };

// Of a chunk with faults a few files have the most records that can be moved, or one more or less; the others have few.
enum { FEW = 40, ONE_LARGE_IN = 128 };

// Each file has room for a record more than it has, and a chunk with faults is the one that needs most.
enum { ROOM = LONG_RECORD_BYTES * (CHUNK * (FEW + 1) + (CHUNK / ONE_LARGE_IN + 1) * (MOST + 2)) };

typedef struct {
    // the file's own, in `lent` and in `written`, and what of it is lent
    size_t at, bytes;
    size_t size, room;
} File;

static File files[CHUNK];
static uint8_t lent[ROOM], written[SIDES][ROOM];
static EndakuroMoved answers[SIDES][CHUNK];

// Of whole pulses, so that it can be moved from either form.
static void make_record(Chance *chance, const Form *form, uint8_t *record, const Liquid *liquid) {
    int64_t pulses = between(chance, 1, once_in(chance, 2) ? 100000000 : 100000);
    make_run(chance, form, record, pulses * form->pulse, liquid);
}

static const Form *other(const Form *form) {
    return form == &short_form ? &long_form : &short_form;
}

static void make_file(Chance *chance, const Form *form, File *file, int64_t records) {
    Liquid liquid = some_liquid(chance);
    for (int64_t i = 0; i < records; i++) make_record(chance, form, lent + file->at + form->bytes * i, &liquid);
    file->bytes = (size_t)(LONG_RECORD_BYTES * (records + 1));
    file->size = (size_t)(form->bytes * records);
    file->room = (size_t)(other(form)->bytes * records);
}

// Any, but one in four the first and one in four the last.
static int64_t some_place(Chance *chance, int64_t records) {
    if (once_in(chance, 2)) return between(chance, 0, records - 1);
    return once_in(chance, 2) ? 0 : records - 1;
}

// A buffer a few bytes off, or of any length; records cut short, or one more than the file has; none at all; or records
// cut short, within one of them as often as not, and the buffer that goes with them, to the byte below.
static void damage_lengths(Chance *chance, const Form *form, File *file) {
    switch (between(chance, 0, 4)) {
    case 0: file->room += (size_t)between(chance, -3, 3); break;
    case 1: file->room = (size_t)between(chance, 0, (int64_t)file->bytes); break;
    case 2: file->size = (size_t)between(chance, 0, (int64_t)file->size + form->bytes); break;
    case 3: file->size = file->room = 0; break;
    default: {
        int64_t size = between(chance, 0, (int64_t)file->size);
        if (once_in(chance, 2)) size -= size % form->bytes;
        file->size = (size_t)size;
        file->room = (size_t)(size * other(form)->bytes / form->bytes);
    }
    }
}

// Up to three faults in records, in one or in several of them: the first in the paper's order is told.
static void damage(Chance *chance, const Form *form, File *file, int64_t records) {
    if (once_in(chance, 3)) damage_lengths(chance, form, file);
    uint8_t *record = lent + file->at;
    for (int64_t faults = between(chance, 0, 3); faults > 0; faults--) {
        if (once_in(chance, 2)) record = lent + file->at + form->bytes * some_place(chance, records);
        if (once_in(chance, 2)) {
            damage_run(chance, form, record);
        } else {
            // beside a whole count or at it; in the short form these are whole pulses, and good
            int64_t beside = between(chance, -2, 2) * (once_in(chance, 2) ? 1 : 100);
            put(record, form->fields, 1000 * between(chance, 2, 99999) + beside);
        }
    }
}

// How many records a file with faults has.
static int64_t some_records(Chance *chance, int at) {
    return at % ONE_LARGE_IN == 0 ? between(chance, MOST - 1, MOST + 1) : between(chance, 1, FEW);
}

static void make_files(Chance *chance, const Form *form, int64_t records, int count, bool damaged) {
    size_t at = 0;
    for (int i = 0; i < count; i++) {
        File *file = &files[i];
        int64_t of_file = damaged ? some_records(chance, i) : records;
        file->at = at;
        make_file(chance, form, file, of_file);
        at += file->bytes;
        if (damaged) damage(chance, form, file, of_file);
    }
    // bytes that no side has written yet are the same for all
    memset(written, 0xa5, sizeof written);
}

static void make_short(Chance *chance, int count, bool damaged) {
    make_files(chance, &short_form, MOST, count, damaged);
}

static void make_fewer_short(Chance *chance, int count, bool damaged) {
    make_files(chance, &short_form, FEWER, count, damaged);
}

static void make_long(Chance *chance, int count, bool damaged) {
    make_files(chance, &long_form, MOST, count, damaged);
}

static void make_fewer_long(Chance *chance, int count, bool damaged) {
    make_files(chance, &long_form, FEWER, count, damaged);
}

typedef EndakuroMoved Move(const uint8_t *, size_t, uint8_t *, size_t);

static void work_by(Move *move, int side, int count) {
    for (int i = 0; i < count; i++) {
        const File *file = &files[i];
        answers[side][i] = move(lent + file->at, file->size, written[side] + file->at, file->room);
    }
}

// Beside an archive that has no such functions the library runs beside itself.
static void work_forward(int side, int count) {
    Move *previous = previous_forward ? previous_forward : endakuro_forward;
    Move *const forward[SIDES] = {endakuro_forward, plain_forward, bare_forward, previous};
    work_by(forward[side], side, count);
}

static void work_back(int side, int count) {
    Move *previous = previous_back ? previous_back : endakuro_back;
    Move *const back[SIDES] = {endakuro_back, plain_back, bare_back, previous};
    work_by(back[side], side, count);
}

// The bytes behind the buffer among them.
static bool same(const File *file, int side, int i) {
    const EndakuroMoved *a = &answers[OURS][i], *b = &answers[side][i];
    return a->number == b->number && a->record == b->record && a->count == b->count &&
           memcmp(written[OURS] + file->at, written[side] + file->at, file->bytes) == 0;
}

static long differences(int side, int count) {
    long different = 0;
    for (int i = 0; i < count; i++) different += !same(&files[i], side, i);
    return different;
}

// Rows of as many records, so that their times are the same where a record takes as long in a large file as in a small
// one.
enum { RECORDS = 160 * CHUNK_RECORDS, LARGE = CHUNK_RECORDS / MOST, SMALL = CHUNK_RECORDS / FEWER };

const Kind forward_4096 = {"forward of 4,096", RECORDS / MOST, LARGE, make_short, work_forward, differences};
const Kind forward_512 = {"forward of 512", RECORDS / FEWER, SMALL, make_fewer_short, work_forward, differences};
const Kind back_4096 = {"back of 4,096", RECORDS / MOST, LARGE, make_long, work_back, differences};
const Kind back_512 = {"back of 512", RECORDS / FEWER, SMALL, make_fewer_long, work_back, differences};
