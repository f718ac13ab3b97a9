// Run records moved between their two forms by what lines do not say: every two small lengths, files larger than any
// line, every two faults of a record. Of every call all is seen: the answer with its count, the bytes written or, on
// refusal, left in the buffer, the records, and the bytes beside both.
#include "forms.h"
#include "lent.h"
#include <stdio.h>

enum { MOST = 4096, FIELDS = 10, PRINTED = 5 };
enum { GOOD = 0, LENGTH = 1, UNNAMED = 2, OUT_OF_RANGE = 5, BUFFER = 14, NOT_WHOLE = 36 };

static Lent records, buffer, expected;
static uint8_t before[MOST_LENT];
static long calls, differences;

// ---- files

static void put(uint8_t *at, uint64_t value, size_t bytes) {
    for (size_t i = 0; i < bytes; i++) at[i] = (uint8_t)(value >> 8 * i);
}

static int64_t spread(int64_t lo, int64_t hi, uint64_t step) {
    return lo + (int64_t)(step % (uint64_t)(hi - lo + 1));
}

// The record at a place of a file: of every five one has each number at the end of its range, and one at its beginning.
static void put_record(const Form *form, uint8_t *record, uint64_t place) {
    static const struct {
        int16_t lo, hi;
    } ranges[FIELDS - 2] = {{-200, 2000},  {-200, 2000},  {0, 1500},  {0, 1500},
                            {5000, 15000}, {5000, 15000}, {0, 10000}, {0, 10000}};
    uint64_t turn = place % 5;
    int64_t values[FIELDS];
    for (int i = 0; i < FIELDS; i++) {
        // an equilibrium pressure is at most its pressure
        int64_t lo = i < 8 ? ranges[i].lo : 0, hi = i < 8 ? ranges[i].hi : values[i - 6];
        values[i] = turn == 0 ? lo : turn == 1 ? hi : spread(lo, hi, 7919 * place + 104729 * (uint64_t)i);
    }
    int64_t pulses = turn == 0 ? 1 : turn == 1 ? 100000000 : spread(1, 100000000, 15485863 * place);
    memset(record, 0, form->bytes);
    put(record, (uint64_t)pulses * form->pulse, form->count_bytes);
    for (size_t i = 0; i < FIELDS; i++) put(record + form->count_bytes + 2 * i, (uint64_t)values[i], 2);
}

static void put_file(const Form *form, Lent *lent, size_t count) {
    set_length(lent, count * form->bytes);
    for (size_t place = 0; place < count; place++) put_record(form, lent_bytes(lent) + form->bytes * place, place);
}

// ---- calls

static bool all_are(const uint8_t *bytes, size_t length, uint8_t value) {
    for (size_t i = 0; i < length; i++)
        if (bytes[i] != value) return false;
    return true;
}

// Moves the lent records: the buffer then holds what is expected, or on refusal what it held.
static void expect(const Form *form, uint16_t number, uint16_t record) {
    static const uint8_t old = 0xc3;
    memset(lent_bytes(&buffer), old, buffer.length);
    memcpy(before, lent_bytes(&records), records.length);
    EndakuroMoved moved = form->move(lent_bytes(&records), records.length, lent_bytes(&buffer), buffer.length);
    size_t count = number ? 0 : records.length / form->bytes;
    bool told = moved.number == number && moved.record == record && moved.count == count;
    bool written = number ? all_are(lent_bytes(&buffer), buffer.length, old)
                          : memcmp(lent_bytes(&buffer), lent_bytes(&expected), buffer.length) == 0;
    bool left = memcmp(before, lent_bytes(&records), records.length) == 0;
    calls++;
    if (told && written && left && guards_stand(&records) && guards_stand(&buffer)) return;
    differences++;
    if (differences > PRINTED) return;
    printf("%zu bytes of %zu a record into %zu: %u %u %u and not %u %u %zu; bytes %s, records %s\n", records.length,
           form->bytes, buffer.length, moved.number, moved.record, moved.count, number, record, count,
           written ? "as expected" : "not as expected", left ? "left" : "changed");
}

// A file of so many records with a buffer for as many.
static void expect_file(const Form *form, size_t count, uint16_t number) {
    put_file(form, &records, count);
    put_file(form->other, &expected, count);
    set_length(&buffer, expected.length);
    expect(form, number, 0);
}

// ---- lengths

// Every two lengths up to a few records. Of the two the long form's is three halves of the short form's.
static void expect_lengths(const Form *form) {
    enum { RECORDS = 4 };
    size_t most = RECORDS * 48 + 3;
    put_file(form->other, &expected, RECORDS + 2);
    for (size_t lent = 0; lent <= most; lent++) {
        put_file(form, &records, RECORDS + 2);
        set_length(&records, lent);
        for (size_t room = 0; room <= most; room++) {
            set_length(&buffer, room);
            bool agree = lent * form->other->bytes == room * form->bytes;
            bool whole = lent % form->bytes == 0 && lent != 0;
            expect(form, !agree ? BUFFER : whole ? GOOD : LENGTH, 0);
        }
    }
}

// From 65,537 records on, 16 bits would count few enough of them.
static void expect_counts(const Form *form) {
    static const size_t good[] = {1, 2, 3, 5, 255, 256, 257, 1000, MOST - 1, MOST};
    static const size_t too_many[] = {MOST + 1, 2 * MOST, 65535, 65536, 65537, 65536 + MOST};
    for (size_t i = 0; i < sizeof good / sizeof *good; i++) expect_file(form, good[i], GOOD);
    for (size_t i = 0; i < sizeof too_many / sizeof *too_many; i++) expect_file(form, too_many[i], LENGTH);
}

// ---- faults

// Bytes of a record at fault: where they stand, what they hold, and what they are refused for.
typedef struct {
    size_t at, bytes;
    uint64_t value;
    uint16_t number;
} Fault;

enum { MOST_FAULTS = 128 };

static Fault faults[MOST_FAULTS];
static size_t fault_count;

static void add_fault(size_t at, size_t bytes, uint64_t value, uint16_t number) {
    faults[fault_count++] = (Fault){at, bytes, value, number};
}

static void add_counts(const Form *form, const uint64_t *counts, size_t length, uint16_t number) {
    for (size_t i = 0; i < length; i++) add_fault(0, form->count_bytes, counts[i], number);
}

#define ALL(counts) counts, sizeof counts / sizeof *counts

static void add_all_counts(const Form *form) {
    static const uint64_t pulses[] = {0, 100000001, UINT32_MAX};
    // the last four are whole: two with the uppermost bit set, which leaves the rest of one in range, and two whose
    // pulses are in range by their lower 32 bits
    static const uint64_t thousandths[] = {0,
                                           1,
                                           999,
                                           100000000001,
                                           100000001000,
                                           UINT64_MAX,
                                           9223372037054776000u,
                                           18446744073709551000u,
                                           4294967297000,
                                           4295167296000};
    static const uint64_t not_whole[] = {1001, 1500, 1999, 4294967297, 99999999999};
    if (form == &short_form) {
        add_counts(form, ALL(pulses), OUT_OF_RANGE);
    } else {
        add_counts(form, ALL(thousandths), OUT_OF_RANGE);
        add_counts(form, ALL(not_whole), NOT_WHOLE);
    }
}

// A pulse count at fault, each field past its ends, each byte without a name.
static void list_faults(const Form *form) {
    static const struct {
        size_t field;
        int32_t value;
    } past[] = {{0, -201},  {0, 2001}, {1, -201},  {1, 2001},  {2, 1501},  {3, 1501}, {4, 4999},
                {4, 15001}, {5, 4999}, {5, 15001}, {6, 10001}, {7, 10001}, {8, 1501}, {9, 1501}};
    fault_count = 0;
    add_all_counts(form);
    for (size_t i = 0; i < sizeof past / sizeof *past; i++)
        add_fault(form->count_bytes + 2 * past[i].field, 2, (uint64_t)past[i].value, OUT_OF_RANGE);
    for (size_t at = form->count_bytes + 2 * FIELDS; at < form->bytes; at++) {
        add_fault(at, 1, 1, UNNAMED);
        add_fault(at, 1, 0x80, UNNAMED);
    }
}

static void damage(const Form *form, size_t place, const Fault *fault) {
    put(lent_bytes(&records) + form->bytes * place + fault->at, fault->value, fault->bytes);
}

static void mend(const Form *form, size_t place) {
    put_record(form, lent_bytes(&records) + form->bytes * place, place);
}

// 5 comes before 2, and 2 before 36.
static uint16_t first_of(uint16_t one, uint16_t other) {
    if (one == OUT_OF_RANGE || other == OUT_OF_RANGE) return OUT_OF_RANGE;
    return one == UNNAMED || other == UNNAMED ? UNNAMED : NOT_WHOLE;
}

// Every fault at every place of a small file; every two in one record and in two.
static void expect_faults(const Form *form) {
    enum { RECORDS = 3 };
    put_file(form, &records, RECORDS);
    set_length(&buffer, RECORDS * form->other->bytes);
    for (size_t i = 0; i < fault_count; i++) {
        const Fault *one = &faults[i];
        for (size_t place = 0; place < RECORDS; place++) {
            damage(form, place, one);
            expect(form, one->number, (uint16_t)(place + 1));
            mend(form, place);
        }
        for (size_t j = 0; j < fault_count; j++) {
            const Fault *other = &faults[j];
            damage(form, 2, other);
            damage(form, 1, one);
            expect(form, one->number, 2);
            mend(form, 2);
            if (one->at != other->at) damage(form, 1, other);
            expect(form, one->at != other->at ? first_of(one->number, other->number) : one->number, 2);
            mend(form, 1);
        }
    }
}

// One of each number far on in the largest file.
static void expect_late_faults(const Form *form) {
    static const size_t places[] = {0, 1, 255, 256, 2047, MOST - 2, MOST - 1};
    put_file(form, &records, MOST);
    set_length(&buffer, MOST * form->other->bytes);
    for (size_t i = 0; i < fault_count; i++) {
        if (i > 0 && faults[i].number == faults[i - 1].number) continue;
        for (size_t j = 0; j < sizeof places / sizeof *places; j++) {
            damage(form, places[j], &faults[i]);
            expect(form, faults[i].number, (uint16_t)(places[j] + 1));
            mend(form, places[j]);
        }
    }
}

static void expect_all(const Form *form) {
    expect_lengths(form);
    expect_counts(form);
    list_faults(form);
    expect_faults(form);
    expect_late_faults(form);
}

int main(void) {
    expect_all(&short_form);
    expect_all(&long_form);
    printf("%ld calls; differences %ld\n", calls, differences);
    return 0;
}
