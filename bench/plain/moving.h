// A file of run records moved from one form to the other (02, 'Longer run records, and the way back'). All of it is
// judged before a byte is written.
#include "run.h"
#include <endakuro.h>
#include <string.h>

enum { MOST_MOVED = 4096 };

static EndakuroMoved not_moved(uint16_t number, uint16_t record) {
    return (EndakuroMoved){.number = number, .record = record};
}

BY_FORM EndakuroMoved judge_file(const uint8_t *records, size_t size, size_t room, bool in_long_form) {
    size_t each = record_size(in_long_form), count = size / each;
    size_t long_size = in_long_form ? size : room, short_size = in_long_form ? room : size;
    if (2 * long_size != 3 * short_size) return not_moved(14, 0);
    if (size % each != 0 || !within((int64_t)count, 1, MOST_MOVED)) return not_moved(1, 0);
    for (size_t i = 0; i < count; i++) {
        const uint8_t *record = records + each * i;
        Run run = run_from(record, in_long_form);
        uint16_t fault = fault_in(record, &run, in_long_form);
        if (fault == 0 && in_long_form && run.thousandths % 1000 != 0) fault = 36;
        if (fault) return not_moved(fault, (uint16_t)(i + 1));
    }
    return (EndakuroMoved){.count = (uint16_t)count};
}

// The fields behind the count, and zeros up to the record's end.
BY_FORM void copy_fields(uint8_t *to, const uint8_t *from, bool to_long_form) {
    size_t at = fields_at(to_long_form);
    memcpy(to + at, from + fields_at(!to_long_form), FIELDS);
    memset(to + at + FIELDS, 0, record_size(to_long_form) - at - FIELDS);
}

EndakuroMoved NAMED(forward)(const uint8_t *records, size_t size, uint8_t *buffer, size_t room) {
    EndakuroMoved moved = {.count = (uint16_t)(size / RECORD)};
    if (JUDGING) moved = judge_file(records, size, room, false);
    for (size_t i = 0; i < moved.count; i++) {
        const uint8_t *from = records + RECORD * i;
        uint8_t *to = buffer + LONG_RECORD * i;
        put_longer_word(to, thousandths_in(from, false));
        copy_fields(to, from, true);
    }
    return moved;
}

EndakuroMoved NAMED(back)(const uint8_t *records, size_t size, uint8_t *buffer, size_t room) {
    EndakuroMoved moved = {.count = (uint16_t)(size / LONG_RECORD)};
    if (JUDGING) moved = judge_file(records, size, room, true);
    for (size_t i = 0; i < moved.count; i++) {
        const uint8_t *from = records + LONG_RECORD * i;
        uint8_t *to = buffer + RECORD * i;
        put_long_word(to, (uint32_t)(thousandths_in(from, true) / 1000));
        copy_fields(to, from, false);
    }
    return moved;
}
