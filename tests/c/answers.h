// Answers in the line program's words.
#pragma once
#include "operands.h"
#include <stdio.h>

// What the header rules out is printed, so that no such answer is the line program's.
static void require(int holds, const char *otherwise) {
    if (!holds) printf("(%s) ", otherwise);
}

#define VALUES(...) (const int64_t[]){__VA_ARGS__}, (int)(sizeof((int64_t[]){__VA_ARGS__}) / sizeof(int64_t))

// Done with its values, or refused, and then with none.
static void tell(uint16_t refusal, uint16_t record, const int64_t *values, int count) {
    if (refusal == 0) {
        require(record == 0, "done, with a record");
        printf("ok");
        for (int i = 0; i < count; i++) printf(" %lld", (long long)values[i]);
        return;
    }
    for (int i = 0; i < count; i++) require(values[i] == 0, "refused, with a value");
    printf("refused %u %u", refusal, record);
}

static void tell_bytes(const uint8_t *bytes, size_t length) {
    static const char digits[] = "0123456789abcdef";
    static char told[LONGEST + 1];
    for (size_t i = 0; i < length; i++) {
        told[2 * i] = digits[bytes[i] >> 4];
        told[2 * i + 1] = digits[bytes[i] & 15];
    }
    told[2 * length] = 0;
    printf(" %s", length ? told : "-");
}

static void tell_buffer(void) {
    require(guards_stand(&buffer), "written beside the buffer");
    tell_bytes(lent_bytes(&buffer), buffer.length);
}

// Lent records are only read.
static void require_records_left(void) {
    bool left = guards_stand(&records);
    for (size_t i = 0; i < records.length; i++) left = left && lent_bytes(&records)[i] == octet(lent_from + 2 * i);
    require(left, "records changed");
}
