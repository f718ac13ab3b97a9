// A line's operands, and the bytes among them as they are lent.
#pragma once
#include "lent.h"
#include <endakuro.h>
#include <stdlib.h>
#include <string.h>

enum { LONGEST = 1048576 };

static char line[LONGEST + 2];
static char *rest;

static Lent records, buffer;
// The word of the line that the records were lent from.
static const char *lent_from;

static char *next_word(void) {
    char *word = rest;
    char *space = strchr(word, ' ');
    if (space) *space = 0;
    rest = space ? space + 1 : word + strlen(word);
    return word;
}

static uint32_t number(void) {
    return (uint32_t)strtoul(next_word(), NULL, 10);
}

static int16_t signed_number(void) {
    return (int16_t)strtol(next_word(), NULL, 10);
}

static uint32_t bits_of_single(void) {
    return (uint32_t)strtoul(next_word(), NULL, 16);
}

static float single_of(uint32_t bits) {
    float value;
    memcpy(&value, &bits, sizeof value);
    return value;
}

static EndakuroChannel channel(void) {
    static const char *const kinds[] = {[ENDAKURO_FAHRENHEIT] = "fahrenheit",
                                        [ENDAKURO_CELSIUS] = "celsius",
                                        [ENDAKURO_PRESSURE] = "pressure",
                                        [ENDAKURO_FAULT] = "fault"};
    EndakuroChannel read = {.kind = ENDAKURO_FAHRENHEIT};
    const char *name = next_word();
    while (read.kind < ENDAKURO_FAULT && strcmp(kinds[read.kind], name) != 0) read.kind++;
    read.bits = read.kind == ENDAKURO_FAULT ? number() : bits_of_single();
    return read;
}

static int digit(char c) {
    return c <= '9' ? c - '0' : c - 'a' + 10;
}

static uint8_t octet(const char *digits) {
    return (uint8_t)(16 * digit(digits[0]) + digit(digits[1]));
}

static void lend(Lent *lent, const char *word) {
    set_length(lent, word[0] == '-' ? 0 : strlen(word) / 2);
    for (size_t i = 0; i < lent->length; i++) lent_bytes(lent)[i] = octet(word + 2 * i);
}

static void lend_buffer(void) {
    lend(&buffer, next_word());
}

static void lend_records(void) {
    lent_from = next_word();
    lend(&records, lent_from);
}

static uint8_t metal;
static uint16_t coefficient;

static void read_metal(void) {
    metal = (uint8_t)number();
    coefficient = (uint16_t)number();
}

static EndakuroProver settings(void) {
    EndakuroProver prover;
    read_metal();
    prover.metal = metal;
    prover.coefficient = coefficient;
    prover.diameter = number();
    prover.wall = number();
    prover.modulus = number();
    prover.base = number();
    return prover;
}

static EndakuroFigures agreement(void) {
    EndakuroFigures agreed;
    for (int s = 0; s < 4; s++) agreed.reserves[s] = (uint8_t)number();
    for (int s = 0; s < 4; s++) agreed.ceilings[s] = (uint8_t)number();
    return agreed;
}
