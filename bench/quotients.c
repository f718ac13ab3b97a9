// Rounded quotients of the lowest layer: a * b / d.
#include "kind.h"
#include "plain.h"
#include "plain/rounding.h"

typedef struct {
    uint64_t a, b, d;
} Ratio;

static Ratio inputs[CHUNK];
static EndakuroQuotient answers[SIDES][CHUNK];

// A number of 1 to 64 bits.
static uint64_t of_any_length(Chance *chance) {
    return any(chance) >> between(chance, 0, 63) | 1;
}

static void make_ratio(Chance *chance, Ratio *ratio) {
    ratio->a = of_any_length(chance);
    ratio->d = of_any_length(chance);
    // at most d, so that the quotient has 64 bits
    ratio->b = 1 + any(chance) % ratio->d;
}

static void damage(Chance *chance, Ratio *ratio) {
    ratio->b = of_any_length(chance);
    if (once_in(chance, 16)) ratio->d = 0;
}

static void make(Chance *chance, int count, bool damaged) {
    for (int i = 0; i < count; i++) {
        make_ratio(chance, &inputs[i]);
        if (damaged) damage(chance, &inputs[i]);
    }
}

static bool has_two_words(const Ratio *ratio) {
    return (wide)ratio->a * ratio->b >> 64 != 0;
}

// Those whose dividend passes 64 bits: no machine division alone is enough.
static void make_long(Chance *chance, int count, bool damaged) {
    for (int i = 0; i < count; i++) {
        do make_ratio(chance, &inputs[i]);
        while (!has_two_words(&inputs[i]));
        if (damaged) damage(chance, &inputs[i]);
    }
}

static void work(int side, int count) {
    typedef EndakuroQuotient Work(uint64_t, uint64_t, uint64_t);
    static Work *const divide[SIDES] = {endakuro_rounded_ratio, plain_rounded_ratio, bare_rounded_ratio,
                                        previous_rounded_ratio};
    for (int i = 0; i < count; i++) answers[side][i] = divide[side](inputs[i].a, inputs[i].b, inputs[i].d);
}

static long differences(int side, int count) {
    long different = 0;
    for (int i = 0; i < count; i++) {
        const EndakuroQuotient *a = &answers[OURS][i], *b = &answers[side][i];
        different += a->kind != b->kind || a->value != b->value;
    }
    return different;
}

const Kind quotients = {"rounded quotients", 10000000, CHUNK, make, work, differences};
const Kind long_quotients = {"those of two words", 1000000, CHUNK, make_long, work, differences};
