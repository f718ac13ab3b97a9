// Channels that no line can say, kinds outside the four and fault codes of more than a byte, and every pattern of bits
// that is no finite number.
#include <endakuro.h>
#include <stdio.h>

enum { FAULT_CODE = 34, WRONG_KIND = 35, NOT_FINITE = 12, OUT_OF_RANGE = 13, GOOD = 0, PRINTED = 5 };

// A channel, and what it is refused for in either place.
typedef struct {
    EndakuroChannel channel;
    uint16_t as_temperature, as_pressure;
} Known;

static const Known known[] = {
    {{ENDAKURO_FAHRENHEIT, 0x42930000}, GOOD, WRONG_KIND},         // 73.5
    {{ENDAKURO_FAHRENHEIT, 0xff800000}, NOT_FINITE, WRONG_KIND},   // minus infinity
    {{ENDAKURO_FAHRENHEIT, 0x43800000}, OUT_OF_RANGE, WRONG_KIND}, // 256
    {{ENDAKURO_CELSIUS, 0xc1e60000}, GOOD, WRONG_KIND},            // -28.75
    {{ENDAKURO_CELSIUS, 0x7fc00000}, NOT_FINITE, WRONG_KIND},      // a quiet NaN
    {{ENDAKURO_CELSIUS, 0xc2200000}, OUT_OF_RANGE, WRONG_KIND},    // -40
    {{ENDAKURO_PRESSURE, 0x42200000}, WRONG_KIND, GOOD},           // 40
    {{ENDAKURO_PRESSURE, 0x7f800001}, WRONG_KIND, NOT_FINITE},     // a signalling NaN
    {{ENDAKURO_PRESSURE, 0xbf800000}, WRONG_KIND, OUT_OF_RANGE},   // -1
    {{ENDAKURO_FAULT, 7}, FAULT_CODE, FAULT_CODE},
    {{4, 0x42200000}, WRONG_KIND, WRONG_KIND},
};

enum { COUNT = sizeof known / sizeof *known };

static long calls, differences;

static void expect(uint16_t number, EndakuroChannel temperature, EndakuroChannel pressure) {
    EndakuroLive live = endakuro_channels(temperature, pressure);
    bool has_values = live.tenths != 0 || live.psi != 0;
    calls++;
    if (live.number == number && live.record == 0 && has_values == (number == GOOD)) return;
    differences++;
    if (differences > PRINTED) return;
    printf("%u %08x and %u %08x: %u %u %d %d and not %u\n", temperature.kind, temperature.bits, pressure.kind,
           pressure.bits, live.number, live.record, live.tenths, live.psi, number);
}

// The first channel's refusal, and where it has none the second's.
static void expect_pair(const Known *first, const Known *second) {
    expect(first->as_temperature ? first->as_temperature : second->as_pressure, first->channel, second->channel);
}

static void expect_in_both_places(const Known *tried) {
    for (int i = 0; i < COUNT; i++) {
        expect_pair(tried, &known[i]);
        expect_pair(&known[i], tried);
    }
}

// Those from 256 on would be one of the four if fewer bits were read.
static void expect_other_kinds(void) {
    static const uint32_t kinds[] = {4,   5,          255,        256,        257,        258,
                                     259, 0x80000000, 0x80000001, 0x80000002, 0x80000003, UINT32_MAX};
    for (size_t i = 0; i < sizeof kinds / sizeof *kinds; i++)
        for (int j = 0; j < COUNT; j++)
            expect_in_both_places(&(Known){{kinds[i], known[j].channel.bits}, WRONG_KIND, WRONG_KIND});
}

static void expect_fault(uint32_t code) {
    expect_in_both_places(&(Known){{ENDAKURO_FAULT, code}, FAULT_CODE, FAULT_CODE});
}

static void expect_faults(void) {
    for (uint32_t code = 0; code <= 256; code++) expect_fault(code);
    for (int i = 0; i < COUNT; i++) expect_fault(known[i].channel.bits);
    expect_fault(UINT32_MAX);
}

static void expect_not_finite(uint32_t bits) {
    static const EndakuroChannel temperature = {ENDAKURO_FAHRENHEIT, 0x42930000}; // 73.5
    static const EndakuroChannel pressure = {ENDAKURO_PRESSURE, 0x42200000};      // 40
    expect(NOT_FINITE, (EndakuroChannel){ENDAKURO_FAHRENHEIT, bits}, pressure);
    expect(NOT_FINITE, (EndakuroChannel){ENDAKURO_CELSIUS, bits}, pressure);
    expect(NOT_FINITE, temperature, (EndakuroChannel){ENDAKURO_PRESSURE, bits});
}

int main(void) {
    for (int i = 0; i < COUNT; i++) expect_in_both_places(&known[i]);
    expect_other_kinds();
    expect_faults();
    // either sign, the highest exponent and every fraction
    for (uint32_t fraction = 0; fraction < 1 << 23; fraction++) {
        expect_not_finite(0x7f800000 | fraction);
        expect_not_finite(0xff800000 | fraction);
    }
    printf("%ld calls; differences %ld\n", calls, differences);
    return 0;
}
