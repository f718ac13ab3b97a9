// Readings of smart transmitters: what they send is tagged, so that °C are not taken for °F nor a pressure for a
// temperature, and one that is at fault says so.
//     tests/c/build target/c/transmitters examples/c/transmitters.c && tests/c/run target/c/transmitters
#include <endakuro.h>
#include <stdio.h>
#include <string.h>

static EndakuroChannel sent(uint32_t kind, float single) {
    EndakuroChannel channel = {.kind = kind};
    memcpy(&channel.bits, &single, sizeof single);
    return channel;
}

// The first channel is judged first, so that of two faults the thermometer's is told.
static void tell_fault(EndakuroChannel temperature, EndakuroChannel pressure) {
    bool first = temperature.kind == ENDAKURO_FAULT;
    printf("the %s is at fault, code %u\n", first ? "thermometer" : "gauge", first ? temperature.bits : pressure.bits);
}

static void read(const char *what, EndakuroChannel temperature, EndakuroChannel pressure) {
    EndakuroLive live = endakuro_channels(temperature, pressure);
    printf("%s: ", what);
    switch (live.number) {
    case 0: printf("%.1f °F and %u psi\n", endakuro_panel_temperature(live.tenths).shown, live.psi); break;
    case 12: printf("no number was sent\n"); break;
    case 13: printf("out of range\n"); break;
    case 34: tell_fault(temperature, pressure); break;
    case 35: printf("a channel of the wrong kind\n"); break;
    }
}

int main(void) {
    EndakuroChannel forty = sent(ENDAKURO_PRESSURE, 40), broken = {.kind = ENDAKURO_FAULT, .bits = 17};
    EndakuroChannel warm = sent(ENDAKURO_CELSIUS, 23.25f); // 73.85 °F, half a tenth: away from zero

    read("73.5 °F", sent(ENDAKURO_FAHRENHEIT, 73.5f), forty);
    read("23.25 °C", warm, forty);
    read("-28.75 °C", sent(ENDAKURO_CELSIUS, -28.75f), forty); // -19.75 °F
    read("-40 °C", sent(ENDAKURO_CELSIUS, -40), forty);
    read("a broken thermometer", broken, forty);
    read("a broken gauge", warm, broken);
    read("two wires exchanged", forty, warm);
    return 0;
}
