// The line program's entries through the C header: reads its lines and answers in its words, so that both can
// be given the same lines. Only lines that are well formed come here; the grammar is the line program's own.
#include "answers.h"
#include "jobs.h"
#include <endakuro.h>
#include <stdio.h>
#include <string.h>

// The book, and as it was before the line that is answered.
static EndakuroBook kept, before;

static void tell_factor(EndakuroFactor r) {
    tell(r.number, r.record, VALUES(r.value));
}

// The line's last operand of a factor, 4 or 6, chooses the function.
static bool six_places(void) {
    return number() == 6;
}

static void cts(void) {
    int16_t t = signed_number();
    read_metal();
    tell_factor(six_places() ? endakuro_cts_six(t, metal, coefficient) : endakuro_cts_four(t, metal, coefficient));
}

static void cps(void) {
    uint16_t p = (uint16_t)number();
    uint32_t diameter = number(), wall = number(), modulus = number();
    tell_factor(six_places() ? endakuro_cps_six(p, diameter, wall, modulus)
                             : endakuro_cps_four(p, diameter, wall, modulus));
}

static void cpl(void) {
    uint16_t p = (uint16_t)number(), f = (uint16_t)number(), pe = (uint16_t)number();
    tell_factor(six_places() ? endakuro_cpl_six(p, f, pe) : endakuro_cpl_four(p, f, pe));
}

typedef EndakuroDraw (*DrawWater)(EndakuroProver, const uint8_t *, size_t);

static void draw_by(DrawWater by) {
    EndakuroProver prover = settings();
    lend_records();
    EndakuroDraw r = by(prover, lent_bytes(&records), records.length);
    tell(r.number, r.record, VALUES((int64_t)r.base, (int64_t)r.barrels, r.first));
}

static void draw(void) { draw_by(endakuro_draw); }

static void bidirectional(void) { draw_by(endakuro_bidirectional); }

static void fill(void) {
    read_metal();
    lend_records();
    EndakuroFill r = endakuro_fill(metal, coefficient, lent_bytes(&records), records.length);
    tell(r.number, r.record,
         VALUES((int64_t)r.adjusted, (int64_t)r.measure, (int64_t)r.prover, (int64_t)r.ccts, (int64_t)r.drawn));
}

typedef EndakuroPasses (*ListVolumes)(EndakuroProver, const uint8_t *, size_t);

static void list(ListVolumes of) {
    EndakuroProver prover = settings();
    lend_records();
    EndakuroPasses r = of(prover, lent_bytes(&records), records.length);
    int64_t values[21] = {r.count};
    for (int i = 0; i < 20; i++) {
        values[i + 1] = (int64_t)r.volumes[i];
        require(i < r.count || r.volumes[i] == 0, "a volume after the last");
    }
    tell(r.number, r.record, values, 1 + r.count);
}

static void passes(void) { list(endakuro_passes); }

static void trips(void) { list(endakuro_trips); }

static void ticket(void) {
    EndakuroTicket t;
    t.opening = number();
    t.closing = number();
    t.mf = (uint16_t)number();
    t.ctl = (uint16_t)number();
    t.pressure = (uint16_t)number();
    t.compressibility = (uint16_t)number();
    t.equilibrium = (uint16_t)number();
    t.sediment = number();
    EndakuroVolumes r = endakuro_ticket(t);
    tell(r.number, r.record, VALUES(r.factor, r.gross, r.net));
}

static void tell_live(EndakuroLive r) {
    tell(r.number, r.record, VALUES(r.tenths, r.psi));
}

// The same two singles, tagged as what they are, are the same reading.
static void live(void) {
    EndakuroChannel temperature = {.kind = ENDAKURO_FAHRENHEIT, .bits = bits_of_single()};
    EndakuroChannel pressure = {.kind = ENDAKURO_PRESSURE, .bits = bits_of_single()};
    EndakuroLive r = endakuro_live(single_of(temperature.bits), single_of(pressure.bits));
    EndakuroLive tagged = endakuro_channels(temperature, pressure);
    require(memcmp(&r, &tagged, sizeof r) == 0, "another reading of the two channels");
    tell_live(r);
}

static void channels(void) {
    EndakuroChannel temperature = channel();
    tell_live(endakuro_channels(temperature, channel()));
}

// The single by its bits: a refusal's are those of +0.
static void tell_panel(EndakuroPanel r) {
    uint32_t bits;
    memcpy(&bits, &r.shown, sizeof bits);
    require(r.number == 0 || bits == 0, "refused, with a value");
    tell(r.number, r.record, NULL, 0);
    if (r.number == 0) printf(" %08x", bits);
}

static void look_up(void) {
    int16_t temperature = signed_number();
    uint16_t gravity = (uint16_t)number();
    lend_records();
    EndakuroEntry r = endakuro_look_up(temperature, gravity, lent_bytes(&records), records.length);
    tell(r.number, r.record, VALUES(r.temperature, r.gravity, r.compressibility));
}

static void panel_temperature(void) {
    tell_panel(endakuro_panel_temperature(signed_number()));
}

static void panel_pressure(void) {
    tell_panel(endakuro_panel_pressure((uint16_t)number()));
}

static void tell_report(EndakuroReport r) {
    tell(r.number, r.record, VALUES(r.request, r.factor, r.first, r.runs, r.f1, r.f2, r.f3, r.f4, r.f5));
}

static void write(void) {
    uint32_t request = number();
    uint8_t count = (uint8_t)number(), first = (uint8_t)number();
    EndakuroFactors f;
    f.f1 = (uint16_t)number();
    f.f2 = (uint16_t)number();
    f.f3 = (uint16_t)number();
    f.f4 = (uint16_t)number();
    f.f5 = (uint16_t)number();
    lend_buffer();
    EndakuroReport r = endakuro_write(request, count, first, f, lent_bytes(&buffer), buffer.length);
    int told = r.request == request && r.runs == count && r.first == first && r.f1 == f.f1 && r.f2 == f.f2 &&
               r.f3 == f.f3 && r.f4 == f.f4 && r.f5 == f.f5;
    require(r.number || told, "another report");
    require(r.number == 0 || (r.request | r.factor | r.first | r.runs | r.f1 | r.f2 | r.f3 | r.f4 | r.f5) == 0,
            "refused, with a value");
    tell(r.number, r.record, NULL, 0);
    tell_buffer();
}

static void read(void) {
    lend_records();
    tell_report(endakuro_read(lent_bytes(&records), records.length));
}

// No line shows a book that is not sound, so that what a refusal leaves is seen here.
static void require_left(uint16_t refusal) {
    bool left = memcmp(kept.lines, before.lines, sizeof kept.lines) == 0 && kept.last == before.last &&
                memcmp(&kept.figures, &before.figures, sizeof kept.figures) == 0;
    require(refusal == 0 || left, "refused, and the book changed");
}

static void tell_change(EndakuroDone r) {
    require_left(r.number);
    tell(r.number, r.record, NULL, 0);
}

static void request(void) {
    uint8_t shipper = (uint8_t)number();
    tell_change(endakuro_request(&kept, shipper, number()));
}

static void withdraw(void) {
    uint8_t shipper = (uint8_t)number();
    tell_change(endakuro_withdraw(&kept, shipper, number()));
}

static void take(void) {
    EndakuroTaken r = endakuro_take(&kept);
    require_left(r.number);
    tell(r.number, r.record, VALUES(r.shipper, r.request));
}

static void set(void) { tell_change(endakuro_set_figures(&kept, agreement())); }

// The book holds its figures, sound or not; the commons are the library's answer.
static void figures(void) {
    EndakuroCommons r = endakuro_commons(&kept);
    int64_t values[10] = {[8] = (int64_t)r.commons, [9] = (int64_t)r.used};
    for (int s = 0; s < 4 && r.number == 0; s++) {
        values[s] = kept.figures.reserves[s];
        values[4 + s] = kept.figures.ceilings[s];
    }
    tell(r.number, r.record, values, 10);
}

static void book(void) {
    if (!endakuro_is_sound(&kept)) {
        printf("refused 20 0");
        return;
    }
    printf("ok %u", kept.last);
    for (int s = 0; s < 4; s++) {
        printf(" %zu", kept.lines[s].count);
        for (size_t i = 0; i < kept.lines[s].count; i++) printf(" %u", kept.lines[s].numbers[i]);
    }
}

static void load(void) {
    kept.last = (uint8_t)number();
    for (int s = 0; s < 4; s++) kept.lines[s].count = number();
    kept.figures = agreement();
    for (int s = 0; s < 4; s++)
        for (int i = 0; i < 16; i++) kept.lines[s].numbers[i] = number();
    printf("ok");
}

static void empty(void) {
    kept = endakuro_empty();
    printf("ok");
}

static const struct {
    const char *name;
    void (*answer)(void);
} entries[] = {
    {"cts", cts},
    {"cps", cps},
    {"cpl", cpl},
    {"prove", prove},
    {"runs", runs},
    {"run", run},
    {"prove_long", prove_long},
    {"runs_long", runs_long},
    {"run_long", run_long},
    {"forward", forward},
    {"back", back},
    {"draw", draw},
    {"bidirectional", bidirectional},
    {"fill", fill},
    {"passes", passes},
    {"trips", trips},
    {"ticket", ticket},
    {"live", live},
    {"channels", channels},
    {"panel_temperature", panel_temperature},
    {"panel_pressure", panel_pressure},
    {"look_up", look_up},
    {"write", write},
    {"read", read},
    {"request", request},
    {"withdraw", withdraw},
    {"take", take},
    {"set", set},
    {"figures", figures},
    {"book", book},
    {"load", load},
    {"empty", empty},
};

int main(void) {
    kept = endakuro_empty();
    while (fgets(line, sizeof line, stdin)) {
        char *end = strchr(line, '\n');
        if (end) *end = 0;
        rest = line;
        before = kept;
        set_length(&records, 0);
        const char *name = next_word();
        size_t i = 0;
        while (i < sizeof entries / sizeof *entries && strcmp(entries[i].name, name) != 0) i++;
        if (i == sizeof entries / sizeof *entries) {
            printf("no such entry");
        } else {
            entries[i].answer();
            require_records_left();
        }
        putchar('\n');
    }
    return 0;
}
