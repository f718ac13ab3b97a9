// F of a liquid in a lent table (02, 'Look up compressibility').
#include "records.h"
#include "rounding.h"
#include <endakuro.h>

enum { ENTRY = 8, MOST_ENTRIES = 4096 };

static EndakuroEntry entry_from(const uint8_t *s) {
    return (EndakuroEntry){.temperature = (int16_t)word(s), .gravity = word(s + 2), .compressibility = word(s + 4)};
}

static bool is_entry(const EndakuroEntry *entry) {
    return within(entry->temperature, -200, 2000) && within(entry->gravity, 0, 900) &&
           within(entry->compressibility, 0, 10000) && entry->temperature % 5 == 0 && entry->gravity % 5 == 0;
}

static bool follows(const EndakuroEntry *entry, const EndakuroEntry *before) {
    return entry->gravity > before->gravity ||
           (entry->gravity == before->gravity && entry->temperature > before->temperature);
}

// Tenths to the nearest half degree. None lies in the middle between two.
static int half_degree(int tenths) {
    return (tenths < 0 ? tenths - 2 : tenths + 2) / 5 * 5;
}

static EndakuroEntry no_entry(uint16_t number, uint16_t record) {
    return (EndakuroEntry){.number = number, .record = record};
}

EndakuroEntry NAMED(look_up)(int16_t temperature, uint16_t gravity, const uint8_t *table, size_t length) {
    size_t count = length / ENTRY;
    if (JUDGING && (length % ENTRY != 0 || count < 1 || count > MOST_ENTRIES)) return no_entry(1, 0);
    int t = half_degree(temperature), g = half_degree(gravity);
    EndakuroEntry before = {0};
    const uint8_t *found = NULL;
    for (size_t i = 0; i < count; i++) {
        const uint8_t *record = table + ENTRY * i;
        EndakuroEntry entry = entry_from(record);
        if (JUDGING) {
            bool sound = is_entry(&entry) && all_zero(record, 6, ENTRY);
            if (!sound || (i > 0 && !follows(&entry, &before))) return no_entry(32, (uint16_t)(i + 1));
            before = entry;
        }
        if (entry.temperature == t && entry.gravity == g) {
            found = record;
            // what comes behind it is of interest to a judge alone
            if (!JUDGING) break;
        }
    }
    bool in_range = within(temperature, -200, 2000) && within(gravity, 0, 900);
    if (JUDGING && !in_range) return no_entry(13, 0);
    return found ? entry_from(found) : no_entry(33, 0);
}
