// The book of waiting requests (01, 'The book'), with a reserve and a ceiling for each shipper (02).
#include "rounding.h"
#include <endakuro.h>

enum { SHIPPERS = 4, PLACES = 16, LARGEST_RESERVE = 13 };

static bool are_in_range(uint8_t reserve, uint8_t ceiling) {
    return within(reserve, 1, LARGEST_RESERVE) && within(ceiling, reserve, PLACES);
}

static uint64_t reserved(const EndakuroFigures *figures) {
    uint64_t places = 0;
    for (int s = 0; s < SHIPPERS; s++) places += figures->reserves[s];
    return places;
}

// The places that are reserved or used: each shipper's reserve, or what it has waiting where that is more. Those beyond
// the reserved ones are the commons used.
static uint64_t occupied(const EndakuroBook *book) {
    uint64_t places = 0;
    for (int s = 0; s < SHIPPERS; s++) {
        uint64_t reserve = book->figures.reserves[s], count = book->lines[s].count;
        places += count > reserve ? count : reserve;
    }
    return places;
}

// The place of a number in a line from a place on; the count where it does not wait.
static uint64_t place_of(const EndakuroLine *line, uint64_t from, uint32_t number) {
    uint64_t i = from;
    while (i < line->count && line->numbers[i] != number) i++;
    return i;
}

static bool is_line(const EndakuroLine *line, uint8_t ceiling) {
    if (line->count > ceiling) return false;
    for (uint64_t i = 0; i < line->count; i++)
        if (line->numbers[i] == 0 || place_of(line, i + 1, line->numbers[i]) < line->count) return false;
    for (uint64_t i = line->count; i < PLACES; i++)
        if (line->numbers[i] != 0) return false;
    return true;
}

// A ceiling is judged before its line, which then ends within its record. Where what is occupied fits the places, so do
// the reserves, and the commons used fit the commons.
static bool is_sound(const EndakuroBook *book) {
    for (int s = 0; s < SHIPPERS; s++) {
        uint8_t ceiling = book->figures.ceilings[s];
        if (!are_in_range(book->figures.reserves[s], ceiling) || !is_line(&book->lines[s], ceiling)) return false;
    }
    return occupied(book) <= PLACES && book->last < SHIPPERS;
}

static void give_up(EndakuroLine *line, uint64_t at) {
    for (uint64_t i = at; i + 1 < line->count; i++) line->numbers[i] = line->numbers[i + 1];
    line->numbers[--line->count] = 0;
}

EndakuroDone NAMED(request)(EndakuroBook *book, uint8_t shipper, uint32_t number) {
    if (JUDGING) {
        if (!is_sound(book)) return (EndakuroDone){20, 0};
        if (shipper >= SHIPPERS) return (EndakuroDone){21, 0};
        if (number == 0) return (EndakuroDone){22, 0};
    }
    EndakuroLine *line = &book->lines[shipper];
    if (place_of(line, 0, number) < line->count) return (EndakuroDone){23, 0};
    if (line->count >= book->figures.ceilings[shipper]) return (EndakuroDone){24, 0};
    if (line->count >= book->figures.reserves[shipper] && occupied(book) >= PLACES) return (EndakuroDone){25, 0};
    line->numbers[line->count++] = number;
    return (EndakuroDone){0, 0};
}

EndakuroDone NAMED(withdraw)(EndakuroBook *book, uint8_t shipper, uint32_t number) {
    if (JUDGING) {
        if (!is_sound(book)) return (EndakuroDone){20, 0};
        if (shipper >= SHIPPERS) return (EndakuroDone){21, 0};
        if (number == 0) return (EndakuroDone){22, 0};
    }
    EndakuroLine *line = &book->lines[shipper];
    uint64_t at = place_of(line, 0, number);
    if (at == line->count) return (EndakuroDone){26, 0};
    give_up(line, at);
    return (EndakuroDone){0, 0};
}

EndakuroTaken NAMED(take)(EndakuroBook *book) {
    if (JUDGING && !is_sound(book)) return (EndakuroTaken){.number = 20};
    for (int turn = 1; turn <= SHIPPERS; turn++) {
        uint8_t shipper = (uint8_t)((book->last + turn) % SHIPPERS);
        EndakuroLine *line = &book->lines[shipper];
        if (line->count == 0) continue;
        EndakuroTaken taken = {.shipper = shipper, .request = line->numbers[0]};
        give_up(line, 0);
        book->last = shipper;
        return taken;
    }
    return (EndakuroTaken){.number = 27};
}

EndakuroDone NAMED(set_figures)(EndakuroBook *book, EndakuroFigures figures) {
    if (JUDGING && !is_sound(book)) return (EndakuroDone){20, 0};
    for (int s = 0; s < SHIPPERS; s++)
        if (book->lines[s].count != 0) return (EndakuroDone){30, 0};
    if (JUDGING) {
        for (int s = 0; s < SHIPPERS; s++)
            if (!are_in_range(figures.reserves[s], figures.ceilings[s])) return (EndakuroDone){31, 0};
        if (reserved(&figures) > PLACES) return (EndakuroDone){31, 0};
    }
    book->figures = figures;
    return (EndakuroDone){0, 0};
}

EndakuroCommons NAMED(commons)(const EndakuroBook *book) {
    if (JUDGING && !is_sound(book)) return (EndakuroCommons){.number = 20};
    uint64_t reserves = reserved(&book->figures);
    return (EndakuroCommons){.commons = PLACES - reserves, .used = occupied(book) - reserves};
}
