// Calls of the book: each side keeps a book of its own and changes it in place, from one chunk to the next. The good
// ones are of a book with the figures of a new one, as a library of before agreements knows it. Those with faults are
// of books of any agreement, and figures are set and commons asked for among them.
#include "kind.h"
#include "plain.h"
#include <string.h>

enum { SHIPPERS = 4, PLACES = 16 };

#define NEW_FIGURES {{2, 2, 2, 2}, {8, 8, 8, 8}}
#define EMPTY_BOOK {.figures = NEW_FIGURES}

typedef enum { REQUEST, WITHDRAW, TAKE, SET, COMMONS } Call;

typedef struct {
    Call call;
    uint8_t shipper;
    uint32_t number;
    EndakuroFigures figures;
    // the book is replaced by `offered` first
    bool replaces;
    EndakuroBook offered;
} Input;

// The values are a take's shipper and request, or the commons and how many of them are used.
typedef struct {
    uint16_t number, record;
    uint64_t values[2];
} Answer;

static Input inputs[CHUNK];
static Answer answers[SIDES][CHUNK];
static EndakuroBook kept[SIDES] = {EMPTY_BOOK, EMPTY_BOOK, EMPTY_BOOK, EMPTY_BOOK};
// Whether the inputs have books of any agreement.
static bool by_agreement;

static EndakuroFigures some_agreement(Chance *chance) {
    EndakuroFigures figures = NEW_FIGURES;
    if (once_in(chance, 4)) return figures;
    // beyond the one place that every reserve has; what is not handed on stays in the commons
    int64_t left = between(chance, 0, PLACES - SHIPPERS);
    for (int s = 0; s < SHIPPERS; s++) {
        int64_t more = between(chance, 0, left);
        left -= more;
        figures.reserves[s] = (uint8_t)(1 + more);
        figures.ceilings[s] = (uint8_t)between(chance, 1 + more, PLACES);
    }
    return figures;
}

// One of the figures becomes another near it, or any: within the rules or not.
static void change_one(Chance *chance, EndakuroFigures *figures) {
    uint8_t *figure = once_in(chance, 2) ? figures->reserves : figures->ceilings;
    figure += between(chance, 0, SHIPPERS - 1);
    *figure = (uint8_t)(once_in(chance, 2) ? any(chance) : *figure + (uint64_t)between(chance, -3, 3));
}

// As many as a shipper may have, ceiling and commons allowing, or fewer.
static void fill(Chance *chance, EndakuroBook *book) {
    int64_t commons = PLACES;
    for (int s = 0; s < SHIPPERS; s++) commons -= book->figures.reserves[s];
    for (int s = 0; s < SHIPPERS; s++) {
        int64_t reserve = book->figures.reserves[s], ceiling = book->figures.ceilings[s];
        int64_t most = reserve + commons < ceiling ? reserve + commons : ceiling;
        int64_t count = once_in(chance, 2) ? most : between(chance, 0, most);
        if (count > reserve) commons -= count - reserve;
        book->lines[s].count = (uint64_t)count;
        for (int64_t i = 0; i < count; i++) book->lines[s].numbers[i] = (uint32_t)(3 * i + 1);
    }
}

// A book that came from outside: sound, or with one thing wrong.
static EndakuroBook some_book(Chance *chance) {
    EndakuroBook book = {.last = (uint8_t)between(chance, 0, 3), .figures = some_agreement(chance)};
    if (once_in(chance, 2)) fill(chance, &book);
    switch (between(chance, 0, 9)) {
    case 0: book.last = 4; break;
    case 1: book.lines[between(chance, 0, 3)].count = any(chance); break;
    case 2: book.lines[between(chance, 0, 3)].numbers[between(chance, 0, PLACES - 1)] = 7; break;
    case 3: change_one(chance, &book.figures); break;
    default: break;
    }
    return book;
}

static void make(Chance *chance, int count, bool damaged) {
    by_agreement = damaged;
    for (int i = 0; i < count; i++) {
        Input *input = &inputs[i];
        int64_t turn = between(chance, 0, 9);
        input->call = turn < 5 ? REQUEST : turn < 6 ? WITHDRAW : TAKE;
        input->shipper = (uint8_t)between(chance, 0, damaged ? 4 : 3);
        input->number = (uint32_t)between(chance, damaged ? 0 : 1, 40);
        // a chunk by agreement begins with a book of its own
        input->replaces = damaged && (i == 0 || once_in(chance, 8));
        if (input->replaces) input->offered = some_book(chance);
        if (damaged && once_in(chance, 8)) input->call = COMMONS;
        // a book that has just come is empty more often than others
        if (damaged && once_in(chance, input->replaces ? 2 : 8)) {
            input->call = SET;
            input->figures = some_agreement(chance);
            if (once_in(chance, 2)) change_one(chance, &input->figures);
        }
    }
}

typedef EndakuroDone Change(EndakuroBook *, uint8_t, uint32_t);
typedef EndakuroTaken Take(EndakuroBook *);
typedef EndakuroDone Set(EndakuroBook *, EndakuroFigures);
typedef EndakuroCommons Commons(const EndakuroBook *);

static bool has_figures(int side) {
    return side != PREVIOUS || previous_set_figures;
}

static void work(int side, int count) {
    static Change *const request[SIDES] = {endakuro_request, plain_request, bare_request, previous_request};
    static Change *const withdraw[SIDES] = {endakuro_withdraw, plain_withdraw, bare_withdraw, previous_withdraw};
    static Take *const take[SIDES] = {endakuro_take, plain_take, bare_take, previous_take};
    static Set *const set[SIDES] = {endakuro_set_figures, plain_set_figures, bare_set_figures, previous_set_figures};
    static Commons *const commons[SIDES] = {endakuro_commons, plain_commons, bare_commons, previous_commons};
    // where an archive knows nothing of agreements, the library runs beside itself
    int by = by_agreement && !has_figures(side) ? OURS : side;
    EndakuroBook *book = &kept[side];
    for (int i = 0; i < count; i++) {
        const Input *input = &inputs[i];
        Answer *answer = &answers[side][i];
        if (input->replaces) *book = input->offered;
        if (input->call == TAKE) {
            EndakuroTaken taken = take[by](book);
            *answer = (Answer){taken.number, taken.record, {taken.shipper, taken.request}};
        } else if (input->call == COMMONS) {
            EndakuroCommons shared = commons[by](book);
            *answer = (Answer){shared.number, shared.record, {shared.commons, shared.used}};
        } else {
            Change *change = input->call == REQUEST ? request[by] : withdraw[by];
            EndakuroDone given = input->call == SET ? set[by](book, input->figures)
                                                    : change(book, input->shipper, input->number);
            *answer = (Answer){given.number, given.record, {0, 0}};
        }
    }
}

static bool same(const Answer *a, const Answer *b) {
    return a->number == b->number && a->record == b->record && a->values[0] == b->values[0] &&
           a->values[1] == b->values[1];
}

static bool same_books(const EndakuroBook *a, const EndakuroBook *b) {
    for (int s = 0; s < SHIPPERS; s++) {
        if (a->lines[s].count != b->lines[s].count) return false;
        if (memcmp(a->lines[s].numbers, b->lines[s].numbers, sizeof a->lines[s].numbers) != 0) return false;
    }
    return a->last == b->last;
}

static bool same_figures(const EndakuroBook *a, const EndakuroBook *b) {
    return memcmp(&a->figures, &b->figures, sizeof a->figures) == 0;
}

static long differences(int side, int count) {
    long different = !same_books(&kept[OURS], &kept[side]);
    // to an archive of before agreements those bytes are nothing, and it may leave any
    different += has_figures(side) && !same_figures(&kept[OURS], &kept[side]);
    for (int i = 0; i < count; i++) different += !same(&answers[OURS][i], &answers[side][i]);
    return different;
}

const Kind calls = {"book calls", 1000000, CHUNK, make, work, differences};
