// Places by agreement: from this season on the largest shipper pays for more room, and its neighbours keep theirs.
//     tests/c/build target/c/agreement examples/c/agreement.c && tests/c/run target/c/agreement
#include <endakuro.h>
#include <stdio.h>
#include <string.h>

enum { LARGEST = 0, SHIPPERS = 4 };

// The book as last season's controller kept it, compiled with a header that had no figures.
typedef struct {
    EndakuroLine lines[SHIPPERS];
    uint8_t last;
} OlderBook;

static const OlderBook last_season = {.lines[1] = {.numbers = {201}, .count = 1}, .last = 0};

static EndakuroBook taken_over(const OlderBook *older) {
    EndakuroBook book = endakuro_empty();
    memcpy(&book, older, offsetof(EndakuroBook, figures));
    return book;
}

// Of the table of numbers what can come up here.
static const char *in_words(uint16_t number) {
    switch (number) {
    case 0: return "done";
    case 24: return "refused, ceiling reached";
    case 25: return "refused, has its reserve or more and commons full";
    case 30: return "refused, book not empty";
    case 31: return "refused, figures outside the rules";
    default: return "refused";
    }
}

static void show(const EndakuroBook *book) {
    const uint8_t *r = book->figures.reserves, *c = book->figures.ceilings;
    EndakuroCommons shared = endakuro_commons(book);
    printf("  reserves %u %u %u %u, ceilings %u %u %u %u, ", r[0], r[1], r[2], r[3], c[0], c[1], c[2], c[3]);
    printf("commons %zu, of which %zu used\n", shared.commons, shared.used);
}

static void agree(EndakuroBook *book, const char *what, EndakuroFigures figures) {
    EndakuroDone set = endakuro_set_figures(book, figures);
    printf("%s: %s\n", what, in_words(set.number));
    show(book);
}

// A shipper asks for requests, one number after the other, until it is refused one.
static void ask(EndakuroBook *book, uint8_t shipper, uint32_t number) {
    EndakuroDone asked = endakuro_request(book, shipper, number);
    while (asked.number == 0) asked = endakuro_request(book, shipper, ++number);
    size_t waiting = book->lines[shipper].count;
    printf("shipper %u has %zu waiting; %u is %s\n", shipper, waiting, number, in_words(asked.number));
}

static void serve(EndakuroBook *book) {
    EndakuroTaken next = endakuro_take(book);
    printf("the prover goes to shipper %u, request %u\n", next.shipper, next.request);
}

int main(void) {
    // Six places are its own, four of them out of the commons, and it may have nine waiting.
    static const EndakuroFigures agreed = {.reserves = {6, 2, 2, 2}, .ceilings = {9, 8, 8, 8}};
    EndakuroFigures slip = agreed;
    slip.ceilings[LARGEST] = 5; // below its reserve

    EndakuroBook book = taken_over(&last_season);
    agree(&book, "with a request of last season waiting", agreed);
    serve(&book);
    agree(&book, "with a slip in a ceiling", slip);
    agree(&book, "as it was agreed", agreed);

    ask(&book, LARGEST, 101);
    ask(&book, 3, 401);
    ask(&book, 2, 301);
    show(&book);
    for (int turn = 0; turn < SHIPPERS; turn++) serve(&book); // shipper 1 was served last
    return 0;
}
