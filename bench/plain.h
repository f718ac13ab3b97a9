// The same jobs in plain C by the paper's formulas, twice from one text (plain/), and by another build of the library:
//   plain_     with all of the paper's checks
//   bare_      with none, for input that is known to be good
//   previous_  the functions of the archive that bench/run was given, or of the present one
// Plain C shares no code with the library.
#pragma once
#include <endakuro.h>

#define DECLARE(side)                                                                                                  \
    EndakuroReport side##_prove(uint32_t request, EndakuroProver prover, uint32_t k, uint16_t limit,                   \
                                const uint8_t *records, size_t size, uint8_t *buffer, size_t room);                    \
    EndakuroReport side##_prove_long(uint32_t request, EndakuroProver prover, uint32_t k, uint16_t limit,              \
                                     const uint8_t *records, size_t size, uint8_t *buffer, size_t room);               \
    EndakuroMoved side##_forward(const uint8_t *records, size_t size, uint8_t *buffer, size_t room);                   \
    EndakuroMoved side##_back(const uint8_t *records, size_t size, uint8_t *buffer, size_t room);                      \
    EndakuroDraw side##_draw(EndakuroProver prover, const uint8_t *records, size_t size);                              \
    EndakuroDraw side##_bidirectional(EndakuroProver prover, const uint8_t *records, size_t size);                     \
    EndakuroVolumes side##_ticket(EndakuroTicket ticket);                                                              \
    EndakuroLive side##_live(float temperature, float pressure);                                                       \
    EndakuroLive side##_channels(EndakuroChannel temperature, EndakuroChannel pressure);                               \
    EndakuroPanel side##_panel_temperature(int16_t tenths);                                                            \
    EndakuroPanel side##_panel_pressure(uint16_t psi);                                                                 \
    EndakuroEntry side##_look_up(int16_t temperature, uint16_t gravity, const uint8_t *table, size_t length);          \
    EndakuroDone side##_request(EndakuroBook *book, uint8_t shipper, uint32_t number);                                 \
    EndakuroDone side##_withdraw(EndakuroBook *book, uint8_t shipper, uint32_t number);                                \
    EndakuroTaken side##_take(EndakuroBook *book);                                                                     \
    EndakuroDone side##_set_figures(EndakuroBook *book, EndakuroFigures figures);                                      \
    EndakuroCommons side##_commons(const EndakuroBook *book);                                                          \
    EndakuroQuotient side##_rounded_ratio(uint64_t a, uint64_t b, uint64_t d)

DECLARE(plain);
DECLARE(bare);
DECLARE(previous);

// An archive of before bidirectional provers has none, one of before agreements knows 2 and 8 alone, one of before
// look-ups has no look-up, one of before smart transmitters has no channels, and one of before long run records knows
// the short ones alone.
#pragma weak previous_bidirectional
#pragma weak previous_set_figures
#pragma weak previous_commons
#pragma weak previous_look_up
#pragma weak previous_channels
#pragma weak previous_prove_long
#pragma weak previous_forward
#pragma weak previous_back
