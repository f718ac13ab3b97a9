/* Endakuro for C: proved arithmetic for meter proving.
 *
 * The functions below are proved to do what they say here for every input, so a caller checks nothing first.
 * Build the archive with tests/c/archive, link target/staticlib/libapi.a (x86-64), and include this file
 * from C11 or C++17. Nothing here allocates, keeps anything between calls or prints; a call takes less than 3 KB
 * of stack.
 *
 * ANSWERS start with `number` and `record`; a part of records, a quotient, a book and a bool have neither.
 *   Done:    number 0 and record 0, and the values.
 *   Refused: number from the table below; record is the lent record at fault, from 1, where the table has
 *            a star, and 0 elsewhere; every value is 0. Nothing is written into a lent buffer, and a book is
 *            left as it was.
 *
 *    1   lent records not whole, or too few or many      14  report buffer not 32 bytes; a move's not in proportion
 *    2 * a byte that has no name is not zero             15  not a report
 *    3   prover setting out of range                     20  book not sound
 *    4   K factor or limit out of range                  21  unknown shipper
 *    5 * record field out of range, or P below Pe        22  number zero
 *    6 * pass number or its pressure breaks the rule     23  already waiting
 *    7 * indicated volume out of range after rounding    24  ceiling reached: has as many waiting
 *    8 * run factor out of range                         25  has its reserve or more, and commons full
 *    9   no qualifying group                             26  withdrawn number not waiting
 *   10   ticket field out of range, or P below Pe        27  nothing to take
 *   11   closing below opening                           30  book not empty
 *   12   reading not finite                              31  figures outside the rules
 *   13   reading, number for the panel, or number to     32 * table record faulty or out of order
 *        look up, out of range                           33  no such pair in the table
 *   34   fault code from a transmitter                   35  channel of the wrong kind
 *   36 * pulse count not whole
 *
 * UNITS AND RANGES, whole numbers all of them. Outside its range a number is refused, never bent.
 *
 *   temperature of prover and meter    0.1 °F                     -200 to 2000
 *   .. in a water draw                 0.1 °F                     prover 350 to 1050, measure 321 to 1050
 *   pressure P                         psi gage                   0 to 1500
 *   equilibrium pressure Pe            psi gage                   0 to P; 0 where the liquid does not boil
 *   cubical coefficient                10^-7 per °F               100 to 400
 *   modulus E                          psi                        10,000,000 to 40,000,000
 *   inside diameter, wall              0.001 inch                 1000 to 60000, 100 to 3000
 *   compressibility F                  10^-8 per psi              0 to 10000
 *   CTL                                0.0001                     5000 to 15000
 *   run factor, meter factor           0.0001                     8000 to 12000
 *   CTDW                               0.000001                   980000 to 1020000
 *   base and indicated volume          0.0001 barrel              1 to 100,000,000
 *   pulses                             one                        1 to 100,000,000
 *   .. in a long run record            0.001                      1000 to 100,000,000,000
 *   K factor                           0.001 pulse per barrel     1 to 1,000,000,000
 *   repeatability limit                1 in 10,000                1 to 100 (the house's is 5)
 *   meter reading                      0.01 barrel                0 to 99,999,999
 *   sediment and water S               0.001 %                    0 to 100000
 *   runs in a job, passes and fills    one                        5 to 20, 3 to 20 and 3 to 60
 *   passes of a bidirectional prover   one                        6 to 20, an even number
 *   API gravity                        0.1 °API                   0 to 900
 *   records of a table, or to be moved one                        1 to 4,096
 *
 * Every result is rounded once, to the unit that is named with it, halves upward. A live reading and a number for
 * the panel are rounded once too, each as it says; a number to look up goes to its nearest half degree.
 *
 * BYTES are lent as a pointer and a length. The pointer is never NULL, also where the length is 0. Lent
 * records and a lent buffer do not overlap.
 *
 * RECORDS have 32 bytes each, long runs 48, those of a table 8, little-endian; bytes without a name are zero.
 *   Run:    0 pulses (4), 4 prover T (signed 2), 6 meter T (signed 2), 8 prover P, 10 meter P, 12 prover CTL,
 *           14 meter CTL, 16 prover F, 18 meter F, 20 prover Pe, 22 meter Pe (2 each)
 *   Long run: 0 pulses in thousandths (8), then a run's bytes 4 to 31 at 8 to 35, so that T is at 8 and 10 and Pe at 24
 *           and 26; zeros from 28 on
 *   Fill:   0 certified volume (4; 20,000 to 100,000,000 in 0.01 cubic inch), 4 scale reading (signed 2;
 *           -10000 to 10000 in 0.01 cubic inch), 6 prover T, 8 measure T (signed 2), 10 measure's
 *           coefficient (2), 12 CTDW (4), 16 pass (1), 18 pressure (2). Passes start at 1 and never go back
 *           or skip; all fills of a pass carry one pressure
 *   Report: 0 request number (4), 4 job factor (2), 6 first run used (1), 7 runs in job (1), 8 the five
 *           factors (2 each)
 *   Table:  0 temperature (signed 2), 2 API gravity (2), 4 F (2). Temperature and gravity are on a half degree,
 *           multiples of 5; records rise by gravity and then temperature, and no pair stands twice
 *
 * FROM A HEADER WITHOUT Pe, three things have moved; with Pe 0 the answers are those of before.
 *   CPL takes Pe as its third argument: a call with two is an error.
 *   EndakuroTicket has `equilibrium` before `sediment`, and 24 bytes where it had 20: set it, to 0 or to Pe. In C
 *   an initializer by position puts S there, and no error says so.
 *   A run record's bytes 20 to 23, which had to be zero, are Pe.
 * Compile every caller again: no linker sees that one was compiled with the older header, and its tickets and
 * CPL would be wrong. sizeof(EndakuroTicket) tells the two headers apart at compile time.
 *
 * FROM A HEADER WITHOUT FIGURES, the book has moved; with 2 and 8 for all the answers are those of before.
 *   EndakuroBook has `figures` behind `last`, and 304 bytes where it had 296; the rest stands where it stood.
 *   A book that an older caller kept, in memory or in a file, has no figures: the bytes that stand in their place
 *   mean nothing. Give it those of a new book, 2 and 8, before any call sees it:
 *       EndakuroBook book = endakuro_empty();
 *       memcpy(&book, older, offsetof(EndakuroBook, figures));
 *   A book that a caller fills in by itself has figures too: with zeros there it is not sound.
 * Compile every caller again: an older one lends 296 bytes, and a call would read and write past their end, which no
 * linker sees. sizeof(EndakuroBook) tells the two headers apart at compile time.
 */
#ifndef ENDAKURO_H
#define ENDAKURO_H

#include <stdbool.h>
#include <stddef.h>
#include <stdint.h>

#ifdef __cplusplus
extern "C" {
#define ENDAKURO_ASSERT static_assert
#else
#define ENDAKURO_ASSERT _Static_assert
#endif

/* ---- Correction factors ----
 *
 * Each has two functions: at four places, for proving and tickets, and at six, for water draw. 1.0003 is 10003 at
 * four places and 1000300 at six. */

/* A metal goes in as two numbers: its name, and a certified cubical coefficient or 0. A certificate wins over
 * the name. Refused 3: a coefficient out of range, ENDAKURO_NO_NAME without one, any name above that. */
enum {
    ENDAKURO_MILD_CARBON = 0,
    ENDAKURO_STAINLESS_304 = 1,
    ENDAKURO_STAINLESS_316 = 2,
    ENDAKURO_17_4_PH = 3,
    ENDAKURO_NO_NAME = 4
};

typedef struct EndakuroFactor {
    uint16_t number;
    uint16_t record;
    uint32_t value;
} EndakuroFactor;

/* CTS, the effect of temperature on steel. Refuses 3 for the metal, then 5 for t; record is 0. */
EndakuroFactor endakuro_cts_four(int16_t t, uint8_t metal, uint16_t coefficient);
EndakuroFactor endakuro_cts_six(int16_t t, uint8_t metal, uint16_t coefficient);

/* CPS, the effect of pressure on steel. Refuses 3 for the pipe, then 5 for p; record is 0. */
EndakuroFactor endakuro_cps_four(uint16_t p, uint32_t diameter, uint32_t wall, uint32_t modulus);
EndakuroFactor endakuro_cps_six(uint16_t p, uint32_t diameter, uint32_t wall, uint32_t modulus);

/* CPL, the effect of pressure on the liquid: 1 / (1 - F × (P - Pe)). Refuses 5; record is 0. */
EndakuroFactor endakuro_cpl_four(uint16_t p, uint16_t f, uint16_t pe);
EndakuroFactor endakuro_cpl_six(uint16_t p, uint16_t f, uint16_t pe);

/* ---- Proving, by pipe prover ---- */

/* The prover's settings. A water draw does not judge `base`: it is what gives one. */
typedef struct EndakuroProver {
    uint32_t base;        /* base volume, 0.0001 barrel */
    uint32_t diameter;    /* inside diameter, 0.001 inch */
    uint32_t wall;        /* 0.001 inch */
    uint32_t modulus;     /* psi */
    uint16_t coefficient; /* certified, 10^-7 per °F; 0: none */
    uint8_t metal;        /* ENDAKURO_MILD_CARBON .. */
} EndakuroProver;

typedef struct EndakuroReport {
    uint16_t number;
    uint16_t record;
    uint32_t request; /* request number */
    uint16_t factor;  /* the job's factor, 0.0001: the five's mean */
    uint8_t first;    /* first run used, from 1 */
    uint8_t runs;     /* runs in the job */
    uint16_t f1;      /* the five run factors used, 0.0001 */
    uint16_t f2;
    uint16_t f3;
    uint16_t f4;
    uint16_t f5;
} EndakuroReport;

/* A job: 5 to 20 run records. The first five consecutive runs that repeat within `limit` decide, and their
 * report is written into `buffer`, which has 32 bytes. Refuses 14, 22 (request 0), 1, 3, 4; then, records
 * first to last, 5 and 2; then, run by run, 7 and 8; then 9. A refusal leaves every byte of `buffer`. */
EndakuroReport endakuro_prove(uint32_t request, EndakuroProver prover, uint32_t k, uint16_t limit,
                              const uint8_t *records, size_t records_length, uint8_t *buffer, size_t buffer_length);

/* The same job of long run records, 48 bytes each: no record tells its form, the call does. The same runs get the same
 * report, byte for byte. A count need not be whole: the indicated volume is the thousandths by K, rounded once. */
EndakuroReport endakuro_prove_long(uint32_t request, EndakuroProver prover, uint32_t k, uint16_t limit,
                                   const uint8_t *records, size_t records_length, uint8_t *buffer,
                                   size_t buffer_length);

/* A part of the lent records, in bytes; 0 and 0 where there is none. It has no number. */
typedef struct EndakuroPart {
    size_t start;
    size_t length;
} EndakuroPart;

/* The five accepted run records of the same job, as the 160 bytes from `start`; none where it is refused. */
EndakuroPart endakuro_accept(EndakuroProver prover, uint32_t k, uint16_t limit, const uint8_t *records,
                             size_t records_length);

/* The same of long run records, as the 240 bytes from `start`. */
EndakuroPart endakuro_accept_long(EndakuroProver prover, uint32_t k, uint16_t limit, const uint8_t *records,
                                  size_t records_length);

/* One run's figures: factors in 0.0001, volumes in 0.0001 barrel. */
typedef struct EndakuroRun {
    uint16_t number;
    uint16_t record;
    uint64_t indicated;     /* indicated volume */
    uint64_t cts;           /* of the prover */
    uint64_t cps;           /* of the prover */
    uint64_t prover_cpl;    /* of the liquid at the prover */
    uint64_t prover_factor; /* CTS, CPS, CTL and CPL at the prover */
    uint64_t meter_cpl;     /* of the liquid at the meter */
    uint64_t meter_product; /* CTL and CPL at the meter */
    uint64_t prover_volume; /* corrected */
    uint64_t meter_volume;  /* corrected */
    uint64_t factor;        /* the run factor */
} EndakuroRun;

/* One run by itself, from its 32 bytes. Refuses 1 (not 32 bytes), 3, 4 (K), then 5, 2, 7, 8 with record 1. */
EndakuroRun endakuro_run(EndakuroProver prover, uint32_t k, const uint8_t *bytes, size_t bytes_length);

/* One run from its long record. Refuses 1 (not 48 bytes), and the rest as endakuro_run. */
EndakuroRun endakuro_run_long(EndakuroProver prover, uint32_t k, const uint8_t *bytes, size_t bytes_length);

/* ---- Run records, moved from one form to the other ---- */

typedef struct EndakuroMoved {
    uint16_t number;
    uint16_t record;
    uint16_t count; /* how many records were moved */
} EndakuroMoved;

/* Run records, 1 to 4,096 of them, written into `buffer` as long ones: pulses by 1000, and nothing is lost. Refuses
 * 14, unless twice the buffer's length is three times the records', exactly; then 1; then, records first to last, 5 and
 * 2. Every record is judged before any byte is written: a refusal leaves every byte of `buffer`. */
EndakuroMoved endakuro_forward(const uint8_t *records, size_t records_length, uint8_t *buffer, size_t buffer_length);

/* Long run records written into `buffer` as short ones, exactly when every count is whole. Refuses 14, unless twice the
 * records' length is three times the buffer's; then 1; then, records first to last, 5, 2 and 36. What was moved forward
 * comes back as the bytes it was, and what was moved back goes forward as the bytes it was. */
EndakuroMoved endakuro_back(const uint8_t *records, size_t records_length, uint8_t *buffer, size_t buffer_length);

/* ---- The report record ---- */

/* Five consecutive run factors, 0.0001. */
typedef struct EndakuroFactors {
    uint16_t f1;
    uint16_t f2;
    uint16_t f3;
    uint16_t f4;
    uint16_t f5;
} EndakuroFactors;

/* Writes a report into the 32 bytes of `buffer`; its factor is the five's mean. `first` is 1 to runs - 4.
 * Refuses 14, 22 (request 0), 15; a refusal leaves every byte. */
EndakuroReport endakuro_write(uint32_t request, uint8_t runs, uint8_t first, EndakuroFactors factors, uint8_t *buffer,
                              size_t buffer_length);

/* Reads a report back. Refuses 14, 15. What was written is read as the same fields. */
EndakuroReport endakuro_read(const uint8_t *bytes, size_t bytes_length);

/* ---- Water draw: volumes in 0.01 cubic inch, factors at 6 places ---- */

typedef struct EndakuroDraw {
    uint16_t number;
    uint16_t record;
    uint64_t base;    /* base volume */
    uint64_t barrels; /* the same in 0.0001 barrel */
    uint8_t first;    /* first pass used, from 1 */
} EndakuroDraw;

/* A draw of a unidirectional prover: 3 to 60 fill records in 3 to 20 passes. The first three consecutive passes
 * that repeat within 2 in 10,000 decide. Refuses 1, 3; then, records first to last, 5, 2 and 6; then 1 for the
 * passes, and 9. */
EndakuroDraw endakuro_draw(EndakuroProver prover, const uint8_t *records, size_t records_length);

/* A draw of a bidirectional prover: its passes come in pairs, odd out and even back, and a round trip is the sum of
 * its two passes, each rounded. The first three consecutive round trips that repeat within 2 in 10,000 decide; the
 * base volume is that of a round trip, and the first pass used is the out pass of the first of them. The two passes
 * of a pair may differ in pressure. Refuses as endakuro_draw, with 1 for an odd count of passes and for a count
 * outside 6 to 20. */
EndakuroDraw endakuro_bidirectional(EndakuroProver prover, const uint8_t *records, size_t records_length);

/* The volumes of passes, or of round trips. */
typedef struct EndakuroPasses {
    uint16_t number;
    uint16_t record;
    uint8_t count;        /* passes or round trips */
    uint64_t volumes[20]; /* of each, in order; zeros after the last */
} EndakuroPasses;

/* The volumes of all passes of a draw, of which three need not repeat. Refuses as endakuro_draw, but for 9. */
EndakuroPasses endakuro_passes(EndakuroProver prover, const uint8_t *records, size_t records_length);

/* The volumes of all round trips of a bidirectional prover. Refuses as endakuro_bidirectional, but for 9. */
EndakuroPasses endakuro_trips(EndakuroProver prover, const uint8_t *records, size_t records_length);

/* One fill's figures. */
typedef struct EndakuroFill {
    uint16_t number;
    uint16_t record;
    uint64_t adjusted; /* certified volume and scale reading */
    uint64_t measure;  /* CTS of the measure */
    uint64_t prover;   /* CTS of the prover */
    uint64_t ccts;
    uint64_t drawn;
} EndakuroFill;

/* One fill by itself, from its 32 bytes; the pass rule is not judged. Refuses 1 (not 32 bytes), 3 for the
 * metal, then 5 and 2 with record 1. */
EndakuroFill endakuro_fill(uint8_t metal, uint16_t coefficient, const uint8_t *bytes, size_t bytes_length);

/* ---- Measurement ticket ---- */

typedef struct EndakuroTicket {
    uint32_t opening;         /* meter readings, 0.01 barrel */
    uint32_t closing;
    uint16_t mf;              /* meter factor, 0.0001 */
    uint16_t ctl;             /* 0.0001 */
    uint16_t pressure;        /* psi gage */
    uint16_t compressibility; /* F, 10^-8 per psi */
    uint16_t equilibrium;     /* Pe, psi gage, at most `pressure` */
    uint32_t sediment;        /* sediment and water S, 0.001 % */
} EndakuroTicket;

typedef struct EndakuroVolumes {
    uint16_t number;
    uint16_t record;
    uint32_t factor; /* meter factor × CTL × CPL, 0.0001 */
    uint32_t gross;  /* gross standard volume, 0.01 barrel */
    uint32_t net;    /* net volume, 0.01 barrel */
} EndakuroVolumes;

/* Refuses 10 for any field out of range, then 11. Equal readings are a ticket of nothing. */
EndakuroVolumes endakuro_ticket(EndakuroTicket ticket);

/* ---- Live readings ---- */

typedef struct EndakuroLive {
    uint16_t number;
    uint16_t record;
    int16_t tenths; /* 0.1 °F */
    uint16_t psi;   /* psi gage */
} EndakuroLive;

/* Singles in °F and psi gage to whole tenths and psi, halves away from zero; any single may come. Refuses 12,
 * 13 for the temperature, then 12, 13 for the pressure; the range is judged on the whole number. */
EndakuroLive endakuro_live(float temperature, float pressure);

/* ---- Smart transmitters ----
 *
 * They tag what they send: a channel is a temperature in °F or °C or a pressure in psi gage, each with its single,
 * or a fault code. */

enum {
    ENDAKURO_FAHRENHEIT = 0,
    ENDAKURO_CELSIUS = 1,
    ENDAKURO_PRESSURE = 2,
    ENDAKURO_FAULT = 3
};

typedef struct EndakuroChannel {
    uint32_t kind; /* ENDAKURO_FAHRENHEIT .. */
    uint32_t bits; /* its single's 32 bits, any; of a fault its code, whatever it is */
} EndakuroChannel;

/* A live reading from two channels, the temperature's first. °C go to tenths of °F as 320 + 18c, from the exact
 * number in the bits and rounded once, halves away from zero; °F and psi as in endakuro_live, which answers the same
 * of the same two singles. Refuses, for the temperature and then for the pressure, 34, 35, 12, 13; record is 0. A
 * kind outside the four is of the wrong kind in either place: 35. */
EndakuroLive endakuro_channels(EndakuroChannel temperature, EndakuroChannel pressure);

/* ---- The panel ----
 *
 * The operator's panel takes singles, in °F and psi gage. endakuro_live of the two singles shown gives the tenths
 * and the psi back, whatever they are. */

typedef struct EndakuroPanel {
    uint16_t number;
    uint16_t record; /* always 0 */
    float shown;     /* °F or psi gage */
} EndakuroPanel;

/* A temperature, -200 to 2000 in 0.1 °F, as the single nearest to tenths / 10, rounded once; 0 is +0. Refuses 13. */
EndakuroPanel endakuro_panel_temperature(int16_t tenths);

/* A pressure, 0 to 1500 psi gage, as the single that is exactly that number. Refuses 13. */
EndakuroPanel endakuro_panel_pressure(uint16_t psi);

/* ---- Compressibility, looked up ----
 *
 * The F that cpl, a run or a ticket takes, from the printed 11.2.1 table as the caller lends it: a part of it, or as
 * much as 4,096 records hold. The printed table decides, and nothing is worked out between its entries. */

typedef struct EndakuroEntry {
    uint16_t number;
    uint16_t record;
    int16_t temperature;      /* of the record found, 0.1 °F */
    uint16_t gravity;         /* 0.1 °API */
    uint16_t compressibility; /* F, 10^-8 per psi */
} EndakuroEntry;

/* The record with this temperature, -200 to 2000 in 0.1 °F, and this API gravity, 0 to 900 in 0.1 °API, each taken to
 * the nearest half degree first. Refuses 1 for the length; 32 with the first record that is faulty or does not come
 * behind the one before it; 13 for temperature or gravity as they are asked; then 33. The whole table is judged before
 * 13, in one pass. */
EndakuroEntry endakuro_look_up(int16_t temperature, uint16_t gravity, const uint8_t *table, size_t length);

/* ---- The book of waiting requests ----
 *
 * Four shippers, 0 to 3, share one prover and 16 places. Each has two figures of its own, by agreement: its reserve,
 * the places that are kept for it alone, and its ceiling, the most that it may have waiting. What the four reserves
 * leave of the 16 places are the commons; what a shipper has waiting beyond its reserve stands there. In a new book
 * every reserve is 2 and every ceiling 8, so that the commons are 8. A take goes round the shippers, from the one
 * after the last served.
 *
 * The controller keeps the book and lends it to each call, which changes it in place. Start from
 * endakuro_empty. A book may come from anywhere, a file or another port: one that is not sound is refused 20
 * by every call, and left as it is. One call at a time: a book has no lock. */

/* The requests of one shipper that wait, oldest first; unused places are 0. */
typedef struct EndakuroLine {
    uint32_t numbers[16];
    size_t count;
} EndakuroLine;

/* What was agreed. The rules: a reserve is 1 to 13, a ceiling from that reserve to 16, and the four reserves add up
 * to at most 16. A ceiling of 14 to 16 is within the rules and never reached: three places are always the others'. */
typedef struct EndakuroFigures {
    uint8_t reserves[4]; /* of shippers 0 to 3 */
    uint8_t ceilings[4];
} EndakuroFigures;

typedef struct EndakuroBook {
    EndakuroLine lines[4];   /* of shippers 0 to 3 */
    uint8_t last;            /* the shipper served last; 3 in a new book */
    EndakuroFigures figures; /* 2 and 8 for all in a new book */
} EndakuroBook;

typedef struct EndakuroDone {
    uint16_t number;
    uint16_t record; /* always 0 */
} EndakuroDone;

typedef struct EndakuroTaken {
    uint16_t number;
    uint16_t record;  /* always 0 */
    uint32_t request; /* the request handed out */
    uint8_t shipper;  /* whose it is */
} EndakuroTaken;

typedef struct EndakuroCommons {
    uint16_t number;
    uint16_t record; /* always 0 */
    size_t commons;  /* the places that are nobody's reserve */
    size_t used;     /* how many of them are used: what each shipper has waiting beyond its reserve, added up */
} EndakuroCommons;

/* A new book: nothing waits, shipper 0 has the first turn, and the figures are 2 and 8 for all. */
EndakuroBook endakuro_empty(void);

/* Whether figures, counts, commons, waiting numbers, unused places and `last` are as they must be. */
bool endakuro_is_sound(const EndakuroBook *book);

/* Sets the figures of a book in which nothing waits; the last served stays, and so whose turn it is. Refuses 20, 30
 * where anyone waits, 31 for figures outside the rules; a refusal leaves the figures of before. */
EndakuroDone endakuro_set_figures(EndakuroBook *book, EndakuroFigures figures);

/* The commons of a book, and how many of them are used; its figures are read in the book itself. Refuses 20. */
EndakuroCommons endakuro_commons(const EndakuroBook *book);

/* A shipper asks that a request waits. Refuses 20, 21, 22, 23, 24, 25. */
EndakuroDone endakuro_request(EndakuroBook *book, uint8_t shipper, uint32_t request);

/* A shipper takes a request back; the rest of its line keeps its order. Refuses 20, 21, 22, 26. */
EndakuroDone endakuro_withdraw(EndakuroBook *book, uint8_t shipper, uint32_t request);

/* The prover is free: the next request is handed out. Refuses 20, 27. */
EndakuroTaken endakuro_take(EndakuroBook *book);

/* ---- The rounded quotient that every figure is made by ---- */

enum { ENDAKURO_VALUE = 0, ENDAKURO_ZERO_DIVISOR = 1, ENDAKURO_TOO_LARGE = 2 };

/* It refuses nothing of the table, so it has a kind and no number; value is 0 unless kind is ENDAKURO_VALUE. */
typedef struct EndakuroQuotient {
    uint64_t value;
    uint8_t kind;
} EndakuroQuotient;

/* a × b ÷ d to the nearest whole number, halves up; the product is exact, whatever its size. */
EndakuroQuotient endakuro_rounded_ratio(uint64_t a, uint64_t b, uint64_t d);

/* ---- Layout ----
 *
 * The archive and this file must agree byte by byte. What the compiler makes of the structs is judged here, so
 * that a packing pragma or another data model ends in an error and not in wrong figures. */
#define ENDAKURO_AT(type, field, offset) ENDAKURO_ASSERT(offsetof(type, field) == (offset), #type " " #field)
#define ENDAKURO_SIZE(type, size) ENDAKURO_ASSERT(sizeof(type) == (size), #type)

ENDAKURO_SIZE(float, 4);
ENDAKURO_SIZE(size_t, 8);
ENDAKURO_SIZE(bool, 1);

ENDAKURO_AT(EndakuroFactor, record, 2);
ENDAKURO_AT(EndakuroFactor, value, 4);
ENDAKURO_SIZE(EndakuroFactor, 8);

ENDAKURO_AT(EndakuroProver, diameter, 4);
ENDAKURO_AT(EndakuroProver, wall, 8);
ENDAKURO_AT(EndakuroProver, modulus, 12);
ENDAKURO_AT(EndakuroProver, coefficient, 16);
ENDAKURO_AT(EndakuroProver, metal, 18);
ENDAKURO_SIZE(EndakuroProver, 20);

ENDAKURO_AT(EndakuroReport, record, 2);
ENDAKURO_AT(EndakuroReport, request, 4);
ENDAKURO_AT(EndakuroReport, factor, 8);
ENDAKURO_AT(EndakuroReport, first, 10);
ENDAKURO_AT(EndakuroReport, runs, 11);
ENDAKURO_AT(EndakuroReport, f1, 12);
ENDAKURO_AT(EndakuroReport, f2, 14);
ENDAKURO_AT(EndakuroReport, f3, 16);
ENDAKURO_AT(EndakuroReport, f4, 18);
ENDAKURO_AT(EndakuroReport, f5, 20);
ENDAKURO_SIZE(EndakuroReport, 24);

ENDAKURO_AT(EndakuroPart, length, 8);
ENDAKURO_SIZE(EndakuroPart, 16);

ENDAKURO_AT(EndakuroRun, record, 2);
ENDAKURO_AT(EndakuroRun, indicated, 8);
ENDAKURO_AT(EndakuroRun, cts, 16);
ENDAKURO_AT(EndakuroRun, cps, 24);
ENDAKURO_AT(EndakuroRun, prover_cpl, 32);
ENDAKURO_AT(EndakuroRun, prover_factor, 40);
ENDAKURO_AT(EndakuroRun, meter_cpl, 48);
ENDAKURO_AT(EndakuroRun, meter_product, 56);
ENDAKURO_AT(EndakuroRun, prover_volume, 64);
ENDAKURO_AT(EndakuroRun, meter_volume, 72);
ENDAKURO_AT(EndakuroRun, factor, 80);
ENDAKURO_SIZE(EndakuroRun, 88);

ENDAKURO_AT(EndakuroFactors, f2, 2);
ENDAKURO_AT(EndakuroFactors, f3, 4);
ENDAKURO_AT(EndakuroFactors, f4, 6);
ENDAKURO_AT(EndakuroFactors, f5, 8);
ENDAKURO_SIZE(EndakuroFactors, 10);

ENDAKURO_AT(EndakuroDraw, record, 2);
ENDAKURO_AT(EndakuroDraw, base, 8);
ENDAKURO_AT(EndakuroDraw, barrels, 16);
ENDAKURO_AT(EndakuroDraw, first, 24);
ENDAKURO_SIZE(EndakuroDraw, 32);

ENDAKURO_AT(EndakuroPasses, record, 2);
ENDAKURO_AT(EndakuroPasses, count, 4);
ENDAKURO_AT(EndakuroPasses, volumes, 8);
ENDAKURO_SIZE(EndakuroPasses, 168);

ENDAKURO_AT(EndakuroFill, record, 2);
ENDAKURO_AT(EndakuroFill, adjusted, 8);
ENDAKURO_AT(EndakuroFill, measure, 16);
ENDAKURO_AT(EndakuroFill, prover, 24);
ENDAKURO_AT(EndakuroFill, ccts, 32);
ENDAKURO_AT(EndakuroFill, drawn, 40);
ENDAKURO_SIZE(EndakuroFill, 48);

ENDAKURO_AT(EndakuroTicket, closing, 4);
ENDAKURO_AT(EndakuroTicket, mf, 8);
ENDAKURO_AT(EndakuroTicket, ctl, 10);
ENDAKURO_AT(EndakuroTicket, pressure, 12);
ENDAKURO_AT(EndakuroTicket, compressibility, 14);
ENDAKURO_AT(EndakuroTicket, equilibrium, 16);
ENDAKURO_AT(EndakuroTicket, sediment, 20);
ENDAKURO_SIZE(EndakuroTicket, 24);

ENDAKURO_AT(EndakuroVolumes, record, 2);
ENDAKURO_AT(EndakuroVolumes, factor, 4);
ENDAKURO_AT(EndakuroVolumes, gross, 8);
ENDAKURO_AT(EndakuroVolumes, net, 12);
ENDAKURO_SIZE(EndakuroVolumes, 16);

ENDAKURO_AT(EndakuroLive, record, 2);
ENDAKURO_AT(EndakuroLive, tenths, 4);
ENDAKURO_AT(EndakuroLive, psi, 6);
ENDAKURO_SIZE(EndakuroLive, 8);

ENDAKURO_AT(EndakuroChannel, bits, 4);
ENDAKURO_SIZE(EndakuroChannel, 8);

ENDAKURO_AT(EndakuroPanel, record, 2);
ENDAKURO_AT(EndakuroPanel, shown, 4);
ENDAKURO_SIZE(EndakuroPanel, 8);

ENDAKURO_AT(EndakuroMoved, record, 2);
ENDAKURO_AT(EndakuroMoved, count, 4);
ENDAKURO_SIZE(EndakuroMoved, 6);
ENDAKURO_AT(EndakuroEntry, record, 2);
ENDAKURO_AT(EndakuroEntry, temperature, 4);
ENDAKURO_AT(EndakuroEntry, gravity, 6);
ENDAKURO_AT(EndakuroEntry, compressibility, 8);
ENDAKURO_SIZE(EndakuroEntry, 10);

ENDAKURO_AT(EndakuroLine, count, 64);
ENDAKURO_SIZE(EndakuroLine, 72);
ENDAKURO_AT(EndakuroFigures, ceilings, 4);
ENDAKURO_SIZE(EndakuroFigures, 8);
ENDAKURO_AT(EndakuroBook, last, 288);
ENDAKURO_AT(EndakuroBook, figures, 289);
ENDAKURO_SIZE(EndakuroBook, 304);

ENDAKURO_AT(EndakuroDone, record, 2);
ENDAKURO_SIZE(EndakuroDone, 4);
ENDAKURO_AT(EndakuroTaken, record, 2);
ENDAKURO_AT(EndakuroTaken, request, 4);
ENDAKURO_AT(EndakuroTaken, shipper, 8);
ENDAKURO_SIZE(EndakuroTaken, 12);
ENDAKURO_AT(EndakuroCommons, record, 2);
ENDAKURO_AT(EndakuroCommons, commons, 8);
ENDAKURO_AT(EndakuroCommons, used, 16);
ENDAKURO_SIZE(EndakuroCommons, 24);

ENDAKURO_AT(EndakuroQuotient, kind, 8);
ENDAKURO_SIZE(EndakuroQuotient, 16);

#undef ENDAKURO_AT
#undef ENDAKURO_SIZE

#ifdef __cplusplus
}
#endif

#undef ENDAKURO_ASSERT

#endif
