// A kind of work that is measured: inputs are made, a chunk at a time, each side works through them, and the answers
// are compared.
#pragma once
#include "chance.h"

// The most inputs of a chunk, and those of a chunk with faults.
enum { CHUNK = 1000 };

enum { OURS, PLAIN, BARE, PREVIOUS, SIDES };

typedef struct {
    const char *name;
    // how many of it a full measurement takes, and how many at a time
    long count;
    int chunk;
    // the next inputs: good ones, or with faults among them
    void (*make)(Chance *chance, int count, bool damaged);
    // a side works through the first `count` inputs
    void (*work)(int side, int count);
    // how many of a side's first `count` answers differ from ours, in any field or byte left behind
    long (*differences)(int side, int count);
} Kind;

extern const Kind jobs, long_jobs, draws, round_trips, tickets, readings, channels, panel, look_ups, forward_4096,
    forward_512, back_4096, back_512, calls, quotients, long_quotients;
