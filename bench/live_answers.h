// The answers of live readings, from two singles or from two channels.
#pragma once
#include "kind.h"
#include <endakuro.h>

typedef EndakuroLive LiveAnswers[SIDES][CHUNK];

static bool same_reading(const EndakuroLive *a, const EndakuroLive *b) {
    return a->number == b->number && a->record == b->record && a->tenths == b->tenths && a->psi == b->psi;
}

static long different_readings(LiveAnswers answers, int side, int count) {
    long different = 0;
    for (int i = 0; i < count; i++) different += !same_reading(&answers[OURS][i], &answers[side][i]);
    return different;
}
