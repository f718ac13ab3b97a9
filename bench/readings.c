// Live readings.
#include "live_answers.h"
#include "plain.h"
#include <string.h>

typedef struct {
    float temperature, pressure;
} Reading;

static Reading inputs[CHUNK];
static LiveAnswers answers;

// Any 32 bits: NaNs, infinities and the smallest numbers among them.
static float any_single(Chance *chance) {
    uint32_t bits = (uint32_t)any(chance);
    float single;
    memcpy(&single, &bits, sizeof single);
    return single;
}

static void make(Chance *chance, int count, bool damaged) {
    for (int i = 0; i < count; i++) {
        Reading *reading = &inputs[i];
        reading->temperature = (float)between(chance, -200000, 2000000) / 10000;
        reading->pressure = (float)between(chance, 0, 15000000) / 10000;
        // one in eight an exact half
        if (once_in(chance, 8)) reading->temperature = (float)between(chance, -400, 3999) / 20;
        if (once_in(chance, 8)) reading->pressure = (float)between(chance, 0, 2999) / 2;
        if (damaged && once_in(chance, 2)) reading->temperature = any_single(chance);
        if (damaged && once_in(chance, 2)) reading->pressure = any_single(chance);
    }
}

static void work(int side, int count) {
    typedef EndakuroLive Work(float, float);
    static Work *const live[SIDES] = {endakuro_live, plain_live, bare_live, previous_live};
    for (int i = 0; i < count; i++) answers[side][i] = live[side](inputs[i].temperature, inputs[i].pressure);
}

static long differences(int side, int count) {
    return different_readings(answers, side, count);
}

const Kind readings = {"live readings", 1000000, CHUNK, make, work, differences};
