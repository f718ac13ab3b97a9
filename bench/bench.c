// The proved library beside plain C: the same inputs, in one process, both for x86-64.
//     bench [SHARE]               a SHAREth part of the counts (1)
//     bench KIND SIDE MADE COUNT  one side alone, untimed, on COUNT of MADE inputs: for bench/instructions
// Ends with 0 exactly when every answer of every side is the same.
#include "kind.h"
#include <stdio.h>
#include <stdlib.h>
#include <time.h>

static const Kind *const kinds[] = {&jobs,     &long_jobs, &draws,     &round_trips,   &tickets,     &readings,
                                    &channels, &panel,     &look_ups,  &forward_4096,  &forward_512, &back_4096,
                                    &back_512, &calls,     &quotients, &long_quotients};

#define KINDS (sizeof kinds / sizeof *kinds)

// Processor time, so that other work on the machine counts little.
static double now(void) {
    struct timespec time;
    clock_gettime(CLOCK_PROCESS_CPUTIME_ID, &time);
    return (double)time.tv_sec + (double)time.tv_nsec / 1e9;
}

typedef struct {
    long made, damaged, differences;
    double seconds[SIDES];
} Measured;

// Every side works through each chunk before the next is made, and they take turns in going first.
static void work_through(const Kind *kind, Chance *chance, long chunks, Measured *measured) {
    for (long chunk = 0; chunk < chunks; chunk++) {
        kind->make(chance, kind->chunk, false);
        for (int turn = 0; turn < SIDES; turn++) {
            int side = (int)((chunk + turn) % SIDES);
            double begin = now();
            kind->work(side, kind->chunk);
            measured->seconds[side] += now() - begin;
        }
        measured->made += kind->chunk;
        for (int side = PLAIN; side < SIDES; side++) measured->differences += kind->differences(side, kind->chunk);
    }
}

// Inputs with faults, which are not timed: refusals are compared too. Unchecked C has no answer for them.
static void work_through_damaged(const Kind *kind, Chance *chance, long chunks, Measured *measured) {
    for (long chunk = 0; chunk < chunks; chunk++) {
        kind->make(chance, CHUNK, true);
        kind->work(OURS, CHUNK);
        kind->work(PLAIN, CHUNK);
        kind->work(PREVIOUS, CHUNK);
        measured->damaged += CHUNK;
        measured->differences += kind->differences(PLAIN, CHUNK) + kind->differences(PREVIOUS, CHUNK);
    }
}

static Measured measure(const Kind *kind, long share) {
    Measured measured = {0};
    Chance chance = {1};
    long chunks = kind->count / kind->chunk / share;
    if (chunks == 0) chunks = 1;
    work_through(kind, &chance, chunks, &measured);
    work_through_damaged(kind, &chance, (chunks + 9) / 10, &measured);
    return measured;
}

static void print_head(void) {
    static const char *const sides[] = {"plain C", "unchecked", "previous"};
    printf("%-20s %9s %9s", "", "count", "ours, s");
    for (int side = PLAIN; side < SIDES; side++) printf(" %12s %7s", sides[side - PLAIN], "ratio");
    putchar('\n');
}

static void print_row(const Kind *kind, const Measured *measured) {
    double ours = measured->seconds[OURS];
    printf("%-20s %9ld %9.3f", kind->name, measured->made, ours);
    for (int side = PLAIN; side < SIDES; side++)
        printf(" %12.3f %7.2f", measured->seconds[side], ours / measured->seconds[side]);
    putchar('\n');
    fflush(stdout);
}

static int compare_all(long share) {
    long good = 0, damaged = 0, differences = 0;
    print_head();
    for (size_t i = 0; i < KINDS; i++) {
        Measured measured = measure(kinds[i], share);
        print_row(kinds[i], &measured);
        good += measured.made;
        damaged += measured.damaged;
        differences += measured.differences;
    }
    printf("bench: answers compared: %ld to good inputs, %ld to inputs with faults; differences %ld\n", good, damaged,
           differences);
    return differences != 0;
}

// The kind and the side are numbered as in the tables above.
static int work_alone(long kind, long side, long made, long count) {
    if (kind < 0 || kind >= (long)KINDS || side < 0 || side >= SIDES) return 2;
    if (count < 0 || count > made || made > kinds[kind]->chunk) return 2;
    Chance chance = {1};
    kinds[kind]->make(&chance, (int)made, false);
    kinds[kind]->work((int)side, (int)count);
    return 0;
}

int main(int words, char **word) {
    long number[4] = {1};
    for (int i = 1; i < words && i <= 4; i++) number[i - 1] = strtol(word[i], NULL, 10);
    if (words == 5) return work_alone(number[0], number[1], number[2], number[3]);
    if (number[0] >= 1) return compare_all(number[0]);
    fprintf(stderr, "bench: SHARE is 1 or more\n");
    return 2;
}
