#pragma once

struct timespec {
    long tv_sec;
    long tv_nsec;
};

#define CLOCK_PROCESS_CPUTIME_ID 2

int clock_gettime(int, struct timespec *);
