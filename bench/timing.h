/* timing.h: the clock of the timed programs, and their turns. It goes before every other header, since it asks the C
 * library for clock_gettime. */
#ifndef TIMING_H
#define TIMING_H

#define _POSIX_C_SOURCE 199309L

#include <time.h>

/* Each side takes this many turns between the other's, and the best of them counts. */
enum { TURNS = 15 };

static inline double nanoseconds(void)
{
    struct timespec time;
    clock_gettime(CLOCK_MONOTONIC, &time);
    return 1e9 * (double)time.tv_sec + (double)time.tv_nsec;
}

static inline double least(double a, double b)
{
    return a < b ? a : b;
}

#endif
