/*
 * bench_time.c: how long a call takes on each side.
 *
 * It is the time that the processor gave to this process. A round runs one side and then the other, so that what else
 * the machine does falls on both alike, and the median leaves out the rounds in which it did much. A round is made long
 * enough that reading the clock does not show.
 */
#define _POSIX_C_SOURCE 199309L

#include <stdlib.h>
#include <time.h>

#include "bench.h"

#define ROUNDS 51
#define ROUND_NANOSECONDS 2e6

static double now(void)
{
    struct timespec time;
    clock_gettime(CLOCK_PROCESS_CPUTIME_ID, &time);
    return 1e9 * (double)time.tv_sec + (double)time.tv_nsec;
}

/* Nanoseconds for `times` runs; below 0 where a call was refused. */
static double run(const struct row *row, int side, size_t times)
{
    double start = now();
    int good = 1;
    size_t i;
    for (i = 0; i < times; i++) {
        good &= row->run(row, side);
    }
    return good ? now() - start : -1;
}

static int by_size(const void *a, const void *b)
{
    const double *x = a, *y = b;
    return (*x > *y) - (*x < *y);
}

int bench_time(const struct row *row, double nanoseconds[SIDES])
{
    double took[SIDES][ROUNDS];
    size_t times[SIDES];
    int side, round;
    for (side = 0; side < SIDES; side++) {
        double once = run(row, side, 1);
        times[side] = once < ROUND_NANOSECONDS ? (size_t)(ROUND_NANOSECONDS / (once > 1000 ? once : 1000)) + 1 : 1;
    }
    for (round = 0; round < ROUNDS; round++) {
        for (side = 0; side < SIDES; side++) {
            took[side][round] = run(row, side, times[side]);
            if (took[side][round] < 0) {
                return 0;
            }
        }
    }
    for (side = 0; side < SIDES; side++) {
        qsort(took[side], ROUNDS, sizeof took[side][0], by_size);
        nanoseconds[side] = took[side][ROUNDS / 2] / (double)times[side] / BENCH_CALLS;
    }
    return 1;
}
