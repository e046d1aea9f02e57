/* What the benchmarks in one process share: the time of a call, times in the order of size, and random
 * numbers from a fixed seed. */
#ifndef MEASURE_H
#define MEASURE_H

#include <stdint.h>
#include <stdlib.h>
#include <time.h>

static inline double seconds(void)
{
    struct timespec now;
    clock_gettime(CLOCK_MONOTONIC, &now);
    return (double)now.tv_sec + 1e-9 * (double)now.tv_nsec;
}

/* The time of a call, of so many in a row and after one that is not timed, made so many pages down the
 * stack. On a few pages (5 of 256 were found, the same in each run) a call that has an array on the stack
 * takes up to a sixth longer. So the runs are made on different pages; else one process would be on such a
 * page for all its runs, and the next on none. */
__attribute__((noinline, unused)) static double time_of(void (*call)(void), int calls, int page)
{
    volatile char room[4096 * page + 1];
    room[0] = 0;
    (void)room[0];
    call(); /* so that its code and tables are near, whatever ran before */
    double start = seconds();
    for (int i = 0; i < calls; i++)
        call();
    return (seconds() - start) / calls;
}

static inline int by_size(const void *left, const void *right)
{
    double a = *(const double *)left, b = *(const double *)right;
    return (a > b) - (a < b);
}

/* Sorted so, the minimum is the first and the median the one in the middle. */
static inline void sort_times(double *times, size_t count)
{
    qsort(times, count, sizeof times[0], by_size);
}

static inline uint64_t random_number(void)
{
    static uint64_t state = 88172645463325252u;
    state ^= state << 13;
    state ^= state >> 7;
    state ^= state << 17;
    return state;
}

/* In the whole range of samples. */
static inline int32_t random_sample(void)
{
    return (int32_t)(random_number() % 262143) - 131071;
}

#endif
