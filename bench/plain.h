/* What follows the lines of a window in plain C: the root of a group. The core is timed against this. */
#ifndef PLAIN_H
#define PLAIN_H

#include "forms.h"

#define ORDERS 40

static inline uint32_t whole_root(uint64_t n)
{
    uint64_t r = (uint64_t)sqrt((double)n);
    while (r > 0xFFFFFFFFu || r * r > n)
        r--;
    while (r < 0xFFFFFFFFu && (r + 1) * (r + 1) <= n)
        r++;
    return (uint32_t)r;
}

/* The harmonic group whose lines are these, system + 1 of them: those at its edges by half. */
static inline uint32_t group_over(const uint64_t *lines, int system)
{
    uint64_t sum = lines[0] + lines[system];
    for (int k = 1; k < system; k++)
        sum += 2 * lines[k];
    return whole_root(sum);
}

/* The harmonic group of an order, of lines from line 0 on. */
static inline uint32_t harmonic_group(const uint64_t *lines, int system, int order)
{
    return group_over(lines + (system * order - system / 2), system);
}

#endif
