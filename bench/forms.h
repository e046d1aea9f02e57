/* The lines of a window in plain C, in three forms whose lines are equal. The core is timed against them.
 *
 *     two_loops   the direct sums as document 01 writes them, one after the other
 *     one_loop    both direct sums at once, over two waves
 *     folded      samples that meet the same cosine, but for its sign, are joined before they are multiplied
 *
 * Each fills the lines first, first + 1, .. of a window, as many as count says. Of ways to find a place in
 * the wave, the one that gcc -O3 makes faster is taken: by steps in one_loop, by products in folded. */
#ifndef FORMS_H
#define FORMS_H

#include <math.h>
#include <stddef.h>
#include <stdint.h>
#include <string.h>

#define SAMPLES 2048
#define LINES 512

/* 2^30 times the true ones, to the nearest; to be filled first. */
static int32_t sine[SAMPLES], cosine[SAMPLES];

static inline void fill_waves(void)
{
    for (int i = 0; i < SAMPLES; i++)
        sine[i] = (int32_t)floorl(sinl((long double)i * (acosl(-1.0L) / 1024)) * 1073741824.0L + 0.5L);
    for (int i = 0; i < SAMPLES; i++)
        cosine[i] = sine[(i + SAMPLES / 4) & (SAMPLES - 1)];
}

/* The line of two whole sums: each divided by 2^29, to the nearest, halves up; then squared and added. */
static inline uint64_t line_of(int64_t cosine_sum, int64_t sine_sum)
{
    int64_t a = (cosine_sum + ((int64_t)1 << 28)) >> 29, b = (sine_sum + ((int64_t)1 << 28)) >> 29;
    return (uint64_t)(a * a) + (uint64_t)(b * b);
}

static inline int64_t direct_sum(const int32_t *window, size_t k, size_t phase)
{
    int64_t sum = 0;
    for (size_t j = 0; j < SAMPLES; j++)
        sum += (int64_t)window[j] * sine[(j * k + phase) & (SAMPLES - 1)];
    return sum;
}

static inline void two_loops(const int32_t *window, size_t first, uint64_t *lines, size_t count)
{
    for (size_t i = 0; i < count; i++)
        lines[i] = line_of(direct_sum(window, first + i, SAMPLES / 4), direct_sum(window, first + i, 0));
}

static inline void one_loop(const int32_t *window, size_t first, uint64_t *lines, size_t count)
{
    for (size_t i = 0; i < count; i++) {
        int64_t a = 0, b = 0;
        size_t place = 0;
        for (size_t j = 0; j < SAMPLES; j++) {
            a += (int64_t)window[j] * cosine[place];
            b += (int64_t)window[j] * sine[place];
            place = (place + first + i) & (SAMPLES - 1);
        }
        lines[i] = line_of(a, b);
    }
}

/* Joins the outermost two and so on inwards: their sum goes to the low place, high less low to the high
 * one. What stands alone in the middle stays. */
static inline void fold(int32_t *list, size_t first, size_t last)
{
    for (size_t low = first, high = last; low < high; low++, high--) {
        int32_t sum = list[low] + list[high];
        list[high] -= list[low];
        list[low] = sum;
    }
}

/* After the folds the sums of line k, above 0, are over half places each, where half is the power of two
 * with half * k = 512 modulo 1024. Both meet the same cosines: there the sine is a cosine, by sign. */
static inline void folded(const int32_t *window, size_t first, uint64_t *lines, size_t count)
{
    int32_t list[SAMPLES];
    memcpy(list, window, sizeof list);
    fold(list, 1, SAMPLES - 1);
    for (size_t span = SAMPLES / 2; span > 1; span /= 2) {
        fold(list, 0, span);
        fold(list, SAMPLES + 1 - span, SAMPLES - 1);
    }
    for (size_t i = 0; i < count; i++) {
        size_t k = first + i, half = SAMPLES / 4;
        int64_t a = 0, b = 0;
        if (k == 0) {
            lines[i] = line_of(((int64_t)list[0] + list[1]) * ((int64_t)1 << 30), 0);
            continue;
        }
        while (half * k % (SAMPLES / 2) == 0)
            half /= 2;
        for (size_t p = half + 1; p <= 2 * half; p++) {
            int64_t c = cosine[(p * k) & (SAMPLES - 1)];
            a += list[p] * c;
            b += list[p + SAMPLES - 3 * half] * c;
        }
        lines[i] = line_of(a, half * k % SAMPLES == SAMPLES / 4 ? b : -b);
    }
}

#endif
