/* A network reader: a window at a time, and every 3 s the three-second values of the odd orders up to 13, in
 * units and in amperes. The current is that of a six-pulse drive at 50 Hz, whose load changes every 20 windows
 * of 0.2 s. A firmware engineer replaces `take_window` by the converter.
 *
 * The record keeps the latest 15 rows itself, so the reader holds one window. It asks after every window. Before
 * the fifteenth the call is refused with 20: the reader says so once, and waits for the next window. */
#include "kifsang.h"

#include <inttypes.h>
#include <stdio.h>

#define SYSTEM 10                      /* cycles in a window: 50 Hz */
#define EDITION KIFSANG_EDITION_2      /* of IEC 61000-4-7; subgroups are the same in both */
#define KIND KIFSANG_HARMONIC_SUBGROUP /* which IEC 61000-4-30 reads */
#define WINDOWS 60                     /* 12 s */
#define WINDOWS_PER_SECOND 5
#define WINDOWS_PER_LOAD 20
#define COUNTS_PER_AMPERE 1600 /* of the converter with its sensor */
#define UNITS_PER_AMPERE (COUNTS_PER_AMPERE * KIFSANG_UNITS_PER_COUNT)
#define LAST_READ 13 /* the odd orders up to this one are read */

/* A drive that stands, lifts and lowers. Its current flows forward for two sixths of a cycle, not at all for
 * one, then backward likewise. */
static void take_window(int number, int32_t samples[KIFSANG_WINDOW_LENGTH])
{
    static const int amperes[WINDOWS / WINDOWS_PER_LOAD] = {2, 11, 5};
    static const int direction[6] = {1, 1, 0, -1, -1, 0};
    int counts = COUNTS_PER_AMPERE * amperes[number / WINDOWS_PER_LOAD];
    for (int i = 0; i < KIFSANG_WINDOW_LENGTH; i++)
        samples[i] = counts * direction[6 * SYSTEM * i / KIFSANG_WINDOW_LENGTH % 6];
}

static uint32_t add_window(const int32_t samples[KIFSANG_WINDOW_LENGTH], uint64_t record[KIFSANG_RECORD_WORDS])
{
    uint64_t lines[KIFSANG_LINE_COUNT];
    uint32_t row[KIFSANG_ORDER_COUNT];
    uint32_t refusal = kifsang_spectrum(samples, KIFSANG_WINDOW_LENGTH, 0, lines, KIFSANG_LINE_COUNT);
    if (refusal == KIFSANG_NO_REFUSAL)
        refusal = kifsang_row(KIND, SYSTEM, EDITION, lines, KIFSANG_LINE_COUNT, row, KIFSANG_ORDER_COUNT);
    if (refusal == KIFSANG_NO_REFUSAL)
        refusal = kifsang_add_row(record, KIFSANG_RECORD_WORDS, SYSTEM, EDITION, row, KIFSANG_ORDER_COUNT);
    return refusal;
}

/* The three-second values of the orders 1, 3, .., that of order h at place h - 1. */
static uint32_t read_values(const uint64_t record[KIFSANG_RECORD_WORDS], uint64_t values[LAST_READ])
{
    uint32_t refusal = KIFSANG_NO_REFUSAL;
    for (uint32_t order = 1; refusal == KIFSANG_NO_REFUSAL && order <= LAST_READ; order += 2)
        refusal = kifsang_three_second_value(record, KIFSANG_RECORD_WORDS, order, &values[order - 1]);
    return refusal;
}

static double time_of(const uint64_t record[KIFSANG_RECORD_WORDS])
{
    return (double)record[KIFSANG_WINDOWS_PLACE] / WINDOWS_PER_SECOND;
}

static void print_values(double time, const uint64_t values[LAST_READ])
{
    puts("");
    for (int order = 1; order <= LAST_READ; order += 2)
        printf("%7.1f  %5d  %25" PRIu64 "  %7.4f\n", time, order, values[order - 1],
               (double)values[order - 1] / UNITS_PER_AMPERE);
}

static int refused(const char *call, uint32_t number)
{
    if (number != KIFSANG_NO_REFUSAL)
        fprintf(stderr, "%s refused, number %u\n", call, (unsigned)number);
    return number != KIFSANG_NO_REFUSAL;
}

int main(void)
{
    int32_t samples[KIFSANG_WINDOW_LENGTH];
    uint64_t record[KIFSANG_RECORD_WORDS], values[LAST_READ];
    int waiting = 0;

    if (refused("fresh record", kifsang_fresh_record(SYSTEM, EDITION, record, KIFSANG_RECORD_WORDS)))
        return 1;
    printf("time, s  order  three-second value, units  amperes\n");
    for (int number = 0; number < WINDOWS; number++) {
        take_window(number, samples);
        if (refused("window", add_window(samples, record)))
            return 1;
        uint32_t refusal = read_values(record, values);
        if (refusal == KIFSANG_TOO_FEW_WINDOWS) {
            if (!waiting)
                printf("%7.1f      -  %22s%3" PRIu32 "        -\n", time_of(record), "refused", refusal);
            waiting = 1;
        } else if (refused("three-second value", refusal)) {
            return 1;
        } else if (record[KIFSANG_WINDOWS_PLACE] % KIFSANG_THREE_SECOND_WINDOWS == 0) {
            print_values(time_of(record), values);
        }
    }
    return 0;
}
