/* A front panel: after every window of 0.2 s the harmonic groups of the odd orders up to 11, in milliamperes,
 * and the distortion, in per cent of order 1. The current is that of a power supply at 60 Hz that is switched
 * on. A firmware engineer replaces `take_window` by the converter, and printf by the display.
 *
 * The buffers of the panel are the samples of one window, the 13 lines that kifsang_panel_row works in, and the
 * row: 8,192, 104 and 160 bytes. What is shown is worked out in whole numbers. A call that is refused is shown by
 * its number, in the place of what it would have given, and the panel waits for the next window. */
#include "kifsang.h"

#include <inttypes.h>
#include <stddef.h>
#include <stdio.h>

#define SYSTEM 12                  /* cycles in a window: 60 Hz */
#define EDITION KIFSANG_EDITION_A1 /* of IEC 61000-4-7: order 1 is its component alone */
#define COUNTS_PER_AMPERE 1600     /* of the converter with its sensor */
#define UNITS_PER_AMPERE ((uint64_t)COUNTS_PER_AMPERE * KIFSANG_UNITS_PER_COUNT)
#define LAST_SHOWN 11 /* the odd orders up to this one are shown */

/* A converter of 18 bits stays at its ends where the current is beyond them. The lower end is one count below
 * the range of samples, so the core refuses such a window with 3. */
static int32_t converted(int32_t counts)
{
    const int32_t lowest = -KIFSANG_LARGEST_SAMPLE - 1;
    if (counts > KIFSANG_LARGEST_SAMPLE)
        return KIFSANG_LARGEST_SAMPLE;
    return counts < lowest ? lowest : counts;
}

/* Waits for the next window; 0 where none will come, as never on a board. The supply is off, takes its inrush,
 * is loaded, less loaded and idle. Its current flows about the crests of the voltage alone, forward in the first
 * half of a cycle and backward in the second: each half has six parts, and the first and last ones rest. */
static int take_window(int32_t samples[KIFSANG_WINDOW_LENGTH])
{
    static const struct {
        int32_t amperes;
        int resting; /* parts, of the first ones and of the last ones */
    } loads[] = {{0, 0}, {90, 1}, {14, 1}, {8, 1}, {3, 2}};
    static size_t taken;
    if (taken == sizeof loads / sizeof loads[0])
        return 0;
    int32_t counts = COUNTS_PER_AMPERE * loads[taken].amperes;
    int resting = loads[taken].resting;
    for (int i = 0; i < KIFSANG_WINDOW_LENGTH; i++) {
        int half = 2 * SYSTEM * i / KIFSANG_WINDOW_LENGTH, part = 12 * SYSTEM * i / KIFSANG_WINDOW_LENGTH % 6;
        int flows = part >= resting && part < 6 - resting;
        samples[i] = converted(!flows ? 0 : half % 2 == 0 ? counts : -counts);
    }
    taken++;
    return 1;
}

/* To the nearest. A value is below 2^32, so 64 bits are enough. */
static uint64_t milliamperes(uint32_t value)
{
    return (1000 * (uint64_t)value + UNITS_PER_AMPERE / 2) / UNITS_PER_AMPERE;
}

static void show_refusal(uint32_t number)
{
    printf("%12s%3" PRIu32 "\n", "refused", number);
}

/* With no current there is no distortion: that call is refused with 12, and the row is shown all the same. */
static void show_row(const uint32_t row[KIFSANG_ORDER_COUNT])
{
    uint64_t parts_per_thousand = 0;
    uint32_t refusal = kifsang_distortion(row, KIFSANG_ORDER_COUNT, &parts_per_thousand);
    for (int order = 1; order <= LAST_SHOWN; order += 2)
        printf("  %5" PRIu64, milliamperes(row[order - 1]));
    if (refusal == KIFSANG_NO_REFUSAL)
        printf("  %11" PRIu64 ".%" PRIu64 "\n", parts_per_thousand / 10, parts_per_thousand % 10);
    else
        show_refusal(refusal);
}

int main(void)
{
    static int32_t samples[KIFSANG_WINDOW_LENGTH];
    static uint64_t lines[KIFSANG_PANEL_LINES];
    static uint32_t row[KIFSANG_ORDER_COUNT];

    printf("window  1, mA      3      5      7      9     11  distortion, %%\n");
    for (int window = 1; take_window(samples); window++) {
        uint32_t refusal = kifsang_panel_row(samples, KIFSANG_WINDOW_LENGTH, 0, SYSTEM, EDITION, lines,
                                             KIFSANG_PANEL_LINES, row, KIFSANG_ORDER_COUNT);
        printf("%6d", window);
        if (refusal == KIFSANG_NO_REFUSAL)
            show_row(row);
        else
            show_refusal(refusal);
    }
    return 0;
}
