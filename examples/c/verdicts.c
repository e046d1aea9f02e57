/* From samples to verdicts: a current of 50 Hz with a third and a fifth harmonic, 15 windows of
 * 0.2 s, judged against class A and class B. A firmware engineer replaces `take_samples` by the converter; where
 * memory holds one window only, report.c shows the calls for a window at a time. */
#include "kifsang.h"
#include "verdict_word.h"

#include <math.h>
#include <stdio.h>

#define SYSTEM 10                 /* cycles in a window: 50 Hz */
#define EDITION KIFSANG_EDITION_2 /* of IEC 61000-4-7; A1 changes order 1 alone, which has no limit */
#define WINDOWS 15                /* 3 s */
#define COUNTS_PER_AMPERE 1600    /* of the converter with its sensor */
#define SAMPLES (WINDOWS * KIFSANG_WINDOW_LENGTH)
#define UNITS_PER_AMPERE (COUNTS_PER_AMPERE * KIFSANG_UNITS_PER_COUNT)

/* Windows back to back: 3 A at 50 Hz, 3.2 A at 150 Hz and 2 A at 250 Hz, peak values. */
static void take_samples(int32_t samples[SAMPLES])
{
    const double turn = 2.0 * 3.14159265358979323846;
    for (int i = 0; i < SAMPLES; i++) {
        double angle = turn * SYSTEM * i / KIFSANG_WINDOW_LENGTH;
        double amperes = 3.0 * sin(angle) + 3.2 * sin(3.0 * angle) + 2.0 * sin(5.0 * angle);
        samples[i] = (int32_t)lround(COUNTS_PER_AMPERE * amperes);
    }
}

static int refused(const char *call, uint32_t number)
{
    if (number != KIFSANG_NO_REFUSAL)
        fprintf(stderr, "%s refused, number %u\n", call, (unsigned)number);
    return number != KIFSANG_NO_REFUSAL;
}

int main(void)
{
    static int32_t samples[SAMPLES];
    uint64_t record[KIFSANG_RECORD_WORDS];

    take_samples(samples);
    if (refused("observe", kifsang_observe(samples, SAMPLES, 0, WINDOWS, SYSTEM, EDITION, KIFSANG_HARMONIC_GROUP,
                                           record, KIFSANG_RECORD_WORDS)))
        return 1;
    for (uint32_t order = 2; order <= KIFSANG_ORDER_COUNT; order++) {
        uint32_t in_a = 0, in_b = 0;
        if (refused("verdict", kifsang_verdict(record, KIFSANG_RECORD_WORDS, order, KIFSANG_CLASS_A,
                                               UNITS_PER_AMPERE, &in_a)) ||
            refused("verdict", kifsang_verdict(record, KIFSANG_RECORD_WORDS, order, KIFSANG_CLASS_B,
                                               UNITS_PER_AMPERE, &in_b)))
            return 1;
        printf("order %2u: class A %s, class B %s\n", (unsigned)order, verdict_word(in_a), verdict_word(in_b));
    }
    return 0;
}
