/* The spectrum of one window of 2,048 samples: the proved core, the build before a change (-DBEFORE), the
 * forms of forms.h and FFTW in double precision (-DFFTW), in turn in one run on the same samples. All
 * lines are compared before anything is timed, but those of FFTW: there the unequal ones are counted.
 *
 * Unit of work: one window, 512 lines. Printed: minimum and median of the runs, and the ratio of the
 * core's time to each. */
#define _POSIX_C_SOURCE 199309L
#include "kifsang.h"
#include "measure.h"
#include "plain.h"

#include <stdio.h>
#ifdef FFTW
#include <fftw3.h>
#endif

#define RUNS 101
#define RANDOM_WINDOWS 200
#define EDGE_WINDOWS 5 /* all least, all greatest, in turn, all but one 0, all 0 */
#define SYSTEM 10

static int32_t window[SAMPLES];
static uint64_t lines[LINES]; /* what each side fills */

static void fill_window(int number)
{
    for (int i = 0; i < SAMPLES; i++)
        switch (number) {
        case 0: window[i] = -131071; break;
        case 1: window[i] = 131071; break;
        case 2: window[i] = i % 2 == 0 ? 131071 : -131071; break;
        case 3: window[i] = i == 77 ? -131071 : 0; break;
        case 4: window[i] = 0; break;
        default: window[i] = random_sample();
        }
}

/* ---- the sides */

static void must_accept(uint32_t refusal)
{
    if (refusal != 0) {
        puts("the window or its lines were refused");
        exit(1);
    }
}

static void core(void) { must_accept(kifsang_spectrum(window, SAMPLES, 0, lines, LINES)); }
static void direct_two_loops(void) { two_loops(window, 0, lines, LINES); }
static void direct_one_loop(void) { one_loop(window, 0, lines, LINES); }
static void c_folded(void) { folded(window, 0, lines, LINES); }

#ifdef BEFORE
#include "before_kifsang.h"
static void before(void) { must_accept(before_kifsang_spectrum(window, SAMPLES, 0, lines, LINES)); }
#endif

#ifdef FFTW
static fftw_plan plan;
static double *reals;
static fftw_complex *transform;

/* The plan is FFTW's best of those that it tried, made before anything is timed. */
static void make_plan(void)
{
    reals = fftw_alloc_real(SAMPLES);
    transform = fftw_alloc_complex(SAMPLES / 2 + 1);
    plan = fftw_plan_dft_r2c_1d(SAMPLES, reals, transform, FFTW_PATIENT);
}

/* To the nearest. A cast cuts toward 0, so the number, at most 2^29 in size, is first moved above 0. */
static int64_t nearest(double number)
{
    return (int64_t)(number + 1073741824.5) - 1073741824;
}

static void fftw(void)
{
    for (int j = 0; j < SAMPLES; j++)
        reals[j] = window[j];
    fftw_execute(plan);
    for (int k = 0; k < LINES; k++) {
        int64_t a = nearest(2 * transform[k][0]), b = nearest(-2 * transform[k][1]);
        lines[k] = (uint64_t)(a * a) + (uint64_t)(b * b);
    }
}

/* The line with true cosines, as near as long double has them. */
static uint64_t true_line(int k)
{
    long double a = 0, b = 0, step = acosl(-1.0L) / (SAMPLES / 2);
    for (int j = 0; j < SAMPLES; j++) {
        a += window[j] * cosl((j * k) % SAMPLES * step);
        b += window[j] * sinl((j * k) % SAMPLES * step);
    }
    int64_t whole_a = (int64_t)floorl(2 * a + 0.5L), whole_b = (int64_t)floorl(2 * b + 0.5L);
    return (uint64_t)(whole_a * whole_a) + (uint64_t)(whole_b * whole_b);
}

/* How many lines and harmonic groups of random windows are not the core's. The core's are those of document
 * 01 to the last digit, and its cosines are rounded to 30 bits; so it is also counted in how many of these
 * lines FFTW has the one with true cosines. */
static void count_unequal(void)
{
    static uint64_t core_lines[LINES];
    static uint32_t core_row[ORDERS], fftw_row[ORDERS];
    int unequal_lines = 0, true_lines = 0, unequal_groups = 0;
    uint32_t most = 0;
    for (int n = 0; n < RANDOM_WINDOWS; n++) {
        fill_window(EDGE_WINDOWS + n);
        core();
        memcpy(core_lines, lines, sizeof lines);
        must_accept(kifsang_row(KIFSANG_HARMONIC_GROUP, SYSTEM, KIFSANG_EDITION_2, lines, LINES, core_row, ORDERS));
        fftw();
        must_accept(kifsang_row(KIFSANG_HARMONIC_GROUP, SYSTEM, KIFSANG_EDITION_2, lines, LINES, fftw_row, ORDERS));
        for (int k = 0; k < LINES; k++)
            if (core_lines[k] != lines[k]) {
                unequal_lines++;
                true_lines += lines[k] == true_line(k);
            }
        for (int i = 0; i < ORDERS; i++) {
            uint32_t apart = core_row[i] > fftw_row[i] ? core_row[i] - fftw_row[i] : fftw_row[i] - core_row[i];
            unequal_groups += apart != 0;
            if (apart > most)
                most = apart;
        }
    }
    printf("%s differs from the core in %d of %d lines, and has the line with true cosines in %d of these;\n"
           "it differs in %d of %d harmonic groups, by at most %u\n",
           fftw_version, unequal_lines, RANDOM_WINDOWS * LINES, true_lines, unequal_groups, RANDOM_WINDOWS * ORDERS,
           most);
}
#endif

/* Those before DOUBLES give equal lines. Sides that were not asked for have no function. */
enum { CORE, OTHER_BUILD, TWO_LOOPS, ONE_LOOP, FOLDED, DOUBLES, SIDES };

static const struct {
    const char *name;
    void (*fill)(void);
} sides[SIDES] = {
    [CORE] = {"core", core},
#ifdef BEFORE
    [OTHER_BUILD] = {"before", before},
#endif
    [TWO_LOOPS] = {"C direct, two loops", direct_two_loops},
    [ONE_LOOP] = {"C direct, one loop", direct_one_loop},
    [FOLDED] = {"C folded", c_folded},
#ifdef FFTW
    [DOUBLES] = {"FFTW, doubles", fftw},
#endif
};
static double times[SIDES][RUNS];

static void compare(void)
{
    static uint64_t expected[LINES];
    for (int n = 0; n < EDGE_WINDOWS + RANDOM_WINDOWS; n++) {
        fill_window(n);
        core();
        memcpy(expected, lines, sizeof lines);
        for (int s = 0; s < DOUBLES; s++) {
            if (sides[s].fill == NULL)
                continue;
            memset(lines, 0xA5, sizeof lines);
            sides[s].fill();
            if (memcmp(expected, lines, sizeof lines) != 0) {
                printf("%s: the lines differ in window %d\n", sides[s].name, n);
                exit(1);
            }
        }
    }
    printf("all 512 lines of %d windows agree:", EDGE_WINDOWS + RANDOM_WINDOWS);
    for (int s = 0; s < DOUBLES; s++)
        if (sides[s].fill != NULL)
            printf("%s %s", s == 0 ? "" : ";", sides[s].name);
    puts("");
}

int main(void)
{
    fill_waves();
    compare();
#ifdef FFTW
    make_plan();
    count_unequal();
#endif
    fill_window(EDGE_WINDOWS);
    for (int run = 0; run < RUNS; run++)
        for (int s = 0; s < SIDES; s++)
            if (sides[s].fill != NULL)
                times[s][run] = time_of(sides[s].fill, 1, run);
    puts("                        minimum      median   core's ratio to it: minima  medians");
    for (int s = 0; s < SIDES; s++) {
        if (sides[s].fill == NULL)
            continue;
        sort_times(times[s], RUNS);
        printf("%-20s %7.4f ms  %7.4f ms  %26.3f  %7.3f\n", sides[s].name, 1e3 * times[s][0],
               1e3 * times[s][RUNS / 2], times[CORE][0] / times[s][0], times[CORE][RUNS / 2] / times[s][RUNS / 2]);
    }
    int stronger = times[ONE_LOOP][RUNS / 2] < times[TWO_LOOPS][RUNS / 2] ? ONE_LOOP : TWO_LOOPS;
    printf("the stronger direct sums are %s: ratio of the minima %.2f, of the medians %.2f\n", sides[stronger].name,
           times[CORE][0] / times[stronger][0], times[CORE][RUNS / 2] / times[stronger][RUNS / 2]);
    return 0;
}
