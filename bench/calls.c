/* Each call of the core against the same work in plain C, in turn in one run, on the same values, under
 * edition 2; lines in C are direct sums in one loop. Results are compared before anything is timed. Printed:
 * the minimum time of a call on each side, and the ratio. With -DBEFORE the calls are also timed in the build
 * before a change, declared in before_kifsang.h. The spectrum has a benchmark of its own (spectrum.c). The
 * record after 50 windows is worked out by kifsang_observe and, beside it, by the calls one by one. The panel's
 * row is timed in both systems, also next to the core's spectrum and row, which give the same with more memory;
 * in C it has the panel's 13 lines too, by direct sums. */
#define _POSIX_C_SOURCE 199309L
#include "kifsang.h"
#include "measure.h"
#include "plain.h"

#include <stdio.h>

#define SYSTEM 10
#define FIRST 45 /* the number of the first line that is asked for, and how many */
#define PART 13
#define SCALE 1000000 /* units per ampere */
#define WINDOWS 50
#define BATCHES 61

static int32_t recording[WINDOWS * SAMPLES];
static uint64_t lines[LINES];
static volatile uint8_t asked_letter; /* of the class in which limits and verdicts are asked */
static volatile uint8_t asked_system; /* in which the panel's row is asked */

/* What is timed, and of each side the function that makes the call, and what the call leaves. A build of
 * before may have no such call, and no function then. */
enum {
    LINE, PART_OF_LINES, ROW, PANEL_ROW, DISTORTION, FRESH_RECORD, ADD_ROW, OBSERVE, ONE_BY_ONE, LIMIT, VERDICT,
    THREE_SECOND_VALUE, FILL_LISTING, CALLS
};
struct side {
    void (*call)(void);
    const void *left;
    size_t size; /* bytes that are left */
};

/* What the panel's row leaves: the row, and zeros in the lines. */
struct panel {
    uint32_t values[ORDERS];
    uint64_t lines[KIFSANG_PANEL_LINES];
};

/* Of a record the words from the count of windows on are compared, as many as both sides have: before them a
 * build may have other words, and behind them fewer. */
#define FROM(record, place) (record) + (place), sizeof(record) - (place) * sizeof(record)[0]

/* ---- the core, and the build before a change */

#define SIDE(name) core_##name
#define CALL(name) kifsang_##name
#define NUMBER(name) KIFSANG_##name
#define EDITION KIFSANG_EDITION_2,
#define HAS_LATEST 1
#define HAS_PANEL 1
#include "build.h"

/* The panel's row by the core's spectrum and row. */
static uint32_t two_calls_values[ORDERS];

static void two_calls_panel_row(void)
{
    static uint64_t from[LINES];
    kifsang_spectrum(recording, SAMPLES, 0, from, LINES);
    kifsang_row(KIFSANG_HARMONIC_GROUP, asked_system, KIFSANG_EDITION_2, from, LINES, two_calls_values, ORDERS);
}

static const struct side two_calls_sides[CALLS] = {
    [PANEL_ROW] = {two_calls_panel_row, two_calls_values, sizeof two_calls_values},
};

#ifdef BEFORE
#include "before_kifsang.h"
#define SIDE(name) before_##name
#define CALL(name) before_kifsang_##name
#define NUMBER(name) BEFORE_KIFSANG_##name
#ifdef BEFORE_KIFSANG_EDITION_PLACE
#define EDITION KIFSANG_EDITION_2,
#else
#define EDITION
#endif
#ifdef BEFORE_KIFSANG_LATEST_PLACE
#define HAS_LATEST 1
#else
#define HAS_LATEST 0
#endif
#ifdef BEFORE_KIFSANG_PANEL_LINES
#define HAS_PANEL 1
#else
#define HAS_PANEL 0
#endif
#include "build.h"
#endif

/* ---- plain C, with the words of a record at the core's places */

enum {
    N = KIFSANG_WINDOWS_PLACE,
    SMOOTHED = KIFSANG_SMOOTHED_PLACE,
    SUM = KIFSANG_SUM_PLACE,
    PEAK = KIFSANG_PEAK_PLACE,
    LATEST = KIFSANG_LATEST_PLACE,
    ROW_WORDS = ORDERS / 2, /* of one of the latest rows, two values in a word */
    ROWS = KIFSANG_THREE_SECOND_WINDOWS
};

static uint64_t c_part[PART], c_numbers[2];
static struct panel c_panel;
static uint32_t c_values[ORDERS], c_verdict_number;
static uint64_t c_record[KIFSANG_RECORD_WORDS], c_observed[KIFSANG_RECORD_WORDS];
static unsigned char c_text[KIFSANG_LISTING_ROOM];
static uint16_t c_limits[2][39][2]; /* class A's and class B's */

static int c_in_range(const int32_t *window)
{
    for (int j = 0; j < SAMPLES; j++)
        if (window[j] > 131071 || window[j] < -131071)
            return 0;
    return 1;
}

static void c_lines_from(size_t count)
{
    if (c_in_range(recording))
        one_loop(recording, FIRST, c_part, count);
}

static void c_group_row(const uint64_t *from, uint32_t *row)
{
    for (int i = 0; i < LINES; i++)
        if (from[i] > (uint64_t)1 << 59)
            return;
    for (int h = 1; h <= ORDERS; h++)
        row[h - 1] = harmonic_group(from, SYSTEM, h);
}

/* The groups one after the other, over system + 1 lines. Two neighbours share the line between them, so after the
 * first line each group has system new ones: in all 401 lines in system 10, 481 in system 12. */
static void c_fill_panel(const int32_t *window, int system, struct panel *panel)
{
    if (!c_in_range(window))
        return;
    one_loop(window, (size_t)(system / 2), panel->lines + system, 1);
    for (int h = 1; h <= ORDERS; h++) {
        panel->lines[0] = panel->lines[system];
        one_loop(window, (size_t)(system * h - system / 2 + 1), panel->lines + 1, (size_t)system);
        panel->values[h - 1] = group_over(panel->lines, system);
    }
    memset(panel->lines, 0, sizeof panel->lines);
}

static uint64_t c_largest_ratio(const uint32_t *row)
{
    unsigned __int128 sum = 0;
    for (int i = 1; i < ORDERS; i++)
        sum += (uint64_t)row[i] * row[i];
    sum *= 1000000;
    uint64_t least = 0, most = (uint64_t)1 << 46;
    while (least < most) {
        uint64_t middle = most - (most - least) / 2;
        if ((unsigned __int128)middle * middle <= sum)
            least = middle;
        else
            most = middle - 1;
    }
    return least / row[0];
}

static void c_begin(uint64_t *record)
{
    memset(record, 0, KIFSANG_RECORD_WORDS * sizeof record[0]);
    record[KIFSANG_SYSTEM_PLACE] = SYSTEM;
    record[KIFSANG_EDITION_PLACE] = KIFSANG_EDITION_2;
}

static int c_sound(const uint64_t *record)
{
    uint64_t system = record[KIFSANG_SYSTEM_PLACE];
    if ((system != 10 && system != 12) || record[KIFSANG_EDITION_PLACE] > 1 || record[N] > 45000)
        return 0;
    for (int i = 0; i < ORDERS; i++)
        if (record[SMOOTHED + i] > UINT32_MAX || record[SUM + i] > record[N] * UINT32_MAX ||
            record[PEAK + i] > UINT32_MAX ||
            (record[N] == 0 && (record[SMOOTHED + i] | record[SUM + i] | record[PEAK + i])))
            return 0;
    for (uint64_t i = ROW_WORDS * record[N]; i < ROW_WORDS * ROWS; i++)
        if (record[LATEST + i] != 0)
            return 0;
    return 1;
}

static void c_add(uint64_t *record, const uint32_t *row)
{
    if (!c_sound(record) || record[KIFSANG_SYSTEM_PLACE] != SYSTEM ||
        record[KIFSANG_EDITION_PLACE] != KIFSANG_EDITION_2 || record[N] >= 45000)
        return;
    for (int i = 0; i < ORDERS; i++) {
        uint64_t smoothed = record[N] == 0
                                ? row[i]
                                : (2 * (1000 * (uint64_t)row[i] + 7012 * record[SMOOTHED + i]) + 8012) / 16024;
        record[SMOOTHED + i] = smoothed;
        record[SUM + i] += smoothed;
        if (smoothed > record[PEAK + i])
            record[PEAK + i] = smoothed;
    }
    uint64_t *latest = record + LATEST + ROW_WORDS * (record[N] % ROWS);
    for (int i = 0; i < ROW_WORDS; i++)
        latest[i] = row[2 * i] | (uint64_t)row[2 * i + 1] << 32;
    record[N]++;
}

/* The tables of the limits, worked out before anything is timed, and their lookup. */
static void c_fill_limit(uint16_t limit[2], uint16_t a, uint16_t b)
{
    uint16_t divisor = b;
    while (a % divisor != 0 || b % divisor != 0)
        divisor--;
    limit[0] = a / divisor;
    limit[1] = b / divisor;
}

static void c_fill_limits(void)
{
    static const uint16_t own[14] = {[2] = 1080, 2300, 430, 1140, 300, 770, [9] = 400, [11] = 330, [13] = 210};
    for (uint16_t h = 2; h <= ORDERS; h++) {
        uint16_t a = h < 14 && own[h] != 0 ? own[h] : h % 2 == 0 ? 1840 : 2250, b = h < 14 && own[h] != 0 ? 1 : h;
        c_fill_limit(c_limits[0][h - 2], a, b);
        c_fill_limit(c_limits[1][h - 2], 3 * a, 2 * b);
    }
}

static uint32_t c_find_limit(uint32_t order, uint8_t letter, uint64_t *numerator, uint64_t *denominator)
{
    if (order < 2 || order > ORDERS)
        return 6;
    if (letter != 'A' && letter != 'B')
        return 15;
    *numerator = c_limits[letter - 'A'][order - 2][0];
    *denominator = c_limits[letter - 'A'][order - 2][1];
    return 0;
}

static uint32_t c_judge(const uint64_t *record, uint8_t letter)
{
    if (!c_sound(record) || record[N] == 0 || (letter != 'A' && letter != 'B'))
        return 9;
    uint64_t figure = (letter == 'A' ? 2300 : 3450) * (uint64_t)SCALE;
    uint64_t n = record[N], sum = record[SUM + 2], peak = record[PEAK + 2];
    int over = (figure + 12 * 1000) * n < sum * 1000 || (3 * figure + 12 * 2000) < peak * 2000;
    int within = (sum + 12 * n) * 1000 <= figure * n && (peak + 12) * 2000 <= 3 * figure;
    return over ? 3 : within ? 1 : 2;
}

/* A fifteenth of the sum has 64 bits, and its whole part the same root. */
static uint32_t c_three_seconds(const uint64_t *record, uint32_t order, uint64_t *value)
{
    if (!c_sound(record))
        return 7;
    if (order < 1 || order > ORDERS)
        return 6;
    if (record[N] < ROWS)
        return 20;
    unsigned __int128 sum = 0;
    for (int i = 0; i < ROWS; i++) {
        uint32_t kept = (uint32_t)(record[LATEST + ROW_WORDS * i + (order - 1) / 2] >> (order - 1) % 2 * 32);
        sum += (uint64_t)kept * kept;
    }
    *value = whole_root((uint64_t)(sum / ROWS));
    return 0;
}

static void c_line(void) { c_lines_from(1); }
static void c_lines(void) { c_lines_from(PART); }
static void c_row(void) { c_group_row(lines, c_values); }
static void c_panel_row(void) { c_fill_panel(recording, asked_system, &c_panel); }
static void c_distortion(void) { c_numbers[0] = c_largest_ratio(c_values); }
static void c_fresh_record(void) { c_begin(c_record); }
static void c_add_row(void) { c_add(c_record, c_values); }
static void c_limit(void) { c_find_limit(39, asked_letter, &c_numbers[0], &c_numbers[1]); }
static void c_verdict(void) { c_verdict_number = c_judge(c_observed, asked_letter); }
static void c_three_second_value(void) { c_three_seconds(c_observed, 3, c_numbers); }

static void c_observe(void)
{
    static uint64_t from[LINES];
    static uint32_t row[ORDERS];
    c_begin(c_observed);
    for (int i = 0; i < WINDOWS; i++) {
        one_loop(recording + i * SAMPLES, 0, from, LINES);
        c_group_row(from, row);
        c_add(c_observed, row);
    }
}

static void c_fill_listing(void)
{
    char *at = (char *)c_text;
    at += sprintf(at, "  h       group    subgroup    smoothed\n");
    for (int i = 0; i < ORDERS; i++)
        if (i == 0 || c_values[i] != 0) {
            char line[64];
            sprintf(line, "%3d%12u%12u%12u\n", i + 1, c_values[i], c_values[i], c_values[i]);
            memcpy(at, line, 40);
            at += 40;
        }
}

static const struct side c_sides[CALLS] = {
    [LINE] = {c_line, c_part, sizeof c_part[0]},
    [PART_OF_LINES] = {c_lines, c_part, sizeof c_part},
    [ROW] = {c_row, c_values, sizeof c_values},
    [PANEL_ROW] = {c_panel_row, &c_panel, sizeof c_panel},
    [DISTORTION] = {c_distortion, c_numbers, sizeof c_numbers[0]},
    [FRESH_RECORD] = {c_fresh_record, FROM(c_record, N)},
    [ADD_ROW] = {c_add_row, FROM(c_record, N)},
    [OBSERVE] = {c_observe, FROM(c_observed, N)},
    [ONE_BY_ONE] = {c_observe, FROM(c_observed, N)},
    [LIMIT] = {c_limit, c_numbers, sizeof c_numbers},
    [VERDICT] = {c_verdict, &c_verdict_number, sizeof c_verdict_number},
    [THREE_SECOND_VALUE] = {c_three_second_value, c_numbers, sizeof c_numbers[0]},
    [FILL_LISTING] = {c_fill_listing, c_text, sizeof c_text},
};

/* ---- comparing and timing */

enum { CORE, PLAIN, TWO_CALLS, OTHER_BUILD, SIDES };
static const struct side *const sides[SIDES] = {
    [CORE] = core_sides,
    [PLAIN] = c_sides,
    [TWO_CALLS] = two_calls_sides,
#ifdef BEFORE
    [OTHER_BUILD] = before_sides,
#endif
};
static double times[SIDES][BATCHES];

static const struct work {
    const char *name;
    int call;
    int calls; /* in a batch */
    uint8_t letter, system; /* 0 where none is asked */
} works[] = {
    {"lines_from, one line", LINE, 400, 0, 0},
    {"lines_from, 13 lines", PART_OF_LINES, 100, 0, 0},
    {"row", ROW, 400, 0, 0},
    {"panel_row, system 10", PANEL_ROW, 1, 0, 10},
    {"panel_row, system 12", PANEL_ROW, 1, 0, 12},
    {"distortion", DISTORTION, 400, 0, 0},
    {"fresh_record", FRESH_RECORD, 400, 0, 0},
    {"add_row", ADD_ROW, 400, 0, 0},
    {"observe, 50 windows", OBSERVE, 1, 0, 0},
    {"one by one, 50 windows", ONE_BY_ONE, 1, 0, 0},
    {"limit, class A", LIMIT, 400, 'A', 0},
    {"limit, class B", LIMIT, 400, 'B', 0},
    {"verdict, class A", VERDICT, 400, 'A', 0},
    {"verdict, class B", VERDICT, 400, 'B', 0},
    {"three_second_value", THREE_SECOND_VALUE, 400, 0, 0},
    {"fill_listing", FILL_LISTING, 400, 0, 0},
};

static void ask(const struct work *work)
{
    asked_letter = work->letter;
    asked_system = work->system;
}

/* A side's function for a call and what it leaves, or none. */
static const struct side *side_of(int s, int call)
{
    return sides[s] != NULL && sides[s][call].call != NULL ? &sides[s][call] : NULL;
}

static void same(const char *name, const void *one, const void *other, size_t size)
{
    if (memcmp(one, other, size) != 0) {
        printf("%s: the results differ\n", name);
        exit(1);
    }
}

/* Each side makes the call three times, so that rows are added to a record that holds some. */
static void compare(const struct work *work)
{
    const struct side *plain = &c_sides[work->call];
    ask(work);
    for (int s = 0; s < SIDES; s++)
        for (int i = 0; side_of(s, work->call) != NULL && i < 3; i++)
            sides[s][work->call].call();
    for (int s = 0; s < SIDES; s++) {
        const struct side *side = side_of(s, work->call);
        if (side != NULL)
            same(work->name, side->left, plain->left, side->size < plain->size ? side->size : plain->size);
    }
}

static void compare_limits(void)
{
    for (uint8_t letter = 'A'; letter <= 'C'; letter++)
        for (uint32_t order = 0; order <= ORDERS + 1; order++) {
            uint64_t core[3] = {0}, plain[3] = {0};
            core[0] = kifsang_limit(order, letter, &core[1], &core[2]);
            plain[0] = c_find_limit(order, letter, &plain[1], &plain[2]);
            same("limit", core, plain, sizeof core);
        }
}

/* Each window of the recording in both systems, by the core's call, by its spectrum and row, and in C. One line
 * of each buffer is not 0 before, and all of them must be alike after. */
static void compare_panels(void)
{
    static uint64_t from[LINES];
    static struct panel core, plain;
    uint32_t values[ORDERS];
    for (int i = 0; i < 2 * WINDOWS; i++) {
        const int32_t *window = recording + i / 2 * SAMPLES;
        uint32_t system = i % 2 == 0 ? 10 : 12;
        core.lines[i % KIFSANG_PANEL_LINES] = plain.lines[i % KIFSANG_PANEL_LINES] = UINT64_MAX;
        uint32_t refusal = kifsang_panel_row(window, SAMPLES, 0, system, KIFSANG_EDITION_2, core.lines,
                                             KIFSANG_PANEL_LINES, core.values, ORDERS);
        if (refusal != KIFSANG_NO_REFUSAL) {
            printf("panel_row refused, number %u\n", (unsigned)refusal);
            exit(1);
        }
        c_fill_panel(window, (int)system, &plain);
        same("panel_row", &core, &plain, sizeof core);
        kifsang_spectrum(window, SAMPLES, 0, from, LINES);
        kifsang_row(KIFSANG_HARMONIC_GROUP, system, KIFSANG_EDITION_2, from, LINES, values, ORDERS);
        same("panel_row, and spectrum and row", core.values, values, sizeof values);
    }
}

/* After each of some rows of any values all orders are asked, and two that are none. */
static void compare_three_seconds(void)
{
    static uint64_t record[KIFSANG_RECORD_WORDS], plain_record[KIFSANG_RECORD_WORDS];
    kifsang_fresh_record(SYSTEM, KIFSANG_EDITION_2, record, KIFSANG_RECORD_WORDS);
    c_begin(plain_record);
    for (int n = 0; n < WINDOWS; n++) {
        for (uint32_t order = 0; order <= ORDERS + 1; order++) {
            uint64_t core[2] = {0}, plain[2] = {0};
            core[0] = kifsang_three_second_value(record, KIFSANG_RECORD_WORDS, order, &core[1]);
            plain[0] = c_three_seconds(plain_record, order, &plain[1]);
            same("three_second_value", core, plain, sizeof core);
        }
        uint32_t row[ORDERS];
        for (int i = 0; i < ORDERS; i++)
            row[i] = n < ROWS ? UINT32_MAX : (uint32_t)random_number();
        kifsang_add_row(record, KIFSANG_RECORD_WORDS, SYSTEM, KIFSANG_EDITION_2, row, ORDERS);
        c_add(plain_record, row);
        same("add_row", record, plain_record, sizeof record);
    }
}

/* Times batches of calls, each side in turn, and puts them in the order of size. A side may be missing. */
static void fill_times(const struct work *work)
{
    ask(work);
    for (int batch = 0; batch < BATCHES; batch++)
        for (int s = 0; s < SIDES; s++)
            if (side_of(s, work->call) != NULL)
                times[s][batch] = time_of(sides[s][work->call].call, work->calls, batch);
    for (int s = 0; s < SIDES; s++)
        sort_times(times[s], BATCHES);
}

int main(void)
{
    const size_t count = sizeof works / sizeof works[0];
    for (int i = 0; i < LINES; i++)
        lines[i] = random_number() >> 6;
    for (int i = 0; i < WINDOWS * SAMPLES; i++)
        recording[i] = random_sample();
    fill_waves();
    c_fill_limits();
    for (size_t i = 0; i < count; i++)
        compare(&works[i]);
    compare_limits();
    compare_panels();
    compare_three_seconds();
    puts("all results agree");
    for (size_t i = 0; i < count; i++) {
        fill_times(&works[i]);
        printf("%-22s core %9.3f us, C %9.3f us, ratio %5.2f", works[i].name, 1e6 * times[CORE][0],
               1e6 * times[PLAIN][0], times[CORE][0] / times[PLAIN][0]);
        if (side_of(TWO_CALLS, works[i].call) != NULL)
            printf("; spectrum and row %9.3f us, ratio %5.2f", 1e6 * times[TWO_CALLS][0],
                   times[CORE][0] / times[TWO_CALLS][0]);
        if (side_of(OTHER_BUILD, works[i].call) != NULL)
            printf("; before %9.3f us, ratio of the minima %.3f, of the medians %.3f", 1e6 * times[OTHER_BUILD][0],
                   times[CORE][0] / times[OTHER_BUILD][0],
                   times[CORE][BATCHES / 2] / times[OTHER_BUILD][BATCHES / 2]);
        puts("");
    }
    return 0;
}
