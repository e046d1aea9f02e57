/* Every name of include/kifsang.h that stands for a number, with its figure; and the kinds, the editions,
 * the lines of the panel, the places, the windows of a three-second value, the classes, the margin and the
 * peak's per cent by name, on calls whose answers documents 01 and 02 have in figures or give by them. With an
 * argument it prints the names instead, a line for each, so that they can be compared with those of the
 * header. */
#include "kifsang.h"

#include <inttypes.h>
#include <stdio.h>
#include <stdlib.h>

#define BEFORE 0x5A5A5A5A /* what a word that a call may write holds before the call */
#define COUNT_OF(array) (sizeof(array) / sizeof((array)[0]))

#define NAME(name, figure) {#name, name, figure}

static const struct {
    const char *name;
    uint64_t number, figure;
} names[] = {
    NAME(KIFSANG_WINDOW_LENGTH, 2048),
    NAME(KIFSANG_LINE_COUNT, 512),
    NAME(KIFSANG_LINE_LIMIT, 1024),
    NAME(KIFSANG_PANEL_LINES, 13),
    NAME(KIFSANG_ORDER_COUNT, 40),
    NAME(KIFSANG_UNITS_PER_COUNT, 4096),
    NAME(KIFSANG_LARGEST_SAMPLE, 131071),
    NAME(KIFSANG_LARGEST_SCALE, 268435456),
    NAME(KIFSANG_MOST_WINDOWS, 45000),
    NAME(KIFSANG_THREE_SECOND_WINDOWS, 15),
    NAME(KIFSANG_COLUMN_WIDTH, 8),
    NAME(KIFSANG_LISTING_ROOM, 1640),
    NAME(KIFSANG_SMOOTHED_MARGIN, 12),
    NAME(KIFSANG_PEAK_PERCENT, 150),

    NAME(KIFSANG_SYSTEM_PLACE, 0),
    NAME(KIFSANG_EDITION_PLACE, 1),
    NAME(KIFSANG_WINDOWS_PLACE, 2),
    NAME(KIFSANG_SMOOTHED_PLACE, 3),
    NAME(KIFSANG_SUM_PLACE, 43),
    NAME(KIFSANG_PEAK_PLACE, 83),
    NAME(KIFSANG_LATEST_PLACE, 123),
    NAME(KIFSANG_RECORD_WORDS, 423),

    NAME(KIFSANG_NO_REFUSAL, 0),
    NAME(KIFSANG_UNKNOWN_SYSTEM, 1),
    NAME(KIFSANG_SHORT_WINDOW, 2),
    NAME(KIFSANG_SAMPLE_OUT_OF_RANGE, 3),
    NAME(KIFSANG_WRONG_LINE_COUNT, 4),
    NAME(KIFSANG_LINE_TOO_LARGE, 5),
    NAME(KIFSANG_ORDER_OUT_OF_RANGE, 6),
    NAME(KIFSANG_UNSOUND_RECORD, 7),
    NAME(KIFSANG_OTHER_SETUP, 8),
    NAME(KIFSANG_RECORD_FULL, 9),
    NAME(KIFSANG_NO_WINDOW, 10),
    NAME(KIFSANG_SCALE_OUT_OF_RANGE, 11),
    NAME(KIFSANG_NO_FUNDAMENTAL, 12),
    NAME(KIFSANG_NOT_A_COLUMN, 13),
    NAME(KIFSANG_WRONG_BUFFER_LENGTH, 14),
    NAME(KIFSANG_UNKNOWN_CLASS, 15),
    NAME(KIFSANG_UNKNOWN_EDITION, 19),
    NAME(KIFSANG_TOO_FEW_WINDOWS, 20),
    NAME(KIFSANG_UNKNOWN_KIND, 101),
    NAME(KIFSANG_WRONG_WORD_COUNT, 102),

    NAME(KIFSANG_COMPONENT, 0),
    NAME(KIFSANG_HARMONIC_GROUP, 1),
    NAME(KIFSANG_HARMONIC_SUBGROUP, 2),
    NAME(KIFSANG_INTERHARMONIC_GROUP, 3),
    NAME(KIFSANG_INTERHARMONIC_CENTRED_SUBGROUP, 4),

    NAME(KIFSANG_EDITION_2, 0),
    NAME(KIFSANG_EDITION_A1, 1),

    NAME(KIFSANG_CLASS_A, 65),
    NAME(KIFSANG_CLASS_B, 66),

    NAME(KIFSANG_WITHIN, 1),
    NAME(KIFSANG_CLOSE, 2),
    NAME(KIFSANG_OVER, 3),
};

/* Every line of the pulse, document 01's worked numbers 3 to 7 at system 10: no two kinds are alike. The
 * values of order 1 under edition 2, which are those of order 2 in both, and of order 1 under A1. */
static const uint64_t pulse_line = 4000000;
static const struct {
    const char *name;
    uint32_t kind;
    uint64_t value, first_under_a1;
} kinds[] = {
    {"component", KIFSANG_COMPONENT, 2828, 2828},
    {"harmonic group", KIFSANG_HARMONIC_GROUP, 8944, 2828},
    {"harmonic subgroup", KIFSANG_HARMONIC_SUBGROUP, 4898, 4898},
    {"interharmonic group", KIFSANG_INTERHARMONIC_GROUP, 8485, 8485},
    {"interharmonic centred subgroup", KIFSANG_INTERHARMONIC_CENTRED_SUBGROUP, 7483, 7483},
};

static void same(const char *what, uint64_t found, uint64_t figure)
{
    if (found == figure)
        return;
    printf("%s is %" PRIu64 " and must be %" PRIu64 "\n", what, found, figure);
    exit(1);
}

/* A group value of the pulse. */
static uint64_t value_of(uint32_t kind, uint32_t edition, uint32_t order)
{
    uint64_t lines[512], value = 0;
    for (size_t i = 0; i < COUNT_OF(lines); i++)
        lines[i] = pulse_line;
    same("the refusal of a group value", kifsang_group_value(kind, 10, edition, order, lines, 512, &value), 0);
    return value;
}

static void try_kinds(void)
{
    for (size_t i = 0; i < COUNT_OF(kinds); i++) {
        uint32_t kind = kinds[i].kind;
        same(kinds[i].name, value_of(kind, KIFSANG_EDITION_2, 1), kinds[i].value);
        same(kinds[i].name, value_of(kind, KIFSANG_EDITION_2, 2), kinds[i].value);
        same(kinds[i].name, value_of(kind, KIFSANG_EDITION_A1, 1), kinds[i].first_under_a1);
        same(kinds[i].name, value_of(kind, KIFSANG_EDITION_A1, 2), kinds[i].value);
    }
}

/* The panel's row of the pulse: its harmonic groups, order 1 under A1 its component alone. */
static void try_panel(uint32_t edition, uint32_t first)
{
    static int32_t pulse[KIFSANG_WINDOW_LENGTH] = {1000};
    uint64_t lines[KIFSANG_PANEL_LINES];
    uint32_t values[KIFSANG_ORDER_COUNT];
    for (size_t i = 0; i < COUNT_OF(lines); i++)
        lines[i] = BEFORE;
    same("the refusal of a panel's row",
         kifsang_panel_row(pulse, KIFSANG_WINDOW_LENGTH, 0, 10, edition, lines, KIFSANG_PANEL_LINES, values,
                           KIFSANG_ORDER_COUNT),
         0);
    for (size_t i = 0; i < COUNT_OF(values); i++)
        same("a value of a panel's row", values[i], i == 0 ? first : 8944);
    for (size_t i = 0; i < COUNT_OF(lines); i++)
        same("a line of the panel's buffer", lines[i], 0);
}

/* The rows of worked number 8, 8944 and then 0, for order 1, under an edition. */
static void try_places(uint32_t edition)
{
    uint64_t record[423];
    uint32_t values[40] = {8944, 7};
    same("the refusal of a fresh record", kifsang_fresh_record(10, edition, record, 423), 0);
    same("the refusal of the first row", kifsang_add_row(record, 423, 10, edition, values, 40), 0);
    values[0] = 0;
    same("the refusal of the second row", kifsang_add_row(record, 423, 10, edition, values, 40), 0);
    same("the system of a record", record[KIFSANG_SYSTEM_PLACE], 10);
    same("the edition of a record", record[KIFSANG_EDITION_PLACE], edition);
    same("the windows of a record", record[KIFSANG_WINDOWS_PLACE], 2);
    same("the smoothed value of a record", record[KIFSANG_SMOOTHED_PLACE], 7828);
    same("the sum of a record", record[KIFSANG_SUM_PLACE], 8944 + 7828);
    same("the peak of a record", record[KIFSANG_PEAK_PLACE], 8944);
    same("the first row of a record", record[KIFSANG_LATEST_PLACE], 8944 + ((uint64_t)7 << 32));
    same("the second row of a record", record[KIFSANG_LATEST_PLACE + KIFSANG_ORDER_COUNT / 2], (uint64_t)7 << 32);
    same("a row that is to come", record[KIFSANG_LATEST_PLACE + KIFSANG_ORDER_COUNT], 0);
}

/* The three-second value after rows of the values 1, 2, .. up to so many, the same for every order. */
static void try_three_seconds(uint32_t windows, uint32_t refusal, uint64_t expected)
{
    uint64_t record[423], value = BEFORE;
    uint32_t values[40];
    same("the refusal of a fresh record", kifsang_fresh_record(10, KIFSANG_EDITION_2, record, 423), 0);
    for (uint32_t window = 1; window <= windows; window++) {
        for (size_t i = 0; i < COUNT_OF(values); i++)
            values[i] = window;
        same("the refusal of a row", kifsang_add_row(record, 423, 10, KIFSANG_EDITION_2, values, 40), 0);
    }
    same("the refusal of a three-second value", kifsang_three_second_value(record, 423, 40, &value), refusal);
    same("a three-second value", value, expected);
}

/* The verdict on order 3 with 1,000,000 units per ampere, of a record whose sum and peak are the value. */
static uint32_t verdict_of(uint8_t class_letter, uint64_t windows, uint64_t value)
{
    uint64_t record[423];
    uint32_t verdict = 0;
    same("the refusal of a fresh record", kifsang_fresh_record(10, KIFSANG_EDITION_2, record, 423), 0);
    record[KIFSANG_WINDOWS_PLACE] = windows;
    record[KIFSANG_SUM_PLACE + 2] = value;
    record[KIFSANG_PEAK_PLACE + 2] = value;
    same("the refusal of a verdict", kifsang_verdict(record, 423, 3, class_letter, 1000000, &verdict), 0);
    return verdict;
}

/* Where the verdict changes about the limit of 2300 mA, in class B 3450 mA. The average of one window is
 * the value, and decides; that of two is half the value, and the peak decides. */
static void try_bounds(void)
{
    static const struct {
        const char *what;
        uint8_t class_letter;
        uint64_t windows, limit;
    } tests[] = {
        {"the verdict by the average", KIFSANG_CLASS_A, 1, 2300000},
        {"the verdict by the peak", KIFSANG_CLASS_A, 2, 23000 * KIFSANG_PEAK_PERCENT},
        {"the verdict by the average, class B", KIFSANG_CLASS_B, 1, 3450000},
        {"the verdict by the peak, class B", KIFSANG_CLASS_B, 2, 34500 * KIFSANG_PEAK_PERCENT},
    };
    for (size_t i = 0; i < COUNT_OF(tests); i++) {
        uint8_t letter = tests[i].class_letter;
        uint64_t windows = tests[i].windows;
        uint64_t last_within = tests[i].limit - KIFSANG_SMOOTHED_MARGIN;
        uint64_t last_close = tests[i].limit + KIFSANG_SMOOTHED_MARGIN;
        same(tests[i].what, verdict_of(letter, windows, last_within), KIFSANG_WITHIN);
        same(tests[i].what, verdict_of(letter, windows, last_within + 1), KIFSANG_CLOSE);
        same(tests[i].what, verdict_of(letter, windows, last_close), KIFSANG_CLOSE);
        same(tests[i].what, verdict_of(letter, windows, last_close + 1), KIFSANG_OVER);
    }
}

/* The limits of order 39 by the names of the classes: 2250/39 mA, and half as much again. */
static void try_limits(void)
{
    uint64_t numerator = 0, denominator = 0;
    same("the refusal of a limit", kifsang_limit(39, KIFSANG_CLASS_A, &numerator, &denominator), 0);
    same("the numerator of a limit", numerator, 750);
    same("the denominator of a limit", denominator, 13);
    same("the refusal of a limit", kifsang_limit(39, KIFSANG_CLASS_B, &numerator, &denominator), 0);
    same("the numerator of a limit, class B", numerator, 1125);
    same("the denominator of a limit, class B", denominator, 13);
}

int main(int argument_count, char **arguments)
{
    (void)arguments;
    if (argument_count > 1) {
        for (size_t i = 0; i < COUNT_OF(names); i++)
            puts(names[i].name);
        return 0;
    }
    for (size_t i = 0; i < COUNT_OF(names); i++)
        same(names[i].name, names[i].number, names[i].figure);
    try_kinds();
    try_panel(KIFSANG_EDITION_2, 8944);
    try_panel(KIFSANG_EDITION_A1, 2828);
    try_places(KIFSANG_EDITION_2);
    try_places(KIFSANG_EDITION_A1);
    /* The squares of 1..15 have the sum 1240, those of 2..16 1495 and those of 3..17 1780; 15 * 9^2 is 1215,
     * 15 * 10^2 is 1500 and 15 * 11^2 is 1815. */
    try_three_seconds(KIFSANG_THREE_SECOND_WINDOWS - 1, KIFSANG_TOO_FEW_WINDOWS, BEFORE);
    try_three_seconds(KIFSANG_THREE_SECOND_WINDOWS, KIFSANG_NO_REFUSAL, 9);
    try_three_seconds(KIFSANG_THREE_SECOND_WINDOWS + 1, KIFSANG_NO_REFUSAL, 9);
    try_three_seconds(KIFSANG_THREE_SECOND_WINDOWS + 2, KIFSANG_NO_REFUSAL, 10);
    try_bounds();
    try_limits();
    printf("%lu names of the header, all with their figures\n", (unsigned long)COUNT_OF(names));
    return 0;
}
