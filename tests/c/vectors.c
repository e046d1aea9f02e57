/* Runs the core, through its C interface, on the test cases that the second program prints
 * (`reference vectors SEED`, tests/reference/README.md has their form), and compares every answer
 * and every buffer. What a call may write holds something else than 0 before, and must hold it still
 * after a refusal. Reads standard input; ends with status 1 at the first difference. */
#include "kifsang.h"

#include <inttypes.h>
#include <stdio.h>
#include <stdlib.h>
#include <string.h>

#define MOST_NUMBERS 100000
#define BEFORE 0x5A5A5A5A /* what a word that a call may write holds before the call */

static uint64_t number[MOST_NUMBERS]; /* of the present line; one with a minus as its 64 bits */
static size_t count;
static unsigned long line_number, compared;

static int32_t recording[MOST_NUMBERS];
static size_t recording_length;
static uint64_t lines[MOST_NUMBERS], record[KIFSANG_RECORD_WORDS], expected_record[KIFSANG_RECORD_WORDS];
static size_t line_count;
static uint32_t listing_values[3][KIFSANG_ORDER_COUNT];
static int lines_are_ours; /* the next `lines` are the result of the last spectrum */
static int record_is_ours; /* the next `record` is the result of the last call */

static void same(const char *what, uint64_t core, uint64_t expected)
{
    compared++;
    if (core == expected)
        return;
    printf("line %lu, %s: the core gives %" PRIu64 ", the second program %" PRIu64 "\n", line_number, what,
           core, expected);
    exit(1);
}

static void same_words(const char *what, const uint64_t *core, const uint64_t *expected, size_t words)
{
    for (size_t i = 0; i < words; i++)
        same(what, core[i], expected[i]);
}

/* The word that a call answers beside its refusal; a refused call leaves it. */
static void same_answer(const char *what, uint64_t core, uint32_t refusal, uint64_t expected)
{
    same(what, core, refusal == KIFSANG_NO_REFUSAL ? expected : BEFORE);
}

static void take_row(uint32_t row[KIFSANG_ORDER_COUNT], const uint64_t *from)
{
    for (size_t i = 0; i < KIFSANG_ORDER_COUNT; i++)
        row[i] = (uint32_t)from[i];
}

static void on_recording(void)
{
    recording_length = count;
    for (size_t i = 0; i < count; i++)
        recording[i] = (int32_t)(int64_t)number[i];
}

static void on_spectrum(void)
{
    line_count = (size_t)number[1];
    for (size_t i = 0; i < line_count; i++)
        lines[i] = BEFORE;
    uint32_t refusal = kifsang_spectrum(recording, recording_length, number[0], lines, line_count);
    same("spectrum", refusal, number[2]);
    lines_are_ours = refusal == KIFSANG_NO_REFUSAL;
    for (size_t i = 0; !lines_are_ours && i < line_count; i++)
        same("the buffer of a refused spectrum", lines[i], BEFORE);
}

static void on_lines(void)
{
    if (lines_are_ours) {
        same("count of lines", line_count, count);
        same_words("line", lines, number, count);
    }
    lines_are_ours = 0;
    line_count = count;
    memcpy(lines, number, count * sizeof *lines);
}

static void on_lines_from(void)
{
    static uint64_t part[MOST_NUMBERS];
    size_t part_count = (size_t)number[2];
    for (size_t i = 0; i <= part_count; i++)
        part[i] = BEFORE;
    uint32_t refusal = kifsang_lines_from(recording, recording_length, number[0], number[1], part, part_count);
    same("lines from", refusal, number[3]);
    same("count of lines from", count - 4, refusal == KIFSANG_NO_REFUSAL ? part_count : 0);
    for (size_t i = 0; i <= part_count; i++)
        same("line of a part", part[i], 4 + i < count ? number[4 + i] : BEFORE);
}

static void on_row(void)
{
    uint32_t row[KIFSANG_ORDER_COUNT];
    uint32_t kind = (uint32_t)number[0], system = (uint32_t)number[1], edition = (uint32_t)number[2];
    for (size_t i = 0; i < KIFSANG_ORDER_COUNT; i++)
        row[i] = BEFORE;
    same("row", kifsang_row(kind, system, edition, lines, line_count, row, KIFSANG_ORDER_COUNT), 0);
    for (uint32_t order = 1; order <= KIFSANG_ORDER_COUNT; order++) {
        uint64_t value = BEFORE;
        same("group", kifsang_group_value(kind, system, edition, order, lines, line_count, &value), 0);
        same("group value", value, number[2 + order]);
        same("value in a row", row[order - 1], value);
    }
}

/* The panel's row by the calls one by one: the spectrum, and the row of the harmonic groups. */
static uint32_t panel_chain(uint64_t start, uint32_t system, uint32_t edition, uint32_t row[KIFSANG_ORDER_COUNT])
{
    uint64_t spectrum[KIFSANG_LINE_COUNT];
    uint32_t refusal = kifsang_spectrum(recording, recording_length, start, spectrum, KIFSANG_LINE_COUNT);
    if (refusal == KIFSANG_NO_REFUSAL)
        refusal = kifsang_row(KIFSANG_HARMONIC_GROUP, system, edition, spectrum, KIFSANG_LINE_COUNT, row,
                              KIFSANG_ORDER_COUNT);
    return refusal;
}

/* A word stands before and one after what is lent, both of the lines and of the values. */
static void on_panel_row(void)
{
    static uint64_t panel[MOST_NUMBERS];
    uint32_t row[KIFSANG_ORDER_COUNT + 2], chained[KIFSANG_ORDER_COUNT];
    uint32_t system = (uint32_t)number[1], edition = (uint32_t)number[2];
    size_t panel_count = (size_t)number[3];
    const uint64_t *values = number + 5, *panel_after = values + KIFSANG_ORDER_COUNT;
    for (size_t i = 0; i < panel_count + 2; i++)
        panel[i] = BEFORE;
    for (size_t i = 0; i < KIFSANG_ORDER_COUNT + 2; i++)
        row[i] = BEFORE;
    uint32_t refusal = kifsang_panel_row(recording, recording_length, number[0], system, edition, panel + 1,
                                         panel_count, row + 1, KIFSANG_ORDER_COUNT);
    int accepted = refusal == KIFSANG_NO_REFUSAL;
    same("panel row", refusal, number[4]);
    same("count of a panel row's numbers", count, accepted ? 5 + KIFSANG_ORDER_COUNT + KIFSANG_PANEL_LINES : 5);
    for (size_t i = 0; i < KIFSANG_ORDER_COUNT + 2; i++)
        same("value of a panel row", row[i],
             accepted && i >= 1 && i <= KIFSANG_ORDER_COUNT ? values[i - 1] : BEFORE);
    for (size_t i = 0; i < panel_count + 2; i++)
        same("line of a panel", panel[i], accepted && i >= 1 && i <= panel_count ? panel_after[i - 1] : BEFORE);
    if (accepted) {
        same("the calls one by one", panel_chain(number[0], system, edition, chained), KIFSANG_NO_REFUSAL);
        for (size_t i = 0; i < KIFSANG_ORDER_COUNT; i++)
            same("the row of the calls one by one", chained[i], row[1 + i]);
    }
}

static void on_group_value(void)
{
    uint64_t value = BEFORE;
    if (number[1] > UINT32_MAX || number[2] > UINT32_MAX || number[3] > UINT32_MAX)
        return;
    uint32_t refusal = kifsang_group_value((uint32_t)number[0], (uint32_t)number[1], (uint32_t)number[2],
                                           (uint32_t)number[3], lines, line_count, &value);
    same("group", refusal, number[4]);
    same_answer("group value", value, refusal, number[5]);
}

static void on_distortion(void)
{
    uint32_t row[KIFSANG_ORDER_COUNT];
    uint64_t parts = BEFORE;
    take_row(row, number + 2);
    uint32_t refusal = kifsang_distortion(row, KIFSANG_ORDER_COUNT, &parts);
    same("distortion", refusal, number[0]);
    same_answer("parts per thousand", parts, refusal, number[1]);
}

static void on_fresh_record(void)
{
    if (number[0] > UINT32_MAX || number[1] > UINT32_MAX)
        return;
    for (size_t i = 0; i < KIFSANG_RECORD_WORDS; i++)
        record[i] = BEFORE;
    uint32_t refusal =
        kifsang_fresh_record((uint32_t)number[0], (uint32_t)number[1], record, KIFSANG_RECORD_WORDS);
    same("fresh record", refusal, number[2]);
    record_is_ours = refusal == KIFSANG_NO_REFUSAL;
    for (size_t i = 0; !record_is_ours && i < KIFSANG_RECORD_WORDS; i++)
        same("the record of a refused fresh record", record[i], BEFORE);
}

static void on_add_row(void)
{
    uint32_t row[KIFSANG_ORDER_COUNT];
    if (number[1] > UINT32_MAX || number[2] > UINT32_MAX)
        return;
    take_row(row, number + 3);
    same("add row",
         kifsang_add_row(record, KIFSANG_RECORD_WORDS, (uint32_t)number[1], (uint32_t)number[2], row,
                         KIFSANG_ORDER_COUNT),
         number[0]);
    record_is_ours = 1;
}

/* The record after windows back to back by the calls one by one, up to the first that is refused. */
static uint32_t chain(uint64_t start, uint64_t windows, uint32_t system, uint32_t edition, uint32_t kind,
                      uint64_t chained[KIFSANG_RECORD_WORDS])
{
    uint64_t spectrum[KIFSANG_LINE_COUNT];
    uint32_t row[KIFSANG_ORDER_COUNT];
    uint32_t refusal = kifsang_fresh_record(system, edition, chained, KIFSANG_RECORD_WORDS);
    for (uint64_t i = 0; refusal == KIFSANG_NO_REFUSAL && i < windows; i++) {
        refusal = kifsang_spectrum(recording, recording_length, start + i * KIFSANG_WINDOW_LENGTH, spectrum,
                                   KIFSANG_LINE_COUNT);
        if (refusal == KIFSANG_NO_REFUSAL)
            refusal = kifsang_row(kind, system, edition, spectrum, KIFSANG_LINE_COUNT, row, KIFSANG_ORDER_COUNT);
        if (refusal == KIFSANG_NO_REFUSAL)
            refusal = kifsang_add_row(chained, KIFSANG_RECORD_WORDS, system, edition, row, KIFSANG_ORDER_COUNT);
    }
    return refusal;
}

static void on_observe(void)
{
    uint64_t chained[KIFSANG_RECORD_WORDS];
    uint32_t system = (uint32_t)number[2], edition = (uint32_t)number[3], kind = (uint32_t)number[4];
    for (size_t i = 0; i < KIFSANG_RECORD_WORDS; i++)
        record[i] = BEFORE;
    uint32_t refusal = kifsang_observe(recording, recording_length, number[0], number[1], system, edition, kind,
                                       record, KIFSANG_RECORD_WORDS);
    same("observe", refusal, number[5]);
    same("the calls one by one", chain(number[0], number[1], system, edition, kind, chained), refusal);
    record_is_ours = refusal == KIFSANG_NO_REFUSAL;
    if (record_is_ours)
        same_words("the record of the calls one by one", chained, record, KIFSANG_RECORD_WORDS);
    for (size_t i = 0; !record_is_ours && i < KIFSANG_RECORD_WORDS; i++)
        same("the record of a refused observe", record[i], BEFORE);
}

static void on_record(void)
{
    same("count of a record's words", count, KIFSANG_RECORD_WORDS);
    if (record_is_ours)
        same_words("record", record, number, KIFSANG_RECORD_WORDS);
    record_is_ours = 0;
    memcpy(record, number, sizeof record);
    memcpy(expected_record, number, sizeof record);
}

static void on_limit(void)
{
    uint64_t numerator = BEFORE, denominator = BEFORE;
    uint32_t refusal = kifsang_limit((uint32_t)number[0], (uint8_t)number[1], &numerator, &denominator);
    same("limit", refusal, number[2]);
    same_answer("numerator of a limit", numerator, refusal, number[3]);
    same_answer("denominator of a limit", denominator, refusal, number[4]);
}

static void on_verdict(void)
{
    uint32_t verdict = BEFORE;
    if (number[0] > UINT32_MAX || number[2] > UINT32_MAX)
        return;
    uint32_t refusal = kifsang_verdict(record, KIFSANG_RECORD_WORDS, (uint32_t)number[0], (uint8_t)number[1],
                                       (uint32_t)number[2], &verdict);
    same("verdict", refusal, number[3]);
    same_answer("outcome", verdict, refusal, number[4]);
    same_words("the record after a verdict", record, expected_record, KIFSANG_RECORD_WORDS);
}

static void on_three_second_value(void)
{
    uint64_t value = BEFORE;
    if (number[0] > UINT32_MAX)
        return;
    uint32_t refusal = kifsang_three_second_value(record, KIFSANG_RECORD_WORDS, (uint32_t)number[0], &value);
    same("three-second value", refusal, number[1]);
    same_answer("units of a three-second value", value, refusal, number[2]);
    same_words("the record after a three-second value", record, expected_record, KIFSANG_RECORD_WORDS);
}

static void on_read_column(void)
{
    static unsigned char text[MOST_NUMBERS];
    int64_t value = BEFORE;
    for (size_t i = 2; i < count; i++)
        text[i - 2] = (unsigned char)number[i];
    uint32_t refusal = kifsang_read_column(text, count - 2, &value);
    same("column read", refusal, number[0]);
    same_answer("number read", (uint64_t)value, refusal, number[1]);
}

static void on_write_column(void)
{
    static unsigned char buffer[MOST_NUMBERS];
    memset(buffer, '#', count);
    same("column write", kifsang_write_column(buffer, count - 2, (int64_t)number[0]), number[1]);
    for (size_t i = 2; i < count; i++)
        same("byte of a column", buffer[i - 2], number[i]);
}

static void on_listing_values(void)
{
    for (size_t row = 0; row < 3; row++)
        take_row(listing_values[row], number + row * KIFSANG_ORDER_COUNT);
}

static void on_fill_listing(void)
{
    static unsigned char buffer[MOST_NUMBERS];
    uint64_t written = BEFORE;
    memset(buffer, '#', count);
    uint32_t refusal = kifsang_fill_listing(listing_values[0], KIFSANG_ORDER_COUNT, listing_values[1], KIFSANG_ORDER_COUNT,
                                            listing_values[2], KIFSANG_ORDER_COUNT, buffer, count - 2, &written);
    same("listing", refusal, number[0]);
    same_answer("bytes of a listing", written, refusal, number[1]);
    for (size_t i = 2; i < count; i++)
        same("byte of a listing", buffer[i - 2], number[i]);
}

static const struct {
    const char *word;
    void (*run)(void);
} cases[] = {
    {"recording", on_recording},
    {"spectrum", on_spectrum},
    {"lines", on_lines},
    {"lines_from", on_lines_from},
    {"row", on_row},
    {"panel_row", on_panel_row},
    {"group_value", on_group_value},
    {"distortion", on_distortion},
    {"fresh_record", on_fresh_record},
    {"add_row", on_add_row},
    {"observe", on_observe},
    {"record", on_record},
    {"limit", on_limit},
    {"verdict", on_verdict},
    {"three_second_value", on_three_second_value},
    {"read_column", on_read_column},
    {"write_column", on_write_column},
    {"listing_values", on_listing_values},
    {"fill_listing", on_fill_listing},
};

int main(void)
{
    static char text[1 << 22];
    while (fgets(text, sizeof text, stdin) != NULL) {
        line_number++;
        if (text[0] == '#' || text[0] == '\n')
            continue;
        char *word = strtok(text, " \n");
        char *rest = strtok(NULL, " \n");
        size_t wanted = rest == NULL ? 0 : (size_t)strtoull(rest, NULL, 10);
        for (count = 0; count < MOST_NUMBERS && (rest = strtok(NULL, " \n")) != NULL; count++)
            number[count] = rest[0] == '-' ? (uint64_t)strtoll(rest, NULL, 10) : strtoull(rest, NULL, 10);
        same("count of numbers", count, wanted);
        size_t i = 0;
        while (i < sizeof cases / sizeof cases[0] && strcmp(cases[i].word, word) != 0)
            i++;
        same("known word", i < sizeof cases / sizeof cases[0], 1);
        cases[i].run();
    }
    if (compared == 0) {
        puts("no test case was read");
        return 1;
    }
    printf("%lu comparisons in C with the second program, all alike\n", compared);
    return 0;
}
