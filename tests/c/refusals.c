/* Every refusal of the C interface: each fault of each call alone, and each two together, where the
 * number must be that of the one which the header lists first. The numbers stand here in figures. The 9
 * of kifsang_observe needs 45,001 windows, and stands in tests/c/longest.c. With an argument it prints
 * each call and the numbers of its faults in order instead, a line for each call, so that they can be
 * compared with docs/REFUSALS.md.
 *
 * All that a call is lent stands in one struct, where no word of a result is 0 and every buffer is
 * longer than the length that is told; a refused call must leave the whole struct as it was. */
#include "kifsang.h"

#include <stddef.h>
#include <stdio.h>
#include <stdlib.h>
#include <string.h>

#define FILL 0x5A
#define COUNT_OF(array) (sizeof(array) / sizeof((array)[0]))

struct arguments {
    uint32_t kind, system, edition, order, units_per_ampere;
    uint8_t class_letter;
    uint64_t recording_length, start, windows, first, line_count, value_count, record_words, text_length;
    uint64_t group_count, subgroup_count, smoothed_count, buffer_length;
    int64_t number;
    uint64_t value, parts_per_thousand, numerator, denominator, written;
    uint32_t verdict;
    int32_t recording[6200];
    uint64_t lines[520], record[430];
    uint32_t values[50], group[50], subgroup[50], smoothed[50];
    uint8_t text[16], buffer[1700];
};

/* A change of the arguments that is a fault, with its number. */
struct fault {
    uint32_t number;
    const char *what;
    size_t place, size;
    const void *bytes;
};

#define FAULT(number, type, field, wrong) \
    {number, #field " = " #wrong, offsetof(struct arguments, field), sizeof(type), &(type){wrong}}

/* The faults that several calls share. */
#define KIND_FAULTS \
    FAULT(101, uint32_t, kind, 5), \
    FAULT(101, uint32_t, kind, UINT32_MAX)
#define RECORD_WORDS_FAULTS \
    FAULT(102, uint64_t, record_words, 0), \
    FAULT(102, uint64_t, record_words, 123), \
    FAULT(102, uint64_t, record_words, 422), \
    FAULT(102, uint64_t, record_words, 424)
#define VALUE_COUNT_FAULTS \
    FAULT(102, uint64_t, value_count, 0), \
    FAULT(102, uint64_t, value_count, 39), \
    FAULT(102, uint64_t, value_count, 41)
#define SETUP_FAULTS \
    FAULT(1, uint32_t, system, 0), \
    FAULT(1, uint32_t, system, 11), \
    FAULT(1, uint32_t, system, 13), \
    FAULT(19, uint32_t, edition, 2), \
    FAULT(19, uint32_t, edition, 65537), \
    FAULT(19, uint32_t, edition, UINT32_MAX)
#define ORDER_FAULTS \
    FAULT(6, uint32_t, order, 0), \
    FAULT(6, uint32_t, order, 41), \
    FAULT(6, uint32_t, order, UINT32_MAX)
#define WHOLE_RECORD(number, what, words) \
    {number, what, offsetof(struct arguments, record), sizeof words, words}
/* A value in the row of window 15 where 14 windows have come, the last value of all where none has. */
#define LATEST_FAULTS \
    WHOLE_RECORD(7, "a value before window 15", early), \
    WHOLE_RECORD(7, "a value before window 1", earliest)
#define RECORD_SETUP_FAULTS \
    FAULT(7, uint64_t, record[0], 11), \
    FAULT(7, uint64_t, record[0], 4294967306), \
    FAULT(7, uint64_t, record[1], 2), \
    FAULT(7, uint64_t, record[1], 4294967295), \
    FAULT(7, uint64_t, record[1], 4294967296), \
    FAULT(7, uint64_t, record[1], 4294967297)
#define SHORT_WINDOW_FAULTS \
    FAULT(2, uint64_t, recording_length, 0), \
    FAULT(2, uint64_t, recording_length, 2047), \
    FAULT(2, uint64_t, start, 1), \
    FAULT(2, uint64_t, start, UINT64_MAX)
#define SAMPLE_FAULTS \
    FAULT(3, int32_t, recording[0], 131072), \
    FAULT(3, int32_t, recording[1023], -131072), \
    FAULT(3, int32_t, recording[2047], INT32_MIN)
#define LINE_COUNT_FAULTS \
    FAULT(4, uint64_t, line_count, 0), \
    FAULT(4, uint64_t, line_count, 511), \
    FAULT(4, uint64_t, line_count, 513)
#define LINES_FAULTS \
    LINE_COUNT_FAULTS, \
    FAULT(5, uint64_t, lines[0], 576460752303423489), \
    FAULT(5, uint64_t, lines[510], UINT64_MAX)
#define LIMIT_FAULTS \
    FAULT(6, uint32_t, order, 0), \
    FAULT(6, uint32_t, order, 1), \
    FAULT(6, uint32_t, order, 41), \
    FAULT(6, uint32_t, order, UINT32_MAX), \
    FAULT(15, uint8_t, class_letter, 0), \
    FAULT(15, uint8_t, class_letter, 64), \
    FAULT(15, uint8_t, class_letter, 67), \
    FAULT(15, uint8_t, class_letter, 68), \
    FAULT(15, uint8_t, class_letter, 97), \
    FAULT(15, uint8_t, class_letter, 98), \
    FAULT(15, uint8_t, class_letter, UINT8_MAX)

struct call {
    const char *name;
    uint32_t (*run)(struct arguments *);
    const struct fault *faults;
    size_t fault_count;
};

static const uint64_t fresh[423] = {10, 1};
/* 14 windows, the last value of their rows not 0; and values where no row has come yet. */
static const uint64_t fourteen[423] = {10, 1, 14, [402] = 4294967296};
static const uint64_t early[423] = {10, 1, 14, [403] = 1};
static const uint64_t earliest[423] = {10, 1, 0, [422] = 4294967296};

static uint32_t spectrum(struct arguments *a)
{
    return kifsang_spectrum(a->recording, a->recording_length, a->start, a->lines, a->line_count);
}

static const struct fault spectrum_faults[] = {
    SHORT_WINDOW_FAULTS,
    LINE_COUNT_FAULTS,
    SAMPLE_FAULTS,
};

static uint32_t lines_from(struct arguments *a)
{
    return kifsang_lines_from(a->recording, a->recording_length, a->start, a->first, a->lines, a->line_count);
}

/* Without a fault the buffer ends at line 1,023. */
static const struct fault lines_from_faults[] = {
    SHORT_WINDOW_FAULTS,
    FAULT(4, uint64_t, first, 513),
    FAULT(4, uint64_t, first, 1025),
    FAULT(4, uint64_t, first, UINT64_MAX - 511),
    FAULT(4, uint64_t, first, UINT64_MAX),
    FAULT(4, uint64_t, line_count, 513),
    SAMPLE_FAULTS,
};

static uint32_t group_value(struct arguments *a)
{
    return kifsang_group_value(a->kind, a->system, a->edition, a->order, a->lines, a->line_count, &a->value);
}

static const struct fault group_value_faults[] = {
    KIND_FAULTS,
    SETUP_FAULTS,
    ORDER_FAULTS,
    LINES_FAULTS,
};

static uint32_t row(struct arguments *a)
{
    return kifsang_row(a->kind, a->system, a->edition, a->lines, a->line_count, a->values, a->value_count);
}

static const struct fault row_faults[] = {
    KIND_FAULTS,
    VALUE_COUNT_FAULTS,
    SETUP_FAULTS,
    LINES_FAULTS,
};

static uint32_t panel_row(struct arguments *a)
{
    return kifsang_panel_row(a->recording, a->recording_length, a->start, a->system, a->edition, a->lines,
                             a->line_count, a->values, a->value_count);
}

static const struct fault panel_row_faults[] = {
    VALUE_COUNT_FAULTS,
    SETUP_FAULTS,
    SHORT_WINDOW_FAULTS,
    FAULT(4, uint64_t, line_count, 0),
    FAULT(4, uint64_t, line_count, 11),
    FAULT(4, uint64_t, line_count, 12),
    FAULT(4, uint64_t, line_count, 14),
    FAULT(4, uint64_t, line_count, 512),
    SAMPLE_FAULTS,
};

static uint32_t distortion(struct arguments *a)
{
    return kifsang_distortion(a->values, a->value_count, &a->parts_per_thousand);
}

static const struct fault distortion_faults[] = {
    VALUE_COUNT_FAULTS,
    FAULT(12, uint32_t, values[0], 0),
};

static uint32_t fresh_record(struct arguments *a)
{
    return kifsang_fresh_record(a->system, a->edition, a->record, a->record_words);
}

static const struct fault fresh_record_faults[] = {
    RECORD_WORDS_FAULTS,
    SETUP_FAULTS,
};

static uint32_t add_row(struct arguments *a)
{
    return kifsang_add_row(a->record, a->record_words, a->system, a->edition, a->values, a->value_count);
}

static const struct fault add_row_faults[] = {
    RECORD_WORDS_FAULTS,
    VALUE_COUNT_FAULTS,
    RECORD_SETUP_FAULTS,
    FAULT(7, uint64_t, record[2], 0),
    FAULT(7, uint64_t, record[2], 14),
    FAULT(7, uint64_t, record[2], 45001),
    FAULT(7, uint64_t, record[42], 4294967296),
    FAULT(7, uint64_t, record[43], UINT64_MAX),
    FAULT(7, uint64_t, record[122], 4294967296),
    SETUP_FAULTS,
    FAULT(8, uint32_t, system, 12),
    FAULT(8, uint32_t, edition, 0),
    FAULT(9, uint64_t, record[2], 45000),
};

static uint32_t observe(struct arguments *a)
{
    return kifsang_observe(a->recording, a->recording_length, a->start, a->windows, a->system, a->edition, a->kind,
                           a->record, a->record_words);
}

/* Without a fault the recording ends with the third window. */
static const struct fault observe_faults[] = {
    KIND_FAULTS,
    RECORD_WORDS_FAULTS,
    SETUP_FAULTS,
    FAULT(2, uint64_t, recording_length, 0),
    FAULT(2, uint64_t, recording_length, 2047),
    FAULT(2, uint64_t, start, 4097),
    FAULT(2, uint64_t, start, UINT64_MAX),
    SAMPLE_FAULTS,
    FAULT(2, uint64_t, recording_length, 4095),
    FAULT(3, int32_t, recording[2048], 131072),
    FAULT(3, int32_t, recording[4095], -131072),
    FAULT(2, uint64_t, recording_length, 6143),
    FAULT(3, int32_t, recording[4096], INT32_MAX),
    FAULT(3, int32_t, recording[6143], 131072),
    FAULT(2, uint64_t, windows, 4),
    FAULT(2, uint64_t, windows, UINT64_MAX),
};

static uint32_t limit(struct arguments *a)
{
    return kifsang_limit(a->order, a->class_letter, &a->numerator, &a->denominator);
}

static const struct fault limit_faults[] = {
    LIMIT_FAULTS,
};

static uint32_t verdict(struct arguments *a)
{
    return kifsang_verdict(a->record, a->record_words, a->order, a->class_letter, a->units_per_ampere,
                           &a->verdict);
}

static const struct fault verdict_faults[] = {
    RECORD_WORDS_FAULTS,
    RECORD_SETUP_FAULTS,
    LATEST_FAULTS,
    FAULT(7, uint64_t, record[2], 45001),
    FAULT(7, uint64_t, record[3], 4294967296),
    FAULT(7, uint64_t, record[43], UINT64_MAX),
    FAULT(7, uint64_t, record[122], 4294967296),
    WHOLE_RECORD(10, "a fresh record", fresh),
    LIMIT_FAULTS,
    FAULT(11, uint32_t, units_per_ampere, 0),
    FAULT(11, uint32_t, units_per_ampere, 268435457),
};

static uint32_t three_second_value(struct arguments *a)
{
    return kifsang_three_second_value(a->record, a->record_words, a->order, &a->value);
}

static const struct fault three_second_value_faults[] = {
    RECORD_WORDS_FAULTS,
    RECORD_SETUP_FAULTS,
    LATEST_FAULTS,
    FAULT(7, uint64_t, record[2], 13),
    FAULT(7, uint64_t, record[2], 45001),
    FAULT(7, uint64_t, record[3], 4294967296),
    FAULT(7, uint64_t, record[43], UINT64_MAX),
    FAULT(7, uint64_t, record[122], 4294967296),
    ORDER_FAULTS,
    WHOLE_RECORD(20, "a record of 14 windows", fourteen),
};

static uint32_t read_column(struct arguments *a)
{
    return kifsang_read_column(a->text, a->text_length, &a->number);
}

static const struct fault read_column_faults[] = {
    FAULT(13, uint64_t, text_length, 0),
    FAULT(13, uint64_t, text_length, 7),
    FAULT(13, uint64_t, text_length, 9),
    FAULT(13, uint8_t, text[7], ' '),
    FAULT(13, uint8_t, text[7], '0'),
    FAULT(13, uint8_t, text[5], '0'),
    FAULT(13, uint8_t, text[0], '-'),
};

static uint32_t write_column(struct arguments *a)
{
    return kifsang_write_column(a->buffer, a->buffer_length, a->number);
}

static const struct fault write_column_faults[] = {
    FAULT(14, uint64_t, buffer_length, 0),
    FAULT(14, uint64_t, buffer_length, 7),
    FAULT(14, uint64_t, buffer_length, 9),
    FAULT(13, int64_t, number, 100000000),
    FAULT(13, int64_t, number, -10000000),
    FAULT(13, int64_t, number, INT64_MIN),
};

static uint32_t fill_listing(struct arguments *a)
{
    return kifsang_fill_listing(a->group, a->group_count, a->subgroup, a->subgroup_count, a->smoothed,
                                a->smoothed_count, a->buffer, a->buffer_length, &a->written);
}

static const struct fault fill_listing_faults[] = {
    FAULT(102, uint64_t, group_count, 0),
    FAULT(102, uint64_t, group_count, 39),
    FAULT(102, uint64_t, group_count, 41),
    FAULT(102, uint64_t, subgroup_count, 0),
    FAULT(102, uint64_t, subgroup_count, 39),
    FAULT(102, uint64_t, subgroup_count, 41),
    FAULT(102, uint64_t, smoothed_count, 0),
    FAULT(102, uint64_t, smoothed_count, 39),
    FAULT(102, uint64_t, smoothed_count, 41),
    FAULT(14, uint64_t, buffer_length, 0),
    FAULT(14, uint64_t, buffer_length, 1639),
};

#define CALL(name) {#name, name, name##_faults, COUNT_OF(name##_faults)}

static const struct call calls[] = {
    CALL(spectrum),
    CALL(lines_from),
    CALL(group_value),
    CALL(row),
    CALL(panel_row),
    CALL(distortion),
    CALL(fresh_record),
    CALL(add_row),
    CALL(observe),
    CALL(limit),
    CALL(verdict),
    CALL(three_second_value),
    CALL(read_column),
    CALL(write_column),
    CALL(fill_listing),
};

static unsigned long tried;

static void same(const char *name, const char *what, const char *and_what, uint64_t found, uint64_t expected)
{
    tried++;
    if (found == expected)
        return;
    printf("%s, %s, %s: %llu in place of %llu\n", name, what, and_what, (unsigned long long)found,
           (unsigned long long)expected);
    exit(1);
}

/* Arguments that no call refuses, and no result of which is 0. What no call is to look at would be
 * refused. */
static void fill(struct arguments *a, const struct call *call)
{
    memset(a, FILL, sizeof *a);
    a->kind = 2;
    a->system = 10;
    a->edition = 1;
    a->order = 3;
    a->class_letter = 65;
    a->units_per_ampere = 268435456;
    a->windows = 3;
    a->recording_length = call->run == observe ? 6144 : 2048;
    a->start = 0;
    a->first = 512;
    a->line_count = call->run == panel_row ? 13 : 512;
    a->value_count = 40;
    a->record_words = 423;
    a->text_length = 8;
    a->group_count = a->subgroup_count = a->smoothed_count = 40;
    a->buffer_length = call->run == write_column ? 8 : 1640;
    a->number = -9999999;
    memcpy(a->text, "      -7", 8);
    for (size_t i = 0; i < COUNT_OF(a->recording); i++)
        a->recording[i] = i >= a->recording_length ? INT32_MIN : i % 2 == 0 ? 131071 : -131071;
    for (size_t i = 0; i < COUNT_OF(a->lines); i++)
        a->lines[i] = 576460752303423488 - i;
    for (size_t i = 0; i < COUNT_OF(a->record); i++)
        a->record[i] = i < 123 ? 4294967295 - i : UINT64_MAX - i;
    a->record[0] = 10;
    a->record[1] = 1;
    a->record[2] = 44999;
}

static void put(struct arguments *a, const struct fault *fault)
{
    memcpy((char *)a + fault->place, fault->bytes, fault->size);
}

/* Runs a call with one fault, or with two of which the first is listed before. */
static void refuse(const struct call *call, uint32_t verdict_before, const struct fault *first,
                   const struct fault *second)
{
    static struct arguments before, after;
    fill(&before, call);
    before.verdict = verdict_before;
    put(&before, second);
    put(&before, first);
    memcpy(&after, &before, sizeof after);
    same(call->name, first->what, second->what, call->run(&after), first->number);
    same(call->name, first->what, "all is as it was", memcmp(&before, &after, sizeof before) == 0, 1);
}

static void try_call(const struct call *call, uint32_t verdict_before)
{
    static struct arguments arguments;
    fill(&arguments, call);
    same(call->name, "no fault", "no refusal", call->run(&arguments), 0);
    for (size_t first = 0; first < call->fault_count; first++)
        for (size_t second = first; second < call->fault_count; second++)
            refuse(call, verdict_before, &call->faults[first], &call->faults[second]);
}

/* A verdict as of document 01's worked number 9, in a class: one window, order 3, 1,000,000 units per
 * ampere. */
static uint32_t verdict_of(uint8_t class_letter, uint32_t value)
{
    uint64_t record[423];
    uint32_t values[40] = {0}, verdict = 0;
    values[2] = value;
    same("verdict", "a record", "of one window",
         kifsang_fresh_record(10, 0, record, 423) + kifsang_add_row(record, 423, 10, 0, values, 40) +
             kifsang_verdict(record, 423, 3, class_letter, 1000000, &verdict),
         0);
    return verdict;
}

/* The verdicts about the limit of a class. */
static void try_class(uint8_t class_letter, uint32_t limit)
{
    same("verdict", "limit - 12", "within", verdict_of(class_letter, limit - 12), 1);
    same("verdict", "limit - 11", "close", verdict_of(class_letter, limit - 11), 2);
    same("verdict", "limit + 12", "close", verdict_of(class_letter, limit + 12), 2);
    same("verdict", "limit + 13", "over", verdict_of(class_letter, limit + 13), 3);
}

/* Every byte as a class letter: two are taken, the others leave all as it was. */
static void try_letters(const struct call *call)
{
    static struct arguments before, after;
    fill(&before, call);
    for (unsigned letter = 0; letter <= UINT8_MAX; letter++) {
        int taken = letter == 65 || letter == 66;
        before.class_letter = (uint8_t)letter;
        memcpy(&after, &before, sizeof after);
        same(call->name, "a class letter", "A or B alone", call->run(&after), taken ? 0 : 15);
        same(call->name, "a class letter", "answered", memcmp(&before, &after, sizeof before) != 0, taken);
    }
}

/* No line and no window are taken too: nothing is written, and a fresh record. */
static void try_none(void)
{
    static struct arguments before, after;
    const struct call call = CALL(lines_from);
    fill(&before, &call);
    before.line_count = 0;
    for (before.first = 0; before.first <= 1024; before.first += 512) {
        memcpy(&after, &before, sizeof after);
        same("lines_from", "no line", "no refusal", lines_from(&after), 0);
        same("lines_from", "no line", "all is as it was", memcmp(&before, &after, sizeof before) == 0, 1);
    }
    before.windows = 0;
    for (before.recording_length = 0; before.recording_length <= 2048; before.recording_length += 1024) {
        before.start = UINT64_MAX - before.recording_length;
        memcpy(&after, &before, sizeof after);
        same("observe", "no window", "no refusal", observe(&after), 0);
        same("fresh_record", "no window", "no refusal", fresh_record(&before), 0);
        same("observe", "no window", "a fresh record", memcmp(&before, &after, sizeof before) == 0, 1);
    }
}

/* A panel row that is taken leaves zeros in its 13 lines, and writes its 40 values and nothing else. */
static void try_panel(void)
{
    static struct arguments before, after;
    const struct call call = CALL(panel_row);
    fill(&before, &call);
    for (before.edition = 0; before.edition <= 1; before.edition++)
        for (before.system = 10; before.system <= 12; before.system += 2) {
            before.lines[0] = before.lines[12] = UINT64_MAX;
            memcpy(&after, &before, sizeof after);
            same("panel_row", "no fault", "no refusal", panel_row(&after), 0);
            for (size_t i = 0; i < 13; i++)
                same("panel_row", "no fault", "a line of the buffer", after.lines[i], 0);
            memcpy(after.lines, before.lines, 13 * sizeof after.lines[0]);
            memcpy(after.values, before.values, 40 * sizeof after.values[0]);
            same("panel_row", "no fault", "all else is as it was", memcmp(&before, &after, sizeof before) == 0, 1);
        }
}

/* Each call and the numbers of its faults in order. */
static void list(void)
{
    for (size_t i = 0; i < COUNT_OF(calls); i++) {
        fputs(calls[i].name, stdout);
        for (size_t fault = 0; fault < calls[i].fault_count; fault++)
            printf(" %lu", (unsigned long)calls[i].faults[fault].number);
        puts("");
    }
}

int main(int argument_count, char **arguments)
{
    (void)arguments;
    if (argument_count > 1) {
        list();
        return 0;
    }
    for (size_t i = 0; i < COUNT_OF(calls); i++)
        try_call(&calls[i], FILL);
    /* A caller that zeroes its verdict and looks at no refusal reads 0, which is none of the three. */
    for (size_t i = 0; i < COUNT_OF(calls); i++)
        if (calls[i].run == verdict)
            try_call(&calls[i], 0);
    for (size_t i = 0; i < COUNT_OF(calls); i++)
        if (calls[i].run == limit || calls[i].run == verdict)
            try_letters(&calls[i]);
    try_none();
    try_panel();
    try_class(65, 2300000);
    try_class(66, 3450000);
    printf("%lu comparisons of refusals in C, all alike\n", tried);
    return 0;
}
