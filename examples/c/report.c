/* A test report of a recording in a class:
 *
 *     report CLASS_LETTER UNITS_PER_AMPERE [EDITION] < recording
 *
 * The edition of IEC 61000-4-7 is 0 for edition 2, which is taken where none is given, or 1 for its
 * amendment A1. The recording has the input form of harmlist: a line with the system, then a line for each
 * sample, windows back to back; a line is a number column of 8 bytes and a newline. Verdicts and limits
 * are the core's, the margin about a limit and the peak's per cent the header's: this program has no rule
 * of its own.
 *
 * Where the recording has a fault, the output is only the line that harmlist writes for it, `refused`
 * and a number. An edition that the core refuses gives such a line with 19, directly after the system
 * is known; then a class letter with 15, and units per ampere with 11. The exit status is then 1. It is
 * 2 where the program was called wrongly, or could not read or write. */
#include "kifsang.h"
#include "verdict_word.h"

#include <inttypes.h>
#include <stdio.h>

#define LINE_BYTES (KIFSANG_COLUMN_WIDTH + 1)
#define FIRST_LIMITED 2 /* order 1 has no limit */

/* What the core says of an order: its limit in mA, and the verdict. */
struct judgement {
    uint64_t numerator, denominator;
    uint32_t verdict;
};

/* Whether no byte is left; so too after a read that failed. */
static int at_end(FILE *input)
{
    int byte = getc(input);
    return byte == EOF || ungetc(byte, input) == EOF;
}

static uint32_t read_line(FILE *input, int64_t *number)
{
    uint8_t line[LINE_BYTES];
    if (fread(line, 1, LINE_BYTES, input) != LINE_BYTES || line[KIFSANG_COLUMN_WIDTH] != '\n')
        return KIFSANG_NOT_A_COLUMN;
    return kifsang_read_column(line, KIFSANG_COLUMN_WIDTH, number);
}

/* Reads the samples of a window, up to the first line with a fault; those after it stay. */
static uint32_t read_samples(FILE *input, int32_t samples[KIFSANG_WINDOW_LENGTH])
{
    for (int i = 0; i < KIFSANG_WINDOW_LENGTH; i++) {
        int64_t number = 0;
        uint32_t refusal = at_end(input) ? KIFSANG_SHORT_WINDOW : read_line(input, &number);
        if (refusal != KIFSANG_NO_REFUSAL)
            return refusal;
        samples[i] = (int32_t)number; /* a column has at most 8 digits */
    }
    return KIFSANG_NO_REFUSAL;
}

/* Adds the next window of the input to the record. A sample out of range comes before a fault on a
 * later line, so the core sees the samples first, with zeros from that line on. */
static uint32_t add_window(FILE *input, uint32_t system, uint32_t edition, uint64_t record[KIFSANG_RECORD_WORDS])
{
    int32_t samples[KIFSANG_WINDOW_LENGTH] = {0};
    uint64_t lines[KIFSANG_LINE_COUNT];
    uint32_t row[KIFSANG_ORDER_COUNT];
    uint32_t fault = read_samples(input, samples);
    uint32_t refusal = kifsang_spectrum(samples, KIFSANG_WINDOW_LENGTH, 0, lines, KIFSANG_LINE_COUNT);
    if (refusal == KIFSANG_NO_REFUSAL)
        refusal = fault;
    if (refusal == KIFSANG_NO_REFUSAL)
        refusal = kifsang_row(KIFSANG_HARMONIC_GROUP, system, edition, lines, KIFSANG_LINE_COUNT, row,
                              KIFSANG_ORDER_COUNT);
    if (refusal == KIFSANG_NO_REFUSAL)
        refusal = kifsang_add_row(record, KIFSANG_RECORD_WORDS, system, edition, row, KIFSANG_ORDER_COUNT);
    return refusal;
}

/* The record of the whole input, under an edition. */
static uint32_t read_recording(FILE *input, uint32_t edition, uint64_t record[KIFSANG_RECORD_WORDS])
{
    int64_t number = 0;
    uint32_t refusal = read_line(input, &number);
    uint32_t system = (uint32_t)number; /* of a number below 0 it makes a large one, which is no system */
    if (refusal == KIFSANG_NO_REFUSAL)
        refusal = kifsang_fresh_record(system, edition, record, KIFSANG_RECORD_WORDS);
    while (refusal == KIFSANG_NO_REFUSAL && !at_end(input))
        refusal = add_window(input, system, edition, record);
    return refusal;
}

static uint32_t judge(const uint64_t record[KIFSANG_RECORD_WORDS], uint8_t class_letter,
                      uint32_t units_per_ampere, struct judgement judgements[KIFSANG_ORDER_COUNT])
{
    uint32_t refusal = KIFSANG_NO_REFUSAL;
    for (uint32_t order = FIRST_LIMITED; refusal == KIFSANG_NO_REFUSAL && order <= KIFSANG_ORDER_COUNT; order++) {
        struct judgement *judgement = &judgements[order - 1];
        refusal = kifsang_verdict(record, KIFSANG_RECORD_WORDS, order, class_letter, units_per_ampere,
                                  &judgement->verdict);
        if (refusal == KIFSANG_NO_REFUSAL)
            refusal = kifsang_limit(order, class_letter, &judgement->numerator, &judgement->denominator);
    }
    return refusal;
}

/* The limit as it stands, a whole number without its denominator; then as a decimal, and the peak's. */
static void print_limits(uint64_t numerator, uint64_t denominator)
{
    double limit = (double)numerator / (double)denominator;
    double peak_limit = (double)(numerator * KIFSANG_PEAK_PERCENT) / (double)(denominator * 100);
    char text[2 * 20 + 2]; /* two numbers of 64 bits, and a stroke between them */
    if (denominator == 1)
        snprintf(text, sizeof text, "%" PRIu64, numerator);
    else
        snprintf(text, sizeof text, "%" PRIu64 "/%" PRIu64, numerator, denominator);
    printf("  %9s  %10.4f  %14.4f", text, limit, peak_limit);
}

static void print_report(const uint64_t record[KIFSANG_RECORD_WORDS], uint8_t class_letter,
                         uint32_t units_per_ampere, const struct judgement judgements[KIFSANG_ORDER_COUNT])
{
    uint64_t windows = record[KIFSANG_WINDOWS_PLACE];
    printf("class             %9c\n", class_letter);
    printf("system            %9" PRIu64 "\n", record[KIFSANG_SYSTEM_PLACE]);
    printf("edition           %9s\n", record[KIFSANG_EDITION_PLACE] == KIFSANG_EDITION_A1 ? "2.0 A1" : "2");
    printf("windows           %9" PRIu64 "\n", windows);
    printf("units per ampere  %9" PRIu32 "\n", units_per_ampere);
    printf("margin, units     %9d\n\n", KIFSANG_SMOOTHED_MARGIN);
    printf("order  average, units  peak, units  limit, mA  as decimal  peak limit, mA  verdict\n");
    for (int place = 0; place < KIFSANG_ORDER_COUNT; place++) {
        const struct judgement *judgement = &judgements[place];
        double average = (double)record[KIFSANG_SUM_PLACE + place] / (double)windows;
        printf("%5d  %14.2f  %11" PRIu64, place + 1, average, record[KIFSANG_PEAK_PLACE + place]);
        if (place + 1 < FIRST_LIMITED) {
            printf("  %9s  %10s  %14s  %s\n", "-", "-", "-", "-");
        } else {
            print_limits(judgement->numerator, judgement->denominator);
            printf("  %s\n", verdict_word(judgement->verdict));
        }
    }
}

/* The byte of a text of one byte. For any other text 0, which the core refuses. */
static uint8_t letter_of(const char *text)
{
    return text[0] != '\0' && text[1] == '\0' ? (uint8_t)text[0] : 0;
}

/* The number of a text of digits, at least one. For any other text, and a number of more than 32 bits, the
 * other number, which the core refuses. */
static uint32_t number_of(const char *text, uint32_t other)
{
    uint64_t number = *text == '\0' ? UINT64_MAX : 0;
    for (; *text >= '0' && *text <= '9' && number <= UINT32_MAX; text++)
        number = 10 * number + (uint64_t)(*text - '0');
    return *text == '\0' && number <= UINT32_MAX ? (uint32_t)number : other;
}

static int failed(const char *what)
{
    fprintf(stderr, "report: %s\n", what);
    return 2;
}

int main(int count, char **arguments)
{
    uint64_t record[KIFSANG_RECORD_WORDS] = {0};
    struct judgement judgements[KIFSANG_ORDER_COUNT] = {0};
    if (count != 3 && count != 4)
        return failed("usage: report CLASS_LETTER UNITS_PER_AMPERE [EDITION] < recording, "
                      "with 0 for edition 2 and 1 for A1");
    uint8_t class_letter = letter_of(arguments[1]);
    uint32_t units_per_ampere = number_of(arguments[2], 0);
    uint32_t edition = count == 4 ? number_of(arguments[3], UINT32_MAX) : KIFSANG_EDITION_2;
    uint32_t refusal = read_recording(stdin, edition, record);
    if (ferror(stdin))
        return failed("the recording cannot be read");
    if (refusal == KIFSANG_NO_REFUSAL)
        refusal = judge(record, class_letter, units_per_ampere, judgements);
    if (refusal == KIFSANG_NO_REFUSAL)
        print_report(record, class_letter, units_per_ampere, judgements);
    else
        printf("refused%3" PRIu32 "\n", refusal);
    if (fflush(stdout) != 0 || ferror(stdout))
        return failed("the report cannot be written");
    return refusal == KIFSANG_NO_REFUSAL ? 0 : 1;
}
