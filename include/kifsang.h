/*
 * kifsang.h: the harmonic core of a power analyser, for C and C++ programs.
 *
 * From the samples of a mains current to its spectrum, its harmonic and interharmonic groups after
 * IEC 61000-4-7, edition 2 or its amendment A1, values smoothed over 1.5 s, a verdict for each order
 * against class A or B of IEC 61000-3-2, and the three-second values that network people read after
 * IEC 61000-4-30. Each function is proved to answer what its definition says, for every input.
 * Kifsang is the name of the product; every symbol begins with it.
 *
 * From samples to verdicts
 *
 *     kifsang_observe        windows back to back         ->  the record after them
 *     kifsang_verdict        a record, an order, a class  ->  within, close or over
 *     kifsang_limit          an order and a class         ->  its limit, for a report or a chart
 *
 *     The same record a window at a time, where memory holds no more:
 *
 *     kifsang_fresh_record   a system and an edition      ->  a record with no window
 *     kifsang_spectrum       a window of 2,048 samples    ->  512 lines
 *     kifsang_row            the lines of a window        ->  the 40 values of a kind, a row
 *     kifsang_add_row        a record and a row           ->  the record with one window more
 *
 *     The harmonic groups of a window with 13 lines in place of 512, where there is little memory:
 *
 *     kifsang_panel_row      a window of 2,048 samples    ->  the row of its harmonic groups
 *
 *     The value of an order over the latest 15 windows, as a network reader wants it:
 *
 *     kifsang_three_second_value   a record and an order  ->  its three-second value
 *
 *     Any of a window's lines 0..1023 alone:
 *
 *     kifsang_lines_from     a window and a first line    ->  so many lines from that one on
 *
 * Samples and their rate
 *
 *     A sample is a converter count, -131071..131071. A window is 2,048 samples that span `system`
 *     whole cycles of the mains: 10 cycles at 50 Hz, 12 at 60 Hz. So the converter's clock follows the
 *     mains, at 204.8 samples a cycle (system 10) or 170.67 (system 12), 10,240 samples a second at
 *     just 50 or 60 Hz; windows follow each other without a gap, five a second. A line is 5 Hz wide,
 *     and line number k stands for the frequency k * 5 Hz. Nothing here resamples or filters.
 *
 * Formulas and units
 *
 *     A = round(sum over j of sample[j] * cosine[j * k] / 2^29)   cosine and sine are 2^30 times those
 *     B = round(sum over j of sample[j] *   sine[j * k] / 2^29)   of the series, to the nearest
 *     line[k] = A * A + B * B, at most 2^59                       halves are rounded up
 *
 *     The series is the sine's, through the 21st power (eleven terms); it is what "exact" means in every
 *     proved error below. That it is within 10^-17 of the true sine is not proved here.
 *
 *     A unit is 1/4096 of a sample count, r.m.s. Group values, smoothed values, their sums and their
 *     peaks, and three-second values are in units. A group value is the whole part of the square root of
 *     the sum of 2 * weight * line over the lines of its kind, which are counted from system * order:
 *
 *         component                         0, weight 1
 *         harmonic group                    -system/2 and system/2, weight 1/2; between them, weight 1
 *         harmonic subgroup                 -1..1, weight 1
 *         interharmonic group               1..system-1, weight 1
 *         interharmonic centred subgroup    2..system-2, weight 1
 *
 *     An edition of IEC 61000-4-7 is named by a number, 0 for edition 2 and 1 for its amendment A1. A1
 *     groups interharmonics from the second order up, so under it the harmonic group of order 1 is its
 *     component alone. All other groups, and the other kinds, are the same in both editions. Verdicts are
 *     of the orders 2..40, so the same windows have the same verdicts in both; the distortion of a row of
 *     harmonic groups is a ratio to order 1, so it may differ.
 *
 * One bad sample
 *
 *     A glitch of the converter that moves one sample of a window by d counts moves a group value, of any
 *     kind, order, system and edition, by at most 10 * d + 14 units. It moves the smoothed value after it by
 *     at most (10 * d + 14) / 8.012 units, rounded up, if the record held at least one window before; in the
 *     first window of a record the smoothed value is the group value. With 4,000 counts in an ampere, so
 *     16,384,000 units, a sample that is off by 1 A moves a group value by at most 40,014 units, 2.45 mA, and
 *     the smoothed value by at most 4,995 units, 0.305 mA; one that is off by the whole range, 262,142 counts
 *     or 65.5 A, by at most 160 mA and 20.0 mA. A sample that the glitch takes out of range is refused (3).
 *     This is proved of kifsang_spectrum, kifsang_group_value, kifsang_row and kifsang_add_row, for every
 *     window, every place of the sample and every d (exported-glitch; ExportedGlitchHolds,
 *     crates/exported_accuracy/specs/Glitch.antt). The row that kifsang_panel_row leaves is kifsang_row's.
 *
 * Limits
 *
 *     Class A, in milliamperes: order 2 1080, 3 2300, 4 430, 5 1140, 6 300, 7 770, 9 400, 11 330,
 *     13 210; odd orders 15..39 2250/order; even orders 8..40 1840/order. Class B, for portable tools:
 *     150 % of class A at every order. kifsang_limit answers each in lowest terms. With K units per ampere
 *     the limit in units is that figure * K / 1000, as an exact fraction.
 *
 * Order in buffers
 *
 *     Lines stand in the order of their numbers, line 0 first. The values of a row stand in the order
 *     of the harmonic orders, order 1 at place 0 and order 40 at place 39.
 *
 * Records
 *
 *     A record is 423 words that the caller keeps; the calls read and write them at the places below.
 *     It is sound if its system is 10 or 12, its edition is 0 or 1, it holds at most 45,000 windows (2.5
 *     hours), no sum is above windows * (2^32 - 1), no smoothed value and no peak is above 2^32 - 1, with
 *     no window all smoothed values, sums and peaks are 0, and of the latest rows every value is 0 where
 *     no row has come yet (is_sound, crates/records/specs/Soundness.antt). A record that the calls made
 *     stays sound; any other 423 words may be handed over, and are judged by this alone.
 *
 *     The latest rows are those of the latest 15 windows, each as it was added: 600 values of 32 bits, two
 *     in a word. A new row is put where the oldest stood, and nothing is moved. With the windows counted
 *     from 0, the value of order h of window n is number v = 40 * (n mod 15) + h - 1 of the 600, and value
 *     number v stands in word 123 + v / 2, in its lower 32 bits where v is even, in its upper 32 where v
 *     is odd (row_place, crates/latest_rows/specs/Latest.antt, and packed,
 *     crates/record_words/specs/Halves.antt):
 *
 *         word    lower 32 bits          upper 32 bits
 *         123     window 0, order 1      window 0, order 2
 *         142     window 0, order 39     window 0, order 40
 *         143     window 1, order 1      window 1, order 2
 *         422     window 14, order 39    window 14, order 40
 *         123     window 15, order 1     window 15, order 2, in the place of window 0
 *
 *     In a sound record any value may stand where a row has come, and with fewer than 15 windows the words
 *     from 123 + 20 * windows on are 0.
 *
 * Memory and threads
 *
 *     The caller owns every buffer and lends it for the call; nothing is kept, nothing is allocated.
 *     A pointer with a length stands for so many elements, aligned for their type; lengths have 64
 *     bits on every board. A buffer that a call writes must overlap no other argument of that call. No
 *     pointer may be null; a length may be 0. The calls share no state, so any threads may call at the
 *     same time on buffers of their own. What the proofs assume of a caller is this paragraph and
 *     nothing else.
 *
 * Refusals
 *
 *     Each function returns KIFSANG_NO_REFUSAL where it accepts the call, or the number of the first
 *     fault, in the order listed with it. A refused call leaves every buffer as it was, so look at the
 *     number before the buffer. No verdict has the number 0. docs/REFUSALS.md has the checks of all
 *     calls in one table.
 *
 * Linking
 *
 *     With libkifsang.a, which `make` proves and writes to target/staticlib, for x86-64 Linux.
 *
 * "Definition" names what the result is proved to equal, and the file that has it. "Proved error" names
 * a theorem about these very functions: exported-demand3 speaks of what they leave in the caller's
 * buffers, after any calls in any order, refused ones included (ExportedDemand3Holds,
 * crates/exported_accuracy/specs/Claim.antt).
 */
#ifndef KIFSANG_H
#define KIFSANG_H

#include <stdint.h>

#ifdef __cplusplus
extern "C" {
#endif

/* Lengths, the unit, and the largest arguments. */
#define KIFSANG_WINDOW_LENGTH 2048      /* samples in a window */
#define KIFSANG_LINE_COUNT 512          /* lines of a spectrum */
#define KIFSANG_LINE_LIMIT 1024         /* the numbers of lines are below it */
#define KIFSANG_PANEL_LINES 13          /* lines of the panel's buffer: the most that a group has */
#define KIFSANG_ORDER_COUNT 40          /* values of a row: the orders 1..40 */
#define KIFSANG_UNITS_PER_COUNT 4096    /* units in a sample count */
#define KIFSANG_LARGEST_SAMPLE 131071   /* the largest size of a sample, in counts */
#define KIFSANG_LARGEST_SCALE 268435456 /* the most units per ampere, 2^28 */
#define KIFSANG_MOST_WINDOWS 45000      /* the most windows of a record */
#define KIFSANG_COLUMN_WIDTH 8          /* bytes of a number column */
#define KIFSANG_LISTING_ROOM 1640       /* bytes that a listing may need */
#define KIFSANG_SMOOTHED_MARGIN 12      /* units either way of a limit in which a verdict is close */
#define KIFSANG_PEAK_PERCENT 150        /* per cent of the limit, for the peak of an order */
#define KIFSANG_THREE_SECOND_WINDOWS 15 /* windows of a three-second value: the rows that a record keeps */

/* The places of a record's parts among its words. Those of the smoothed values, sums and peaks are the first
 * of 40 places each, that of the latest rows is the first of 300 with two values in a word. */
#define KIFSANG_SYSTEM_PLACE 0
#define KIFSANG_EDITION_PLACE 1
#define KIFSANG_WINDOWS_PLACE 2
#define KIFSANG_SMOOTHED_PLACE 3
#define KIFSANG_SUM_PLACE (KIFSANG_SMOOTHED_PLACE + KIFSANG_ORDER_COUNT)
#define KIFSANG_PEAK_PLACE (KIFSANG_SUM_PLACE + KIFSANG_ORDER_COUNT)
#define KIFSANG_LATEST_PLACE (KIFSANG_PEAK_PLACE + KIFSANG_ORDER_COUNT)
#define KIFSANG_RECORD_WORDS (KIFSANG_LATEST_PLACE + KIFSANG_THREE_SECOND_WINDOWS * KIFSANG_ORDER_COUNT / 2)

/* Why a call was refused. */
enum kifsang_refusal {
    KIFSANG_NO_REFUSAL = 0,           /* the call was accepted */
    KIFSANG_UNKNOWN_SYSTEM = 1,       /* the system is neither 10 nor 12 */
    KIFSANG_SHORT_WINDOW = 2,         /* fewer than 2,048 samples from the start */
    KIFSANG_SAMPLE_OUT_OF_RANGE = 3,  /* a sample of the window is outside -131071..131071 */
    KIFSANG_WRONG_LINE_COUNT = 4,     /* not 512 lines (13 for the panel's row), or lines past number 1023 */
    KIFSANG_LINE_TOO_LARGE = 5,       /* a line above 2^59 */
    KIFSANG_ORDER_OUT_OF_RANGE = 6,   /* an order outside the orders of the call */
    KIFSANG_UNSOUND_RECORD = 7,       /* words that are not a sound record */
    KIFSANG_OTHER_SETUP = 8,          /* a row whose system or edition is not the record's */
    KIFSANG_RECORD_FULL = 9,          /* the record holds 45,000 windows */
    KIFSANG_NO_WINDOW = 10,           /* the record holds no window yet */
    KIFSANG_SCALE_OUT_OF_RANGE = 11,  /* units per ampere outside 1..2^28 */
    KIFSANG_NO_FUNDAMENTAL = 12,      /* the value of order 1 is 0 */
    KIFSANG_NOT_A_COLUMN = 13,        /* no number column, or a number wider than its column */
    KIFSANG_WRONG_BUFFER_LENGTH = 14, /* a text buffer of the wrong length */
    KIFSANG_UNKNOWN_CLASS = 15,       /* a class letter other than A or B */
    KIFSANG_UNKNOWN_EDITION = 19,     /* the edition is neither 0 nor 1 */
    KIFSANG_TOO_FEW_WINDOWS = 20,     /* the record holds fewer than 15 windows */
    KIFSANG_UNKNOWN_KIND = 101,       /* a number that stands for no kind */
    KIFSANG_WRONG_WORD_COUNT = 102    /* not 40 words for a row, or not 423 for a record */
};

/* The editions of IEC 61000-4-7. */
enum kifsang_edition {
    KIFSANG_EDITION_2 = 0,
    KIFSANG_EDITION_A1 = 1 /* edition 2 with its amendment A1 */
};

/* Which lines a group has. */
enum kifsang_kind {
    KIFSANG_COMPONENT = 0,
    KIFSANG_HARMONIC_GROUP = 1,
    KIFSANG_HARMONIC_SUBGROUP = 2,
    KIFSANG_INTERHARMONIC_GROUP = 3,
    KIFSANG_INTERHARMONIC_CENTRED_SUBGROUP = 4
};

/* The letters of the classes of equipment, bytes of ASCII. Every other byte is refused, small letters too;
 * any other integer is cut to its low byte by the compiler, before the call: 321 and -191 are A. */
enum kifsang_class {
    KIFSANG_CLASS_A = 65, /* 'A' */
    KIFSANG_CLASS_B = 66  /* 'B': portable tools */
};

/* How an order stands to its limit. 0 is none of them: a variable that was zeroed, and that a refused
 * call left as it was, is no verdict. */
enum kifsang_verdict_number {
    KIFSANG_WITHIN = 1,
    KIFSANG_CLOSE = 2,
    KIFSANG_OVER = 3
};

/* A record is 423 words. */
typedef char kifsang_assert_record_of_423_words[KIFSANG_RECORD_WORDS == 423 ? 1 : -1];

/*
 * Works out the spectral lines of a window.
 *
 *   recording         in    recording_length samples, in counts; only the window is looked at
 *   recording_length  in    samples of the recording, any
 *   start             in    the place of the window's first sample, any
 *   lines             out   line_count lines
 *   line_count        in    512
 *
 * Refusals: 2 fewer than 2,048 samples from the start; 4 line_count is not 512; 3 a sample of the
 *   window outside -131071..131071. A refused call leaves the lines as they were.
 * Proved error: A and B of each line are each at most 3/4 from those with the exact cosine and sine,
 *   unrounded (cosine-sum-near and sine-sum-near, crates/spectral_lines/proofs/Distance.antt).
 * Definition: spectrum_refusal and spectrum_exit, crates/spectrum/specs/Spectrum.antt.
 */
uint32_t kifsang_spectrum(const int32_t *recording, uint64_t recording_length, uint64_t start,
                          uint64_t *lines, uint64_t line_count);

/*
 * Works out the spectral lines first, first + 1, .. of a window, as many as the buffer holds: the lines
 * of one group alone, say, or those above 511. Each is what the formulas say for its number, so those
 * below 512 are kifsang_spectrum's.
 *
 *   recording         in    recording_length samples, in counts; only the window is looked at
 *   recording_length  in    samples of the recording, any
 *   start             in    the place of the window's first sample, any
 *   first             in    the number of the first line, 0..1024
 *   lines             out   line_count lines
 *   line_count        in    0..1024 - first; where it is 0 nothing is written
 *
 * Refusals: 2 fewer than 2,048 samples from the start; 4 first + line_count is above 1024, line 1023
 *   being the last; 3 a sample of the window outside -131071..131071. A refused call leaves the lines
 *   as they were.
 * Proved error: that of kifsang_spectrum, for each line.
 * Definition: lines_from_refusal and lines_from_exit, crates/spectral_lines/specs/Calls.antt.
 */
uint32_t kifsang_lines_from(const int32_t *recording, uint64_t recording_length, uint64_t start,
                            uint64_t first, uint64_t *lines, uint64_t line_count);

/*
 * Works out one group value.
 *
 *   kind        in    0..4, an enum kifsang_kind
 *   system      in    10 or 12 cycles in the window
 *   edition     in    0 or 1, an enum kifsang_edition
 *   order       in    1..40
 *   lines       in    line_count lines, each at most 2^59
 *   line_count  in    512
 *   value       out   one number, in units, below 2^32
 *
 * Refusals: 101 no such kind; 1 system not 10 or 12; 19 edition not 0 or 1; 6 order outside 1..40; 4
 *   line_count is not 512; 5 a line above 2^59. A refused call leaves the value as it was.
 * Proved error: for the lines that kifsang_spectrum left for a window, the value is at most 7 units
 *   from the exact group of the edition (exported-demand3). What one bad sample of the window can do to
 *   it stands above.
 * Definition: group_call_refusal and group_call_exit, crates/exported_windows/specs/GroupCalls.antt.
 */
uint32_t kifsang_group_value(uint32_t kind, uint32_t system, uint32_t edition, uint32_t order,
                             const uint64_t *lines, uint64_t line_count, uint64_t *value);

/*
 * Works out the 40 group values of a kind, a row.
 *
 *   kind         in    0..4, an enum kifsang_kind
 *   system       in    10 or 12 cycles in the window
 *   edition      in    0 or 1, an enum kifsang_edition
 *   lines        in    line_count lines, each at most 2^59
 *   line_count   in    512
 *   values       out   value_count values, in units
 *   value_count  in    40
 *
 * Refusals: 101 no such kind; 102 value_count is not 40; 1 system not 10 or 12; 19 edition not 0 or 1;
 *   4 line_count is not 512; 5 a line above 2^59. A refused call leaves the values as they were.
 * Proved error: that of kifsang_group_value, for each order. For the lines that kifsang_spectrum left
 *   for a window, the row is one of those that kifsang_add_row speaks of (exported-demand3).
 * Definition: row_call_refusal and row_call_exit, crates/exported_windows/specs/GroupCalls.antt.
 */
uint32_t kifsang_row(uint32_t kind, uint32_t system, uint32_t edition, const uint64_t *lines,
                     uint64_t line_count, uint32_t *values, uint64_t value_count);

/*
 * Works out the row of the harmonic groups of a window with 13 lines in place of 512, for a front panel
 * with little memory: the very row that kifsang_spectrum and then kifsang_row, with kind 1 and the same
 * system and edition, would leave. It needs a seventh of the stack of kifsang_spectrum (docs/LINKING.md) and
 * takes several times as long as those two calls (bench/README.md).
 *
 *   recording         in    recording_length samples, in counts; only the window is looked at
 *   recording_length  in    samples of the recording, any
 *   start             in    the place of the window's first sample, any
 *   system            in    10 or 12 cycles in the window
 *   edition           in    0 or 1, an enum kifsang_edition
 *   lines             out   line_count lines to work in: what they held does not matter, and after an
 *                           accepted call all of them are 0
 *   line_count        in    13
 *   values            out   value_count values, in units
 *   value_count       in    40
 *
 * Refusals: 102 value_count is not 40; 1 system not 10 or 12; 19 edition not 0 or 1; 2 fewer than 2,048
 *   samples from the start; 4 line_count is not 13; 3 a sample of the window outside -131071..131071. A
 *   refused call leaves the lines and the values as they were.
 * Proved error: each value is at most 7 units from the exact group of the edition. The row is that of
 *   kifsang_spectrum and kifsang_row, which would not be refused either, so what is said of such a row holds
 *   of it (exported-demand3).
 * Definition: panel_refusal, panel_answer and panel_exit, crates/panel/specs/Panel.antt, and
 *   panel_call_refusal, panel_call_lines_exit and panel_call_values_exit,
 *   crates/exported_lines/specs/PanelCall.antt.
 */
uint32_t kifsang_panel_row(const int32_t *recording, uint64_t recording_length, uint64_t start,
                           uint32_t system, uint32_t edition, uint64_t *lines, uint64_t line_count,
                           uint32_t *values, uint64_t value_count);

/*
 * Works out the group distortion of a row: the largest whole t with t^2 * value[0]^2 at most 1000000
 * times the sum of the squares of value[1]..value[39].
 *
 *   values              in    value_count values, in units
 *   value_count         in    40
 *   parts_per_thousand  out   one number, in parts per thousand of the value of order 1, below 2^45
 *
 * Refusals: 102 value_count is not 40; 12 the value of order 1 is 0. A refused call leaves
 *   parts_per_thousand as it was.
 * Proved error: none, t is exact for the values that are given.
 * Definition: distortion_call_refusal and distortion_call_exit,
 *   crates/exported_windows/specs/GroupCalls.antt.
 */
uint32_t kifsang_distortion(const uint32_t *values, uint64_t value_count,
                            uint64_t *parts_per_thousand);

/*
 * Begins an observation: a record of a system and an edition with no window.
 *
 *   system        in    10 or 12 cycles in a window
 *   edition       in    0 or 1, an enum kifsang_edition
 *   record        out   record_words words, at the places above
 *   record_words  in    423
 *
 * Refusals: 102 record_words is not 423; 1 system not 10 or 12; 19 edition not 0 or 1. A refused call
 *   leaves the record as it was.
 * Proved error: none.
 * Definition: fresh_call_refusal and fresh_call_exit, crates/exported_records/specs/RecordCalls.antt.
 */
uint32_t kifsang_fresh_record(uint32_t system, uint32_t edition, uint64_t *record,
                              uint64_t record_words);

/*
 * Adds the row of one window to a record. The first row becomes the smoothed values; later
 * smoothed = (1000 * new + 7012 * old) / 8012, to the nearest, halves up. The smoothed values are
 * added to the sums, and the peaks become the greater of themselves and the smoothed values. The row
 * itself becomes one of the latest rows, from the 16th on in the place of the oldest.
 *
 *   record        inout  record_words words; any words may be handed over
 *   record_words  in     423
 *   system        in     the row's: 10 or 12 cycles in a window
 *   edition       in     the row's: 0 or 1, an enum kifsang_edition
 *   values        in     value_count values, in units
 *   value_count   in     40
 *
 * Refusals: 102 record_words is not 423 or value_count is not 40; 7 the record is not sound; 1 system
 *   not 10 or 12; 19 edition not 0 or 1; 8 another system or another edition than the record's; 9 the
 *   record holds 45,000 windows. A refused call leaves the record as it was.
 * Proved error: after any calls since a fresh record or an observation, where the rows that were added
 *   come from kifsang_spectrum and kifsang_row or, for kind 1, from kifsang_panel_row, all of one kind and
 *   with their own system and edition, each smoothed value is at most 12 units from the exact one
 *   (exported-demand3). What one bad sample of the row's window can do to it stands above.
 * Definition: add_row_call_refusal and add_row_call_exit, crates/exported_records/specs/RecordCalls.antt.
 */
uint32_t kifsang_add_row(uint64_t *record, uint64_t record_words, uint32_t system, uint32_t edition,
                         const uint32_t *values, uint64_t value_count);

/*
 * Observes windows that stand back to back: leaves the record after them, with the row of one kind of
 * each. It is what kifsang_fresh_record and then, for each window, kifsang_spectrum, kifsang_row and
 * kifsang_add_row would leave.
 *
 *   recording         in    recording_length samples, in counts; only the windows are looked at
 *   recording_length  in    samples of the recording, any
 *   start             in    the place of the first window's first sample, any
 *   windows           in    0..45000; 0 leaves a fresh record
 *   system            in    10 or 12 cycles in a window
 *   edition           in    0 or 1, an enum kifsang_edition
 *   kind              in    0..4, an enum kifsang_kind
 *   record            out   record_words words, at the places above
 *   record_words      in    423
 *
 * Refusals: 101 no such kind; 102 record_words is not 423; 1 system not 10 or 12; 19 edition not 0 or 1;
 *   then for each window in turn: 2 fewer than 2,048 samples from its start; 3 a sample of it outside
 *   -131071..131071; 9 45,000 windows are before it. A refused call leaves the record as it was.
 * Proved error: each smoothed value is at most 12 units from the exact one, and a verdict or a
 *   three-second value that is asked of the record keeps what kifsang_verdict or
 *   kifsang_three_second_value says of it (exported-demand3).
 * Definition: observe_answer, crates/observe/specs/Observe.antt, and observe_call_refusal and
 *   observe_call_exit, crates/exported_observe/specs/ObserveCall.antt.
 */
uint32_t kifsang_observe(const int32_t *recording, uint64_t recording_length, uint64_t start,
                         uint64_t windows, uint32_t system, uint32_t edition, uint32_t kind,
                         uint64_t *record, uint64_t record_words);

/*
 * Looks up the limit of an order in a class: the milliamperes r.m.s. up to which the average of the order
 * may go, as an exact fraction in lowest terms. Its peak may go up to KIFSANG_PEAK_PERCENT per cent of that.
 * It is to be printed or drawn; kifsang_verdict compares with the fraction itself, and a rounded quotient
 * is none.
 *
 *   order         in    2..40
 *   class_letter  in    'A' or 'B', an enum kifsang_class
 *   numerator     out   one number, at most 3450
 *   denominator   out   one number, 1..37; no number but 1 divides both
 *
 * Refusals: 6 order outside 2..40; 15 class_letter not A or B. A refused call leaves both numbers as
 *   they were.
 * Proved error: none, the fraction is exact.
 * Definition: limit_refusal, crates/limits/specs/Call.antt, and limit_numerator_exit and
 *   limit_denominator_exit, crates/exported_limits/specs/LimitCall.antt.
 */
uint32_t kifsang_limit(uint32_t order, uint8_t class_letter, uint64_t *numerator,
                       uint64_t *denominator);

/*
 * Judges an order against its limit in a class: the average of its smoothed values against the limit,
 * their peak against 150 % of it. A test is within if the value + 12 is at most its limit, over if the
 * value - 12 exceeds it, else close. The verdict is over if either test is, within if both are, else
 * close.
 *
 *   record            in    record_words words; any words may be handed over
 *   record_words      in    423
 *   order             in    2..40
 *   class_letter      in    'A' or 'B', an enum kifsang_class
 *   units_per_ampere  in    1..268435456, the units that one ampere r.m.s. gives
 *   verdict           out   one number, 1..3, an enum kifsang_verdict_number
 *
 * Refusals: 102 record_words is not 423; 7 the record is not sound; 10 no window yet; 6 order outside
 *   2..40; 15 class_letter not A or B; 11 units_per_ampere outside 1..2^28. A refused call leaves the
 *   verdict as it was.
 * Proved error: after calls as above, within and over hold for the exact average and peak too; close
 *   is given only where the average or the peak is at most 12 units from its limit (exported-demand3).
 * Definition: verdict_call_refusal and verdict_call_exit, crates/exported_judgements/specs/VerdictCall.antt.
 */
uint32_t kifsang_verdict(const uint64_t *record, uint64_t record_words, uint32_t order,
                         uint8_t class_letter, uint32_t units_per_ampere, uint32_t *verdict);

/*
 * Works out the three-second value of an order, that over 150 cycles at 50 Hz and 180 at 60 Hz: the largest
 * whole t with 15 * t^2 at most the sum of the squares of the order's values in the latest 15 rows. As a
 * window arrives the oldest leaves, so it may be asked after every window from the 15th on, or after every
 * 15th for values that share no window. Nothing is smoothed: the rows are taken as they were added.
 *
 *   record        in    record_words words; any words may be handed over
 *   record_words  in    423
 *   order         in    1..40
 *   value         out   one number, in units, below 2^32
 *
 * Refusals: 102 record_words is not 423; 7 the record is not sound; 6 order outside 1..40; 20 fewer than
 *   15 windows. A refused call leaves the value as it was.
 * Proved error: none for the rows that were added; after any calls since a fresh record or an observation,
 *   refused ones included, the value is that of the last 15 rows that were accepted. Where these come from
 *   kifsang_observe, from kifsang_spectrum and kifsang_row or, for kind 1, from kifsang_panel_row, all of one
 *   kind and with their own system and edition, it is at most 8 units from the exact one, whose square is a
 *   fifteenth of the sum of the squares of the 15 windows' exact groups: 15 * (t - 8)^2 <= that sum <=
 *   15 * (t + 8)^2, with 0 for t - 8 where t is below 8; what was added before them does not matter
 *   (exported-demand3).
 * Definition: three_second_of, crates/three_seconds/specs/ThreeSecond.antt, and three_second_call_refusal and
 *   three_second_call_exit, crates/exported_judgements/specs/ThreeSecondCall.antt.
 */
uint32_t kifsang_three_second_value(const uint64_t *record, uint64_t record_words, uint32_t order,
                                    uint64_t *value);

/*
 * Reads a number column: 8 bytes, right-justified, blanks before, a minus directly before the
 * digits, no leading zero but the single 0, no -0.
 *
 *   text         in    text_length bytes of ASCII, not terminated
 *   text_length  in    8
 *   number       out   one number, -9999999..99999999
 *
 * Refusals: 13 text_length is not 8, or the text is not of the form. A refused call leaves the number
 *   as it was.
 * Proved error: none.
 * Definition: column_read_answer, crates/columns/specs/Calls.antt, and column_call_exit,
 *   crates/exported_text/specs/ColumnCalls.antt.
 */
uint32_t kifsang_read_column(const uint8_t *text, uint64_t text_length, int64_t *number);

/*
 * Writes a number column, of the form that kifsang_read_column reads.
 *
 *   buffer         out   buffer_length bytes of ASCII, not terminated
 *   buffer_length  in    8
 *   number         in    -9999999..99999999
 *
 * Refusals: 14 buffer_length is not 8; 13 the number is wider than 8 bytes. A refused call leaves the
 *   buffer as it was.
 * Proved error: none.
 * Definition: column_write_refusal and column_write_exit, crates/columns/specs/Calls.antt.
 */
uint32_t kifsang_write_column(uint8_t *buffer, uint64_t buffer_length, int64_t number);

/*
 * Fills a buffer with the listing of three rows: a header, and a text line of 40 bytes for each order
 * of which a value is not 0, and for order 1 always. Bytes 1..3 of a text line hold the order, 4..15 the
 * group, 16..27 the subgroup, 28..39 the smoothed value, right-justified, and byte 40 a newline; the
 * header has the names h, group, subgroup and smoothed at these bytes.
 *
 *   group           in    group_count values of the harmonic groups, in units
 *   group_count     in    40
 *   subgroup        in    subgroup_count values of the harmonic subgroups, in units
 *   subgroup_count  in    40
 *   smoothed        in    smoothed_count smoothed values, in units
 *   smoothed_count  in    40
 *   buffer          out   buffer_length bytes of ASCII, not terminated; bytes after the listing stay
 *   buffer_length   in    1640 or more
 *   written         out   one number, the bytes of the listing, 80..1640
 *
 * Refusals: 102 one of the three counts is not 40; 14 buffer_length below 1640. A refused call leaves
 *   the buffer and written as they were.
 * Proved error: none.
 * Definition: listing_call_refusal, listing_call_exit and listing_call_count_exit,
 *   crates/exported_text/specs/ListingCall.antt.
 */
uint32_t kifsang_fill_listing(const uint32_t *group, uint64_t group_count, const uint32_t *subgroup,
                              uint64_t subgroup_count, const uint32_t *smoothed,
                              uint64_t smoothed_count, uint8_t *buffer, uint64_t buffer_length,
                              uint64_t *written);

#ifdef __cplusplus
}
#endif

#endif
