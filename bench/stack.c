/* The stack that each call of the core takes, below the caller's frame: on a thread with a stack of
 * our own, the bytes below the frame are painted, the call is made, and the changed ones counted.
 * The caller's own frame, up to 160 bytes, is counted with them. */
#define _GNU_SOURCE
#include "kifsang.h"

#include <pthread.h>
#include <stdio.h>

#define STACK (1 << 20)

static unsigned char stack[STACK] __attribute__((aligned(4096)));
static int32_t window[KIFSANG_WINDOW_LENGTH];
static uint64_t lines[KIFSANG_LINE_COUNT], record[KIFSANG_RECORD_WORDS], number, other_number;
static uint64_t record_of_15[KIFSANG_RECORD_WORDS]; /* windows, as a three-second value wants them */
static uint64_t panel_lines[KIFSANG_PANEL_LINES];
static uint32_t row[KIFSANG_ORDER_COUNT], panel[KIFSANG_ORDER_COUNT], verdict;
static unsigned char text[KIFSANG_LISTING_ROOM];
static int64_t signed_number;

static void spectrum(void) { kifsang_spectrum(window, KIFSANG_WINDOW_LENGTH, 0, lines, KIFSANG_LINE_COUNT); }
static void lines_from(void) { kifsang_lines_from(window, KIFSANG_WINDOW_LENGTH, 0, 45, lines, 13); }
static void group_value(void)
{
    kifsang_group_value(1, 10, KIFSANG_EDITION_2, 3, lines, KIFSANG_LINE_COUNT, &number);
}
static void whole_row(void)
{
    kifsang_row(1, 10, KIFSANG_EDITION_2, lines, KIFSANG_LINE_COUNT, row, KIFSANG_ORDER_COUNT);
}
static void panel_row(void)
{
    kifsang_panel_row(window, KIFSANG_WINDOW_LENGTH, 0, 12, KIFSANG_EDITION_2, panel_lines, KIFSANG_PANEL_LINES,
                      panel, KIFSANG_ORDER_COUNT);
}
static void distortion(void) { kifsang_distortion(row, KIFSANG_ORDER_COUNT, &number); }
static void fresh_record(void) { kifsang_fresh_record(10, KIFSANG_EDITION_2, record, KIFSANG_RECORD_WORDS); }
static void add_row(void)
{
    kifsang_add_row(record, KIFSANG_RECORD_WORDS, 10, KIFSANG_EDITION_2, row, KIFSANG_ORDER_COUNT);
}
static void observe(void)
{
    kifsang_observe(window, KIFSANG_WINDOW_LENGTH, 0, 1, 10, KIFSANG_EDITION_2, 1, record, KIFSANG_RECORD_WORDS);
}
static void limit(void) { kifsang_limit(39, KIFSANG_CLASS_B, &number, &other_number); }
static void judge(void) { kifsang_verdict(record, KIFSANG_RECORD_WORDS, 3, KIFSANG_CLASS_B, 1000000, &verdict); }
static void three_second_value(void)
{
    kifsang_three_second_value(record_of_15, KIFSANG_RECORD_WORDS, 3, &number);
}
static void read_column(void) { kifsang_read_column(text, KIFSANG_COLUMN_WIDTH, &signed_number); }
static void write_column(void) { kifsang_write_column(text, KIFSANG_COLUMN_WIDTH, -7); }
static void fill_listing(void)
{
    kifsang_fill_listing(row, KIFSANG_ORDER_COUNT, row, KIFSANG_ORDER_COUNT, row, KIFSANG_ORDER_COUNT, text,
                         KIFSANG_LISTING_ROOM, &number);
}

static size_t used;

__attribute__((noinline)) static void *run(void *call)
{
    unsigned char *frame = (unsigned char *)__builtin_frame_address(0) - 160;
    unsigned char *at;
    for (at = stack; at < frame; at++)
        *(volatile unsigned char *)at = 0xA5;
    (*(void (**)(void))call)();
    for (at = stack; at < frame && *(volatile unsigned char *)at == 0xA5; at++)
        ;
    used = (size_t)(frame + 160 - at);
    return NULL;
}

static size_t taken(void (*call)(void))
{
    pthread_attr_t attributes;
    pthread_t thread;
    pthread_attr_init(&attributes);
    pthread_attr_setstack(&attributes, stack, STACK);
    pthread_create(&thread, &attributes, run, &call);
    pthread_join(thread, NULL);
    return used;
}

int main(void)
{
    static const struct {
        const char *name;
        void (*call)(void);
    } calls[] = {
        {"spectrum", spectrum},         {"lines_from", lines_from},     {"group_value", group_value},
        {"row", whole_row},             {"panel_row", panel_row},       {"distortion", distortion},
        {"fresh_record", fresh_record}, {"add_row", add_row},           {"observe", observe},
        {"limit", limit},               {"verdict", judge},             {"three_second_value", three_second_value},
        {"write_column", write_column}, {"read_column", read_column},   {"fill_listing", fill_listing},
    };
    for (int i = 0; i < KIFSANG_WINDOW_LENGTH; i++)
        window[i] = i % 97 * 1000 - 48000;
    for (int i = 0; i < KIFSANG_ORDER_COUNT; i++)
        row[i] = UINT32_MAX;
    kifsang_fresh_record(10, KIFSANG_EDITION_2, record_of_15, KIFSANG_RECORD_WORDS);
    for (int i = 0; i < KIFSANG_THREE_SECOND_WINDOWS; i++)
        kifsang_add_row(record_of_15, KIFSANG_RECORD_WORDS, 10, KIFSANG_EDITION_2, row, KIFSANG_ORDER_COUNT);
    for (size_t i = 0; i < sizeof calls / sizeof calls[0]; i++) {
        taken(calls[i].call); /* the first run also binds symbols */
        printf("%-18s at most %5zu bytes of stack\n", calls[i].name, taken(calls[i].call));
    }
    return 0;
}
