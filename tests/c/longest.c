/* kifsang_observe at its longest: 45,000 windows are observed, and window 45,001 is refused with 2 where
 * it is short, with 3 where a sample of it is out of range, and else with 9. The record is compared with
 * that of kifsang_add_row for each window, its latest rows and its three-second values with the rows
 * themselves. tests/long runs this, which takes minutes.
 *
 * 64 windows are kept in a file and mapped one after the other as often as needed, so that 369 MB of
 * samples take half a megabyte. */
#define _DEFAULT_SOURCE
#include "kifsang.h"

#include <inttypes.h>
#include <stdio.h>
#include <stdlib.h>
#include <string.h>
#include <sys/mman.h>

#define SYSTEM 12
#define EDITION KIFSANG_EDITION_A1
#define KIND KIFSANG_HARMONIC_GROUP
#define BLOCK_WINDOWS 64
#define BLOCKS 704 /* 45,056 windows */
#define BLOCK_SAMPLES (BLOCK_WINDOWS * 2048)
#define BEFORE 0x5A5A5A5A

static const uint64_t windows = 45000, full = 45000 * 2048;

static void same(const char *what, uint64_t found, uint64_t expected)
{
    if (found == expected)
        return;
    printf("%s: %" PRIu64 " in place of %" PRIu64 "\n", what, found, expected);
    exit(1);
}

/* Noise that is louder in each window than in the one before. */
static void fill(int32_t block[BLOCK_SAMPLES])
{
    uint64_t state = 88172645463325252u;
    for (int32_t i = 0; i < BLOCK_SAMPLES; i++) {
        state ^= state << 13;
        state ^= state >> 7;
        state ^= state << 17;
        block[i] = ((int32_t)(state % 4001) - 2000) * (i / 2048 + 1);
    }
}

/* The block again and again; a sample that is written is written in one place only. */
static int32_t *recording_of(const int32_t block[BLOCK_SAMPLES])
{
    size_t bytes = BLOCK_SAMPLES * sizeof *block;
    FILE *file = tmpfile();
    char *all = mmap(NULL, BLOCKS * bytes, PROT_NONE, MAP_PRIVATE | MAP_ANONYMOUS | MAP_NORESERVE, -1, 0);
    same("a file of the block", file != NULL && fwrite(block, bytes, 1, file) == 1 && fflush(file) == 0, 1);
    same("room for the recording", all != MAP_FAILED, 1);
    for (size_t i = 0; i < BLOCKS; i++) {
        void *place = mmap(all + i * bytes, bytes, PROT_READ | PROT_WRITE, MAP_PRIVATE | MAP_FIXED, fileno(file), 0);
        same("the block at its place", place != MAP_FAILED, 1);
    }
    return (int32_t *)all;
}

/* The latest rows of a record of 45,000 windows, a multiple of 15, are the last 15 in their order, two values in
 * a word; and the three-second value of each order is the largest t with 15 * t^2 at most the sum of the squares.
 * The values of the block are small enough for 64 bits. */
static void three_seconds(uint32_t rows[BLOCK_WINDOWS][40], const uint64_t record[423])
{
    for (uint32_t order = 1; order <= 40; order++) {
        uint64_t sum = 0, t = BEFORE;
        for (uint64_t i = 0; i < 15; i++) {
            uint64_t value = rows[(windows - 15 + i) % BLOCK_WINDOWS][order - 1], place = 40 * i + order - 1;
            same("a value in the latest rows", record[123 + place / 2] >> (32 * (place % 2)) & UINT32_MAX, value);
            same("a value below 2^29", value >> 29, 0);
            sum += value * value;
        }
        same("three-second value", kifsang_three_second_value(record, 423, order, &t), 0);
        same("a three-second value below 2^29", t >> 29, 0);
        same("a three-second value that is not too large", 15 * t * t <= sum, 1);
        same("a three-second value that is not too small", sum < 15 * (t + 1) * (t + 1), 1);
    }
}

/* The record by the calls one by one, with the row of each window of the block worked out once. */
static void chain(const int32_t block[BLOCK_SAMPLES], uint64_t record[423])
{
    static uint32_t rows[BLOCK_WINDOWS][40];
    for (uint64_t i = 0; i < BLOCK_WINDOWS; i++) {
        uint64_t lines[512];
        same("spectrum", kifsang_spectrum(block, BLOCK_SAMPLES, i * 2048, lines, 512), 0);
        same("row", kifsang_row(KIND, SYSTEM, EDITION, lines, 512, rows[i], 40), 0);
    }
    same("fresh record", kifsang_fresh_record(SYSTEM, EDITION, record, 423), 0);
    for (uint64_t i = 0; i < windows; i++)
        same("add row", kifsang_add_row(record, 423, SYSTEM, EDITION, rows[i % BLOCK_WINDOWS], 40), 0);
    same("add row to a full record", kifsang_add_row(record, 423, SYSTEM, EDITION, rows[0], 40), 9);
    three_seconds(rows, record);
}

static void refuse(const char *what, const int32_t *recording, uint64_t length, uint32_t number)
{
    uint64_t record[423];
    for (int i = 0; i < 423; i++)
        record[i] = BEFORE;
    same(what, kifsang_observe(recording, length, 0, windows + 1, SYSTEM, EDITION, KIND, record, 423), number);
    for (int i = 0; i < 423; i++)
        same(what, record[i], BEFORE);
}

int main(void)
{
    static int32_t block[BLOCK_SAMPLES];
    uint64_t record[423], chained[423];
    fill(block);
    int32_t *recording = recording_of(block);
    same("45,000 windows", kifsang_observe(recording, full, 0, windows, SYSTEM, EDITION, KIND, record, 423), 0);
    chain(block, chained);
    same("the edition", record[1], 1);
    same("the count of windows", record[2], 45000);
    for (int i = 0; i < 423; i++)
        same("the record of the calls one by one", record[i], chained[i]);
    refuse("window 45,001 short", recording, full + 2047, 2);
    refuse("window 45,001 whole", recording, full + 2048, 9);
    recording[full + 2047] = 131072;
    refuse("window 45,001 out of range", recording, full + 2048, 3);
    puts("45,000 windows observed as by the calls one by one, window 45,001 refused with 2, 3 and 9");
    return 0;
}
