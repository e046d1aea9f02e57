/* The work of harmlist in plain C, for valid input: the comparison of bench/run. Reads a recording from
 * standard input and writes its listing. The one argument says how the lines are worked out: "direct", by
 * both sums in one loop, or "folded". */
#include "plain.h"

#include <stdio.h>

#define LINE_BYTES 9

static int32_t samples[SAMPLES];
static uint64_t lines[LINES], smoothed[ORDERS];
static uint32_t group[ORDERS], subgroup[ORDERS];

static int32_t number_on(const char *line)
{
    int at = 0, minus = 0;
    int32_t value = 0;
    while (line[at] == ' ')
        at++;
    if (line[at] == '-') {
        minus = 1;
        at++;
    }
    for (; at < 8; at++)
        value = 10 * value + (line[at] - '0');
    return minus ? -value : value;
}

static void fill_groups(int system)
{
    for (int h = 1; h <= ORDERS; h++) {
        int centre = system * h;
        group[h - 1] = harmonic_group(lines, system, h);
        subgroup[h - 1] = whole_root(2 * (lines[centre - 1] + lines[centre] + lines[centre + 1]));
    }
}

int main(int count, char **words)
{
    static char block[LINE_BYTES * SAMPLES];
    char first[LINE_BYTES];
    int windows = 0, fold_first = count == 2 && strcmp(words[1], "folded") == 0;
    if (!fold_first && (count != 2 || strcmp(words[1], "direct") != 0)) {
        fputs("usage: harmlist direct|folded\n", stderr);
        return 2;
    }
    fill_waves();
    if (fread(first, 1, LINE_BYTES, stdin) != LINE_BYTES)
        return 1;
    int system = number_on(first);
    while (fread(block, 1, sizeof block, stdin) == sizeof block) {
        for (int j = 0; j < SAMPLES; j++)
            samples[j] = number_on(block + LINE_BYTES * j);
        if (fold_first)
            folded(samples, 0, lines, LINES);
        else
            one_loop(samples, 0, lines, LINES);
        fill_groups(system);
        for (int i = 0; i < ORDERS; i++)
            smoothed[i] = windows == 0 ? group[i] : (1000 * (uint64_t)group[i] + 7012 * smoothed[i] + 4006) / 8012;
        windows++;
    }
    puts("  h       group    subgroup    smoothed");
    for (int i = 0; i < ORDERS; i++)
        if (i == 0 || group[i] != 0 || subgroup[i] != 0 || smoothed[i] != 0)
            printf("%3d%12u%12u%12u\n", i + 1, group[i], subgroup[i], (unsigned)smoothed[i]);
    return 0;
}
