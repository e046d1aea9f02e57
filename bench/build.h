/* The calls of one build of the core, as calls.c times them: included for the core and, with -DBEFORE, once
 * more for the build before a change. It is told by six macros which build it speaks of. SIDE(name) is a
 * name of this program, CALL(name) a call of the build, NUMBER(name) a constant of its header; EDITION is
 * edition 2 and a comma, or nothing for a build whose calls take no edition; HAS_LATEST is 1 for a build whose
 * records keep the latest rows, and 0 for one that has no three-second value; HAS_PANEL is 1 for a build that
 * has the panel's row, and 0 for one that has not. */

static uint64_t SIDE(part)[PART];
static uint32_t SIDE(values)[ORDERS], SIDE(verdict_number);
static uint64_t SIDE(numbers)[2];
static uint64_t SIDE(record)[NUMBER(RECORD_WORDS)];
static uint64_t SIDE(observed)[NUMBER(RECORD_WORDS)], SIDE(one_by_one)[NUMBER(RECORD_WORDS)];
static unsigned char SIDE(text)[KIFSANG_LISTING_ROOM];

static void SIDE(line)(void)
{
    CALL(lines_from)(recording, SAMPLES, 0, FIRST, SIDE(part), 1);
}

static void SIDE(lines)(void)
{
    CALL(lines_from)(recording, SAMPLES, 0, FIRST, SIDE(part), PART);
}

static void SIDE(row)(void)
{
    CALL(row)(KIFSANG_HARMONIC_GROUP, SYSTEM, EDITION lines, LINES, SIDE(values), ORDERS);
}

#if HAS_PANEL
static struct panel SIDE(panel);

static void SIDE(panel_row)(void)
{
    CALL(panel_row)(recording, SAMPLES, 0, asked_system, EDITION SIDE(panel).lines, NUMBER(PANEL_LINES),
                    SIDE(panel).values, ORDERS);
}
#endif

static void SIDE(distortion)(void)
{
    CALL(distortion)(SIDE(values), ORDERS, SIDE(numbers));
}

static void SIDE(fresh_record)(void)
{
    CALL(fresh_record)(SYSTEM, EDITION SIDE(record), NUMBER(RECORD_WORDS));
}

static void SIDE(add_row)(void)
{
    CALL(add_row)(SIDE(record), NUMBER(RECORD_WORDS), SYSTEM, EDITION SIDE(values), ORDERS);
}

static void SIDE(limit)(void)
{
    CALL(limit)(39, asked_letter, &SIDE(numbers)[0], &SIDE(numbers)[1]);
}

static void SIDE(verdict)(void)
{
    CALL(verdict)(SIDE(observed), NUMBER(RECORD_WORDS), 3, asked_letter, SCALE, &SIDE(verdict_number));
}

#if HAS_LATEST
static void SIDE(three_second_value)(void)
{
    CALL(three_second_value)(SIDE(observed), NUMBER(RECORD_WORDS), 3, SIDE(numbers));
}
#endif

static void SIDE(fill_listing)(void)
{
    uint64_t written;
    CALL(fill_listing)(SIDE(values), ORDERS, SIDE(values), ORDERS, SIDE(values), ORDERS, SIDE(text),
                       KIFSANG_LISTING_ROOM, &written);
}

static void SIDE(observe)(void)
{
    CALL(observe)(recording, WINDOWS * SAMPLES, 0, WINDOWS, SYSTEM, EDITION KIFSANG_HARMONIC_GROUP, SIDE(observed),
                  NUMBER(RECORD_WORDS));
}

static void SIDE(observe_one_by_one)(void)
{
    static uint64_t from[LINES];
    static uint32_t row[ORDERS];
    CALL(fresh_record)(SYSTEM, EDITION SIDE(one_by_one), NUMBER(RECORD_WORDS));
    for (uint64_t i = 0; i < WINDOWS; i++) {
        CALL(spectrum)(recording, WINDOWS * SAMPLES, i * SAMPLES, from, LINES);
        CALL(row)(KIFSANG_HARMONIC_GROUP, SYSTEM, EDITION from, LINES, row, ORDERS);
        CALL(add_row)(SIDE(one_by_one), NUMBER(RECORD_WORDS), SYSTEM, EDITION row, ORDERS);
    }
}

static const struct side SIDE(sides)[CALLS] = {
    [LINE] = {SIDE(line), SIDE(part), sizeof SIDE(part)[0]},
    [PART_OF_LINES] = {SIDE(lines), SIDE(part), sizeof SIDE(part)},
    [ROW] = {SIDE(row), SIDE(values), sizeof SIDE(values)},
#if HAS_PANEL
    [PANEL_ROW] = {SIDE(panel_row), &SIDE(panel), sizeof SIDE(panel)},
#endif
    [DISTORTION] = {SIDE(distortion), SIDE(numbers), sizeof SIDE(numbers)[0]},
    [FRESH_RECORD] = {SIDE(fresh_record), FROM(SIDE(record), NUMBER(WINDOWS_PLACE))},
    [ADD_ROW] = {SIDE(add_row), FROM(SIDE(record), NUMBER(WINDOWS_PLACE))},
    [OBSERVE] = {SIDE(observe), FROM(SIDE(observed), NUMBER(WINDOWS_PLACE))},
    [ONE_BY_ONE] = {SIDE(observe_one_by_one), FROM(SIDE(one_by_one), NUMBER(WINDOWS_PLACE))},
    [LIMIT] = {SIDE(limit), SIDE(numbers), sizeof SIDE(numbers)},
    [VERDICT] = {SIDE(verdict), &SIDE(verdict_number), sizeof SIDE(verdict_number)},
#if HAS_LATEST
    [THREE_SECOND_VALUE] = {SIDE(three_second_value), SIDE(numbers), sizeof SIDE(numbers)[0]},
#endif
    [FILL_LISTING] = {SIDE(fill_listing), SIDE(text), sizeof SIDE(text)},
};

#undef SIDE
#undef CALL
#undef NUMBER
#undef EDITION
#undef HAS_LATEST
#undef HAS_PANEL
