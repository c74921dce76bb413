/* sitankulo_clear_run, held to one sitankulo_clear_step after another. */
#include "check.h"

#include <string.h>

enum { MOST = 64 };

struct terms {
    uint8_t pins, reset;
    uint64_t start, limit;
    size_t budget;
};

struct tape {
    uint64_t clocks[MOST];
    uint8_t levels[MOST];
    size_t length;
};

struct run {
    uint8_t clear[SITANKULO_CLEAR_SIZE];
    uint8_t changes[2 * MOST + 2];
    uint8_t report[SITANKULO_REPORT_SIZE];
    size_t count;
    uint32_t ending;
};

/* Document 01, "A run over a tape". */
static struct run run_of(const uint8_t *clear, struct terms terms, const struct tape *tape) {
    struct run run;
    size_t polls = 0;
    memcpy(run.clear, clear, sizeof run.clear);
    run.count = 0;
    for (;;) {
        uint32_t answer;
        if (polls == terms.budget) {
            run.ending = SITANKULO_SPENT;
            break;
        }
        if (polls == tape->length) {
            run.ending = SITANKULO_TAPE_OVER;
            break;
        }
        answer = sitankulo_clear_step(run.clear, sizeof run.clear, terms.pins, tape->clocks[polls], tape->levels[polls],
                                      run.changes + run.count, 2);
        if (SITANKULO_NUMBER(answer) == SITANKULO_CLOCK_RANGE) {
            run.ending = SITANKULO_CLOCK_ENDED;
            break;
        }
        run.count += SITANKULO_DETAIL(answer);
        polls++;
        if (SITANKULO_NUMBER(answer) == 0) {
            run.ending = 0;
            break;
        }
        if (tape->clocks[polls - 1] >= terms.start && tape->clocks[polls - 1] - terms.start > terms.limit) {
            run.ending = SITANKULO_GIVEN_UP;
            break;
        }
    }
    if (terms.pins) {
        run.changes[run.count++] = SITANKULO_SCL_HIGH;
        run.changes[run.count++] = SITANKULO_SDA_HIGH;
    }
    put_time(polls, run.report);
    put_time(run.count, run.report + 8);
    run.report[16] = terms.pins && terms.reset;
    return run;
}

static void ask(const uint8_t *clear, struct terms terms, const struct tape *tape, size_t changes_room, size_t report_room) {
    struct run run = run_of(clear, terms, tape);
    struct lent record = lend_bytes(clear, SITANKULO_CLEAR_SIZE), changes = lend(changes_room), report = lend(report_room);
    struct lent levels = lend_bytes(tape->levels, tape->length);
    uint32_t expected = SITANKULO_ROOM;
    if (run.count <= changes_room && report_room >= SITANKULO_REPORT_SIZE) {
        expect(&record, 0, run.clear, sizeof run.clear);
        expect(&changes, 0, run.changes, run.count);
        expect(&report, 0, run.report, sizeof run.report);
        expected = run.ending;
    }
    CHECK_ANSWER(expected, sitankulo_clear_run(record.at, record.size, terms.pins, terms.reset, terms.start, terms.limit, terms.budget,
                                               tape->clocks, tape->length, levels.at, levels.size, changes.at, changes_room, report.at,
                                               report_room));
    TAKE_BACK(&record);
    TAKE_BACK(&changes);
    TAKE_BACK(&report);
    TAKE_BACK(&levels);
}

/* Every room around the one that is needed. */
static void ask_in_every_room(const uint8_t *clear, struct terms terms, const struct tape *tape) {
    size_t needed = run_of(clear, terms, tape).count, room;
    for (room = needed > 0 ? needed - 1 : 0; room <= needed + 1; room++) {
        ask(clear, terms, tape, room, SITANKULO_REPORT_SIZE - 1);
        ask(clear, terms, tape, room, SITANKULO_REPORT_SIZE);
        ask(clear, terms, tape, room, SITANKULO_REPORT_SIZE + 1);
    }
}

/* A tape of clocks so far apart, on which SDA is let go after so many samples. */
static struct tape tape_of(size_t length, uint64_t first, uint64_t apart, size_t held, uint8_t high) {
    struct tape tape;
    size_t i;
    tape.length = length;
    for (i = 0; i < MOST; i++) {
        tape.clocks[i] = first + apart * i;
        tape.levels[i] = i < held ? 0 : high;
    }
    return tape;
}

static void test_endings(void) {
    static const size_t lengths[] = {0, 1, 5, 21, MOST}, budgets[] = {0, 1, 4, 5, 6, SIZE_MAX}, held[] = {0, 1, 3, MOST};
    static const uint64_t limits[] = {0, 4, 5, 50, UINT64_MAX}, starts[] = {0, 100, 101, 500};
    static const uint8_t flags[][2] = {{0, 0}, {0, 1}, {1, 0}, {1, 1}, {2, 128}, {255, 255}};
    uint8_t clear[SITANKULO_CLEAR_SIZE], changes[2];
    struct terms terms;
    struct tape tape;
    size_t l, b, h, m, s, f;
    for (f = 0; f < sizeof flags / sizeof *flags; f++) {
        for (l = 0; l < 5; l++) {
            for (b = 0; b < 6; b++) {
                for (h = 0; h < 4; h++) {
                    for (m = 0; m < 5; m++) {
                        for (s = 0; s < 4; s++) {
                            terms.pins = flags[f][0];
                            terms.reset = flags[f][1];
                            terms.start = starts[s];
                            terms.limit = limits[m];
                            terms.budget = budgets[b];
                            tape = tape_of(lengths[l], 100, 3, held[h], (uint8_t)(1 + h));
                            sitankulo_clear_fresh(clear, sizeof clear, terms.pins, 100, changes, sizeof changes);
                            ask_in_every_room(clear, terms, &tape);
                        }
                    }
                }
            }
        }
    }
}

/* A poll that would exceed 64 bits ends the run, is not counted, and leaves the clear as the last poll did. */
static void test_clock_ends(void) {
    static const struct terms terms = {1, 1, 0, UINT64_MAX, SIZE_MAX};
    struct tape tape = tape_of(20, UINT64_MAX - 30, 6, MOST, 0);
    uint8_t clear[SITANKULO_CLEAR_SIZE], changes[2];
    tape.clocks[5] = UINT64_MAX;
    sitankulo_clear_fresh(clear, sizeof clear, 1, UINT64_MAX - 30, changes, sizeof changes);
    CHECK(run_of(clear, terms, &tape).ending == SITANKULO_CLOCK_ENDED);
    ask_in_every_room(clear, terms, &tape);
}

/* A tape is as long as the shorter of its slices, which may overlap and be null where they are empty. */
static void test_tapes(void) {
    static const struct terms terms = {1, 0, 0, UINT64_MAX, 5};
    struct tape tape = tape_of(3, 0, 5, MOST, 0);
    uint8_t clear[SITANKULO_CLEAR_SIZE], changes[4 * MOST], report[SITANKULO_REPORT_SIZE], polls[8];
    size_t clocks, levels;
    for (clocks = 0; clocks <= 7; clocks++) {
        for (levels = 0; levels <= 7; levels++) {
            size_t shorter = clocks < levels ? clocks : levels;
            uint32_t ending = shorter < 5 ? SITANKULO_TAPE_OVER : SITANKULO_SPENT;
            put_time(shorter < 5 ? shorter : 5, polls);
            sitankulo_clear_fresh(clear, sizeof clear, 1, 0, changes, sizeof changes);
            CHECK_ANSWER(ending, sitankulo_clear_run(clear, sizeof clear, 1, 0, 0, terms.limit, 5, clocks ? tape.clocks : NULL, clocks,
                                                     levels ? tape.levels : NULL, levels, changes, sizeof changes, report, sizeof report));
            CHECK(memcmp(report, polls, 8) == 0);
        }
    }
    memset(tape.clocks, 0, sizeof tape.clocks);
    sitankulo_clear_fresh(clear, sizeof clear, 1, 0, changes, sizeof changes);
    CHECK_ANSWER(SITANKULO_SPENT, sitankulo_clear_run(clear, sizeof clear, 1, 0, 0, 0, 2, tape.clocks, 3, (const uint8_t *)tape.clocks, 3,
                                                      changes, sizeof changes, report, sizeof report));
    CHECK_ANSWER(SITANKULO_SPENT, sitankulo_clear_run(clear, sizeof clear, 1, 0, 0, 0, 2, tape.clocks, SIZE_MAX, tape.levels, SIZE_MAX,
                                                      changes, SIZE_MAX, report, SIZE_MAX));
}

/* A clear that no call leaves is refused before the room is looked at. */
static void test_foreign(void) {
    struct lent record = lend(SITANKULO_CLEAR_SIZE), changes = lend(0), report = lend(0);
    size_t length;
    record.at[0] = record.expected[0] = 4;
    CHECK_ANSWER(SITANKULO_SHAPE, sitankulo_clear_run(record.at, 10, 1, 0, 0, 0, 9, NULL, 0, NULL, 0, changes.at, 0, report.at, 0));
    record.at[0] = record.expected[0] = 0;
    CHECK_ANSWER(SITANKULO_SHAPE, sitankulo_clear_run(record.at, 10, 1, 0, 0, 0, 9, NULL, 0, NULL, 0, changes.at, 0, report.at, 0));
    record.at[0] = record.expected[0] = 2;
    for (length = 0; length < SITANKULO_CLEAR_SIZE; length++) {
        CHECK_ANSWER(SITANKULO_SHAPE, sitankulo_clear_run(record.at, length, 1, 0, 0, 0, 9, NULL, 0, NULL, 0, changes.at, 0, report.at, 0));
    }
    CHECK_ANSWER(SITANKULO_SHAPE, sitankulo_clear_run(NULL, 0, 1, 0, 0, 0, 9, NULL, 0, NULL, 0, NULL, 0, NULL, 0));
    CHECK_ANSWER(SITANKULO_ROOM, sitankulo_clear_run(record.at, 10, 1, 0, 0, 0, 9, NULL, 0, NULL, 0, changes.at, 0, report.at, 0));
    TAKE_BACK(&record);
    TAKE_BACK(&changes);
    TAKE_BACK(&report);
}

void test_clear_runs(void) {
    test_endings();
    test_clock_ends();
    test_tapes();
    test_foreign();
}
