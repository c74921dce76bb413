/* sitankulo_classify. */
#include "check.h"

enum { NACK = 1, ARBITRATION_LOST = 2, TIMEOUTS = 4 + 8 + 16, ANSWERED = 32, COMPLETE = 64, ENDED = 128 };

#define DONE 0x80000000u

struct snapshot {
    uint8_t bits;
    uint32_t commands[8];
    uint64_t time;
    uint8_t polled, limited;
    uint64_t due;
};

/* Document 01, "Errors, first that holds"; 0 where none does. */
static uint32_t error_of(uint8_t bits) {
    if (bits & NACK) {
        return answer_of(SITANKULO_ACKNOWLEDGE_CHECK_FAILED, SITANKULO_REASON_UNKNOWN);
    }
    if (bits & ARBITRATION_LOST) {
        return SITANKULO_ARBITRATION_LOST;
    }
    if ((bits & COMPLETE) && !(bits & ANSWERED)) {
        return answer_of(SITANKULO_ACKNOWLEDGE_CHECK_FAILED, SITANKULO_REASON_DATA);
    }
    return bits & TIMEOUTS ? SITANKULO_TIMEOUT : 0;
}

static int is_past(const struct snapshot *s) {
    return s->limited && s->time > s->due;
}

static uint32_t poll_of(const struct snapshot *s) {
    uint32_t error = error_of(s->bits);
    if (s->bits & (COMPLETE | ENDED)) {
        return error == SITANKULO_TIMEOUT ? 0 : error;
    }
    if (error != 0) {
        return error;
    }
    return is_past(s) ? SITANKULO_TIMEOUT : SITANKULO_PENDING;
}

/* "slots in order up to END or STOP, zeros skipped; a non-END one not done gives 8 past the deadline, else pending" */
static uint32_t commands_of(const struct snapshot *s) {
    uint32_t error = error_of(s->bits);
    size_t i;
    if (error != 0) {
        return error;
    }
    for (i = 0; i < 8; i++) {
        uint32_t word = s->commands[i], opcode = word >> 11 & 7;
        if (word == 0) {
            continue;
        }
        if (opcode == 4) {
            return 0;
        }
        if (!(word & DONE)) {
            return is_past(s) ? SITANKULO_EXECUTION_INCOMPLETE : SITANKULO_PENDING;
        }
        if (opcode == 2) {
            return 0;
        }
    }
    return 0;
}

static uint32_t expected_of(const struct snapshot *s) {
    uint32_t poll = poll_of(s);
    uint32_t polled = s->polled || poll == 0;
    uint32_t told = polled ? commands_of(s) : poll;
    return told | polled << 16;
}

static void ask(const struct snapshot *s) {
    uint8_t bytes[32];
    struct lent commands;
    put_words(s->commands, bytes);
    commands = lend_bytes(bytes, 32);
    CHECK_ANSWER(expected_of(s), sitankulo_classify(s->bits, commands.at, 32, s->time, s->polled, s->limited, s->due));
    TAKE_BACK(&commands);
}

static const uint32_t tables[][8] = {
    {0},
    {DONE | 0x3000, DONE | 0x0902, 0x2000},
    {DONE | 0x3000, 0x0902, 0x2000},
    {DONE | 0x3000, DONE | 0x0901, DONE | 0x1801, DONE | 0x1C01, DONE | 0x1000},
    {DONE | 0x3000, DONE | 0x0901, DONE | 0x1801, DONE | 0x1C01, 0x1000},
    {DONE | 0x1000, 0x0901},
    {0x2000, 0x0901},
    {0, 0, 0, 0, 0, 0, 0, 0x0901},
    {DONE, DONE, DONE, DONE, DONE, DONE, DONE, DONE},
    {UINT32_MAX, 0x7FFFFFFFu},
    {1},
};

/* All bits with every table, clocks around the due time, and flags that are any byte. */
static void test_all_bits(void) {
    static const uint64_t clocks[][2] = {{0, 0}, {10, 10}, {11, 10}, {9, 10}, {UINT64_MAX, UINT64_MAX}, {UINT64_MAX, 0}, {0, UINT64_MAX}};
    static const uint8_t flags[] = {0, 1, 2, 128, 255};
    struct snapshot s;
    unsigned bits;
    size_t table, clock, polled, limited, i;
    for (bits = 0; bits < 256; bits++) {
        for (table = 0; table < sizeof tables / sizeof *tables; table++) {
            for (clock = 0; clock < sizeof clocks / sizeof *clocks; clock++) {
                for (polled = 0; polled < sizeof flags; polled++) {
                    for (limited = 0; limited < sizeof flags; limited++) {
                        s.bits = (uint8_t)bits;
                        for (i = 0; i < 8; i++) {
                            s.commands[i] = tables[table][i];
                        }
                        s.time = clocks[clock][0];
                        s.due = clocks[clock][1];
                        s.polled = flags[polled];
                        s.limited = flags[limited];
                        ask(&s);
                    }
                }
            }
        }
    }
}

/* Document 01's K8: nack with arbitration lost gives 9; done with a time out, the poll succeeds and the command check gives 11. */
static void test_cases(void) {
    static const uint8_t none[32] = {0};
    uint32_t nacked = sitankulo_classify(NACK | ARBITRATION_LOST, none, 32, 0, 0, 0, 0);
    uint32_t late = sitankulo_classify(COMPLETE | ANSWERED | 16, none, 32, 0, 0, 0, 0);
    CHECK(SITANKULO_NUMBER(nacked) == 9 && SITANKULO_DETAIL(nacked) == 3 && SITANKULO_POLLED(nacked) == 0);
    CHECK(SITANKULO_NUMBER(late) == 11 && SITANKULO_DETAIL(late) == 0 && SITANKULO_POLLED(late) == 1);
}

/* Commands that are not 32 bytes are refused whatever else is told. */
static void test_length(void) {
    size_t length;
    for (length = 0; length <= 64; length++) {
        struct lent commands = lend(length);
        if (length != 32) {
            CHECK_ANSWER(SITANKULO_LIST_REFUSED, sitankulo_classify(NACK, commands.at, length, 1, 1, 1, 0));
        }
        TAKE_BACK(&commands);
    }
    CHECK_ANSWER(SITANKULO_LIST_REFUSED, sitankulo_classify(0, NULL, 0, 0, 0, 0, 0));
    CHECK_ANSWER(SITANKULO_LIST_REFUSED, sitankulo_classify(0, (const uint8_t *)"", SIZE_MAX, 0, 0, 0, 0));
}

void test_snapshots(void) {
    test_all_bits();
    test_cases();
    test_length();
}
