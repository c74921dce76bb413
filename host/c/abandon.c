/* sitankulo_abandon. */
#include "transaction.h"

static void ask(struct record record, uint8_t bits, uint64_t time, size_t commands_length, uint32_t expected) {
    struct lent lent = lend_record(record), commands = lend(commands_length);
    struct record failed = {FAILED, 0, 0, 0};
    if (expected == 0 || expected == SITANKULO_CLEAR) {
        failed.flags |= record.flags & HAS_FIXED;
        failed.place = record.place;
        failed.fixed = record.fixed;
        expect_record(&lent, failed);
    }
    CHECK_ANSWER(expected, sitankulo_abandon(lent.at, lent.size, bits, commands.at, commands.size, time));
    TAKE_BACK(&lent);
    TAKE_BACK(&commands);
}

/* A wait whose poll has not succeeded is polled once more: pending, or 11, asks for a reset and a clear. */
static void test_polls(void) {
    struct record waits = {OUTSTANDING, 3, 0, 0}, limited = {OUTSTANDING | HAS_DUE | HAS_FIXED, 3, 500, 600};
    struct record polled = {OUTSTANDING | POLLED, 3, 0, 0};
    unsigned bits;
    for (bits = 0; bits < 256; bits++) {
        int done = (bits & (COMPLETE | ENDED)) != 0;
        int failed = (bits & (NACK | LOST)) || ((bits & COMPLETE) && !(bits & ANSWERED));
        uint32_t expected = done || failed ? 0 : SITANKULO_CLEAR;
        ask(waits, (uint8_t)bits, UINT64_MAX, 32, expected);
        ask(limited, (uint8_t)bits, 501, 32, expected);
        ask(polled, (uint8_t)bits, 0, 32, 0);
    }
}

static void test_order(void) {
    struct record none = {0, 0, 0, 0}, failed = {FAILED, 0, 0, 0}, foreign = {POLLED, 0, 0, 0};
    size_t i;
    for (i = 0; i <= 64; i++) {
        if (i != 32) {
            ask(foreign, 0, 0, i, SITANKULO_LIST_REFUSED);
        }
    }
    for (i = 0; i < foreign_records_count; i++) {
        ask(foreign_records[i], 0, 0, 32, SITANKULO_SHAPE);
    }
    ask(none, 0, 0, 32, SITANKULO_OUT_OF_TURN);
    ask(failed, 0, 0, 32, SITANKULO_OUT_OF_TURN);
}

/* Null with length 0, lengths that no memory has, and records that are too short. */
static void test_odd_memory(void) {
    static const struct record waits = {OUTSTANDING, 0, 0, 0}, failed = {FAILED, 0, 0, 0};
    struct lent record = lend_record(waits), commands = lend(32);
    size_t length;
    CHECK_ANSWER(SITANKULO_LIST_REFUSED, sitankulo_abandon(NULL, 0, 0, NULL, 0, 0));
    CHECK_ANSWER(SITANKULO_LIST_REFUSED, sitankulo_abandon(record.at, 25, 0, commands.at, SIZE_MAX, 0));
    CHECK_ANSWER(SITANKULO_SHAPE, sitankulo_abandon(NULL, 0, 0, commands.at, 32, 0));
    for (length = 0; length < SITANKULO_RECORD_SIZE; length++) {
        CHECK_ANSWER(SITANKULO_SHAPE, sitankulo_abandon(record.at, length, 0, commands.at, 32, 0));
    }
    expect_record(&record, failed);
    CHECK_ANSWER(SITANKULO_CLEAR, sitankulo_abandon(record.at, 25, 0, commands.at, 32, 0));
    TAKE_BACK(&record);
    TAKE_BACK(&commands);
}

void test_abandon(void) {
    test_polls();
    test_order();
    test_odd_memory();
}
