/* sitankulo_complete. */
#include "transaction.h"

struct asked {
    struct record record;
    uint32_t address;
    struct script script;
    uint8_t bits;
    const uint8_t *commands;
    size_t commands_length;
    uint64_t time;
    size_t received, room;
};

static const uint8_t sent[8] = {0x31, 0x32, 0x33, 0x34, 0x35, 0x36, 0x37, 0x38};

/* K2's list at this place is outstanding, and completed by this snapshot. */
static struct asked at(uint64_t place) {
    struct asked asked = {{OUTSTANDING, 0, 0, 0}, ADDRESS, {NULL, 0, 0}, COMPLETE | ANSWERED, k2_write_done, 32, 0, 0, 2};
    asked.record.place = place;
    asked.script = k2;
    if (place == 1) {
        asked.commands = k2_read_done;
        asked.received = 2;
    }
    return asked;
}

/* The record afterwards, and how many received bytes land in front of the read buffer. */
static void ask(struct asked asked, uint32_t expected, struct record after, size_t landed) {
    struct lent record = lend_record(asked.record), script = lend_bytes(asked.script.bytes, asked.script.length);
    struct lent commands = lend_bytes(asked.commands, asked.commands_length), received = lend_bytes(sent, asked.received);
    struct lent buffer = lend(asked.room);
    expect_record(&record, after);
    expect(&buffer, 0, sent, landed);
    CHECK_ANSWER(expected, sitankulo_complete(record.at, record.size, asked.address, script.at, script.size, asked.bits, commands.at,
                                              commands.size, asked.time, received.at, received.size, buffer.at, buffer.size));
    TAKE_BACK(&record);
    TAKE_BACK(&script);
    TAKE_BACK(&commands);
    TAKE_BACK(&received);
    TAKE_BACK(&buffer);
}

static void refused(struct asked asked, uint32_t expected) {
    ask(asked, expected, asked.record, 0);
}

static void test_success(void) {
    struct record one = {0, 1, 0, 0}, two = {0, 2, 0, 0}, fixed = {HAS_FIXED, 2, 0, 500};
    struct asked asked = at(0);
    ask(asked, 0, one, 0);
    asked.received = 8;
    ask(asked, 0, one, 0);
    asked.record.flags |= POLLED;
    asked.bits = ANSWERED;
    ask(asked, 0, one, 0);
    asked = at(1);
    ask(asked, 0, two, 2);
    asked.received = 8;
    asked.room = 9;
    ask(asked, 0, two, 2);
    asked.record.flags |= HAS_DUE | HAS_FIXED;
    asked.record.due = asked.record.fixed = 500;
    asked.time = 501;
    ask(asked, 0, fixed, 2);
}

/* Failures end the transaction and write nothing into the read buffer. */
static void test_failures(void) {
    static const struct {
        uint8_t bits;
        uint32_t number, reason;
    } cases[] = {
        {NACK | LOST, SITANKULO_ACKNOWLEDGE_CHECK_FAILED, SITANKULO_REASON_UNKNOWN},
        {LOST | COMPLETE, SITANKULO_ARBITRATION_LOST, 0},
        {COMPLETE | TIME_OUT, SITANKULO_ACKNOWLEDGE_CHECK_FAILED, SITANKULO_REASON_DATA},
        {COMPLETE | ANSWERED | TIME_OUT, SITANKULO_TIMEOUT, 0},
        {TIME_OUT, SITANKULO_TIMEOUT, 0},
    };
    struct record failed = {FAILED, 1, 0, 0};
    struct asked asked = at(1);
    size_t i;
    for (i = 0; i < sizeof cases / sizeof *cases; i++) {
        asked.bits = cases[i].bits;
        ask(asked, answer_of(cases[i].number, cases[i].reason), failed, 0);
    }
    for (asked = at(1), asked.received = 0; asked.received < 2; asked.received++) {
        ask(asked, SITANKULO_EXECUTION_INCOMPLETE, failed, 0);
    }
    asked = at(1);
    asked.record.flags |= HAS_DUE | HAS_FIXED;
    asked.record.due = asked.record.fixed = 500;
    asked.bits = ANSWERED;
    asked.time = 501;
    failed.flags |= HAS_FIXED;
    failed.fixed = 500;
    ask(asked, SITANKULO_TIMEOUT, failed, 0);
    asked.record.flags |= POLLED;
    asked.commands = k2_write_done;
    ask(asked, 0, (struct record){HAS_FIXED, 2, 0, 500}, 2);
}

static void test_pending(void) {
    static const uint8_t start_alone[32] = {0, 0, 0x30, 0};
    struct asked asked = at(1);
    struct record waits = asked.record;
    asked.bits = ANSWERED;
    ask(asked, SITANKULO_PENDING, waits, 0);
    asked.bits = COMPLETE | ANSWERED;
    asked.commands = start_alone;
    waits.flags |= POLLED;
    ask(asked, SITANKULO_PENDING, waits, 0);
    asked.record.flags |= HAS_DUE;
    asked.record.due = asked.time = 500;
    waits = asked.record;
    waits.flags |= POLLED;
    ask(asked, SITANKULO_PENDING, waits, 0);
    asked.time = 501;
    ask(asked, SITANKULO_EXECUTION_INCOMPLETE, (struct record){FAILED, 1, 0, 0}, 0);
}

/* Each refusal together with the next in the order. */
static void test_order(void) {
    struct asked asked;
    size_t i;
    for (i = 0; i <= 31; i++) {
        asked = at(0);
        asked.commands_length = i;
        asked.address = 128;
        refused(asked, SITANKULO_LIST_REFUSED);
    }
    for (i = 0; i < refused_scripts_count; i++) {
        asked = at(9);
        asked.record.flags = 255;
        asked.script = refused_scripts[i];
        refused(asked, refused_scripts[i].refusal);
        asked.address = 128;
        refused(asked, SITANKULO_ADDRESS_INVALID);
    }
    for (i = 0; i < foreign_records_count; i++) {
        asked = at(0);
        asked.record = foreign_records[i];
        asked.room = 0;
        refused(asked, SITANKULO_SHAPE);
    }
    asked = at(3);
    asked.record.flags = 0;
    refused(asked, SITANKULO_SHAPE);
    asked = at(2);
    refused(asked, SITANKULO_SHAPE);
    asked.record.flags = 0;
    refused(asked, SITANKULO_OUT_OF_TURN);
    asked = at(0);
    asked.room = 0;
    asked.record.flags = FAILED;
    refused(asked, SITANKULO_OUT_OF_TURN);
    asked = at(0);
    asked.bits = NACK;
    asked.room = 1;
    refused(asked, SITANKULO_ROOM);
}

/* Null with length 0, lengths that no memory has, what is read all in one place, and records that are too short. */
static void test_odd_memory(void) {
    static const struct record write_waits = {OUTSTANDING, 0, 0, 0}, one = {0, 1, 0, 0};
    static const uint8_t nothing[] = {1, 0, 3, 0, 1, 1};
    struct lent record = lend_record(write_waits), buffer = lend(2);
    uint8_t overlapping[32] = {1, 0, 3, 0, 1, 1};
    size_t length;
    CHECK_ANSWER(SITANKULO_LIST_REFUSED, sitankulo_complete(NULL, 0, 1, NULL, 0, 0, NULL, 0, 0, NULL, 0, NULL, 0));
    CHECK_ANSWER(SITANKULO_LIST_REFUSED, sitankulo_complete(NULL, 0, 1, NULL, 0, 0, nothing, SIZE_MAX, 0, NULL, 0, NULL, 0));
    CHECK_ANSWER(SITANKULO_SHAPE, sitankulo_complete(NULL, 0, 1, NULL, 0, 0, k2_write_done, 32, 0, NULL, 0, NULL, 0));
    for (length = 0; length < SITANKULO_RECORD_SIZE; length++) {
        CHECK_ANSWER(SITANKULO_SHAPE, sitankulo_complete(record.at, length, ADDRESS, k2.bytes, k2.length, COMPLETE | ANSWERED,
                                                         k2_write_done, 32, 0, NULL, 0, buffer.at, 2));
    }
    CHECK_ANSWER(SITANKULO_ROOM, sitankulo_complete(record.at, 25, ADDRESS, k2.bytes, k2.length, COMPLETE | ANSWERED, k2_write_done, 32, 0,
                                                    NULL, 0, NULL, 0));
    CHECK_ANSWER(SITANKULO_PENDING, sitankulo_complete(record.at, 25, ADDRESS, overlapping, 6, 0, overlapping, 32, 0, overlapping, 32,
                                                       buffer.at, SIZE_MAX));
    expect_record(&record, one);
    CHECK_ANSWER(0, sitankulo_complete(record.at, 25, ADDRESS, k2.bytes, k2.length, COMPLETE | ANSWERED, k2_write_done, 32, 0, NULL, 0,
                                       buffer.at, SIZE_MAX));
    TAKE_BACK(&record);
    TAKE_BACK(&buffer);
}

void test_complete(void) {
    test_success();
    test_failures();
    test_pending();
    test_order();
    test_odd_memory();
}
