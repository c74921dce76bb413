/* sitankulo_begin. */
#include "transaction.h"

#include <string.h>

struct asked {
    uint8_t deadline;
    uint64_t duration;
    uint32_t address;
    struct script script;
    size_t read_room;
    uint8_t busy;
    uint64_t time;
    size_t record_room;
};

static struct asked plainly(struct script script) {
    struct asked asked = {SITANKULO_DEADLINE_NONE, 0, ADDRESS, {NULL, 0, 0}, SITANKULO_MOST, 0, 0, SITANKULO_RECORD_SIZE};
    asked.script = script;
    return asked;
}

/* A refused call leaves the record's memory; another lays this record into it. */
static void ask(struct asked asked, uint32_t expected, struct record record) {
    struct lent lent = lend(asked.record_room), script = lend_bytes(asked.script.bytes, asked.script.length);
    if (expected == 0 || expected == SITANKULO_CLEAR) {
        expect_record(&lent, record);
    }
    CHECK_ANSWER(expected, sitankulo_begin(lent.at, asked.record_room, asked.deadline, asked.duration, asked.address, script.at,
                                           script.size, asked.read_room, asked.busy, asked.time));
    TAKE_BACK(&lent);
    TAKE_BACK(&script);
}

static const struct record accepted = {0, 0, 0, 0};

static void test_accepted(void) {
    static const uint8_t flags[] = {0, 1, 2, 128, 255};
    struct asked asked = plainly(k2);
    size_t i;
    for (i = 0; i < sizeof flags; i++) {
        asked.busy = flags[i];
        ask(asked, flags[i] ? SITANKULO_CLEAR : 0, accepted);
    }
    asked = plainly(k2);
    asked.record_room = SITANKULO_RECORD_SIZE + 9;
    ask(asked, 0, accepted);
}

static void test_deadlines(void) {
    struct asked asked = plainly(k2);
    struct record fixed = {HAS_FIXED, 0, 0, 107};
    unsigned kind;
    asked.deadline = SITANKULO_DEADLINE_FIXED;
    asked.duration = 100;
    asked.time = 7;
    ask(asked, 0, fixed);
    asked.duration = 0;
    fixed.fixed = 7;
    ask(asked, 0, fixed);
    asked.duration = UINT64_MAX - 7;
    fixed.fixed = UINT64_MAX;
    ask(asked, 0, fixed);
    asked.duration++;
    ask(asked, SITANKULO_CLOCK_RANGE, fixed);
    asked.deadline = SITANKULO_DEADLINE_PER_BYTE;
    asked.duration = UINT64_MAX;
    ask(asked, 0, accepted);
    asked.deadline = SITANKULO_DEADLINE_NONE;
    ask(asked, 0, accepted);
    asked.address = 128;
    for (kind = 3; kind < 256; kind++) {
        asked.deadline = (uint8_t)kind;
        ask(asked, SITANKULO_SHAPE, accepted);
    }
}

/* Each refusal together with the next in the order. */
static void test_order(void) {
    static const uint32_t addresses[] = {128, 255, 256, 0x129, UINT32_MAX};
    static const uint8_t reads_3[] = {1, 0, 3, 0, 3, 1};
    struct script reads = {reads_3, sizeof reads_3, 0};
    struct asked asked;
    size_t i;
    for (i = 0; i < sizeof addresses / sizeof *addresses; i++) {
        asked = plainly(refused_scripts[0]);
        asked.address = addresses[i];
        ask(asked, SITANKULO_ADDRESS_INVALID, accepted);
    }
    for (i = 0; i < refused_scripts_count; i++) {
        asked = plainly(refused_scripts[i]);
        asked.read_room = 0;
        ask(asked, refused_scripts[i].refusal, accepted);
    }
    asked = plainly(reads);
    asked.deadline = SITANKULO_DEADLINE_FIXED;
    asked.duration = UINT64_MAX;
    asked.time = 1;
    asked.read_room = 2;
    ask(asked, SITANKULO_ROOM, accepted);
    asked.read_room = 3;
    ask(asked, SITANKULO_CLOCK_RANGE, accepted);
    asked.time = 0;
    asked.record_room = SITANKULO_RECORD_SIZE - 1;
    ask(asked, SITANKULO_ROOM, accepted);
}

/* The longest body, the longest read, and one more of each. */
static void test_sizes(void) {
    static uint8_t bytes[3 + SITANKULO_MOST + 1];
    static const uint8_t reads_4096[] = {1, 0, 3, 0x10, 0, 1}, nothing[] = {1, 0, 0};
    struct script longest = {bytes, 3 + SITANKULO_MOST, 0}, longer = {bytes, 3 + SITANKULO_MOST + 1, 0};
    struct script reads = {reads_4096, sizeof reads_4096, 0}, empty = {nothing, sizeof nothing, 0};
    struct asked asked;
    memcpy(bytes, "\x01\x10\x00\x0F\xFD\x00", 6);
    asked = plainly(longest);
    asked.read_room = 0;
    ask(asked, 0, accepted);
    ask(plainly(longer), SITANKULO_SHAPE, accepted);
    bytes[2] = 1;
    ask(plainly(longer), SITANKULO_SIZE, accepted);
    asked = plainly(reads);
    ask(asked, 0, accepted);
    asked.read_room = SIZE_MAX;
    ask(asked, 0, accepted);
    asked.read_room = SITANKULO_MOST - 1;
    ask(asked, SITANKULO_ROOM, accepted);
    asked = plainly(empty);
    asked.read_room = 0;
    ask(asked, 0, accepted);
    asked.busy = 1;
    ask(asked, SITANKULO_CLEAR, accepted);
}

/* Null with length 0, and lengths that no memory has. */
static void test_odd_memory(void) {
    static const uint8_t nothing[] = {1, 0, 0};
    struct lent record = lend(SITANKULO_RECORD_SIZE);
    size_t room;
    CHECK_ANSWER(SITANKULO_SHAPE, sitankulo_begin(record.at, record.size, 0, 0, ADDRESS, NULL, 0, 0, 0, 0));
    CHECK_ANSWER(SITANKULO_SHAPE, sitankulo_begin(record.at, record.size, 0, 0, ADDRESS, nothing, SIZE_MAX, 0, 0, 0));
    CHECK_ANSWER(SITANKULO_ROOM, sitankulo_begin(NULL, 0, 0, 0, ADDRESS, nothing, 3, 0, 0, 0));
    for (room = 0; room < SITANKULO_RECORD_SIZE; room++) {
        CHECK_ANSWER(SITANKULO_ROOM, sitankulo_begin(record.at, room, 0, 0, ADDRESS, nothing, 3, 0, 1, 0));
    }
    expect_record(&record, accepted);
    CHECK_ANSWER(0, sitankulo_begin(record.at, SIZE_MAX, 0, 0, ADDRESS, nothing, 3, 0, 0, 0));
    TAKE_BACK(&record);
}

void test_begin(void) {
    test_accepted();
    test_deadlines();
    test_order();
    test_sizes();
    test_odd_memory();
}
