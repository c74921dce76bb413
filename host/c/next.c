/* sitankulo_next. */
#include "transaction.h"

#include <string.h>

struct asked {
    struct record record;
    uint8_t deadline;
    uint64_t duration;
    uint32_t address;
    struct script script;
    uint64_t time;
    size_t words_room, fifo_room;
};

struct list {
    uint32_t words[8];
    uint8_t fifo[32];
    uint8_t count;
};

static const struct list write_list = {{0x3000, 0x0902, 0x2000}, {0x52, 0xA0}, 2};
static const struct list read_list = {{0x3000, 0x0901, 0x1801, 0x1C01, 0x1000}, {0x53}, 1};

static struct asked at(uint64_t place) {
    struct asked asked = {{0, 0, 0, 0}, SITANKULO_DEADLINE_NONE, 0, ADDRESS, {NULL, 0, 0}, 0, 32, 32};
    asked.record.place = place;
    asked.script = k2;
    return asked;
}

/* What is asked is refused, or none is left: nothing is written. */
static void refused(struct asked asked, uint32_t expected) {
    struct lent record = lend_record(asked.record), words = lend(asked.words_room), fifo = lend(asked.fifo_room);
    struct lent script = lend_bytes(asked.script.bytes, asked.script.length);
    CHECK_ANSWER(expected, sitankulo_next(record.at, record.size, asked.deadline, asked.duration, asked.address, script.at, script.size,
                                          asked.time, words.at, words.size, fifo.at, fifo.size));
    TAKE_BACK(&record);
    TAKE_BACK(&words);
    TAKE_BACK(&fifo);
    TAKE_BACK(&script);
}

/* There is this list, and the record waits for it. */
static void listed(struct asked asked, struct list list, struct record after) {
    struct lent record = lend_record(asked.record), words = lend(asked.words_room), fifo = lend(asked.fifo_room);
    struct lent script = lend_bytes(asked.script.bytes, asked.script.length);
    uint8_t bytes[32];
    put_words(list.words, bytes);
    expect(&words, 0, bytes, 32);
    expect(&fifo, 0, list.fifo, list.count);
    expect_record(&record, after);
    CHECK_ANSWER(answer_of(0, list.count), sitankulo_next(record.at, record.size, asked.deadline, asked.duration, asked.address,
                                                          script.at, script.size, asked.time, words.at, words.size, fifo.at, fifo.size));
    TAKE_BACK(&record);
    TAKE_BACK(&words);
    TAKE_BACK(&fifo);
    TAKE_BACK(&script);
}

static void test_handed_out(void) {
    struct record waits = {OUTSTANDING, 0, 0, 0};
    struct asked asked = at(0);
    listed(asked, write_list, waits);
    asked.fifo_room = 2;
    listed(asked, write_list, waits);
    asked.words_room = asked.fifo_room = 100;
    listed(asked, write_list, waits);
    asked = at(1);
    waits.place = 1;
    asked.fifo_room = 1;
    listed(asked, read_list, waits);
    refused(at(2), SITANKULO_NONE);
    asked = at(2);
    asked.words_room = asked.fifo_room = 0;
    refused(asked, SITANKULO_NONE);
}

static void test_deadlines(void) {
    struct asked asked = at(0);
    struct record waits = {OUTSTANDING | HAS_DUE, 0, 0, 0};
    unsigned kind;
    asked.deadline = SITANKULO_DEADLINE_PER_BYTE;
    asked.duration = 10;
    asked.time = 1000;
    waits.due = 1020;
    listed(asked, write_list, waits);
    asked.record.place = waits.place = 1;
    waits.due = 1030;
    listed(asked, read_list, waits);
    asked.duration = (UINT64_MAX - 1000) / 3;
    waits.due = 1000 + 3 * asked.duration;
    listed(asked, read_list, waits);
    asked.duration++;
    refused(asked, SITANKULO_CLOCK_RANGE);
    asked.words_room = 0;
    refused(asked, SITANKULO_CLOCK_RANGE);
    asked.record.place = 2;
    refused(asked, SITANKULO_NONE);
    asked = at(0);
    asked.deadline = SITANKULO_DEADLINE_FIXED;
    asked.duration = UINT64_MAX;
    asked.time = 77;
    asked.record.flags = HAS_FIXED;
    asked.record.fixed = 50;
    waits.flags = OUTSTANDING | HAS_DUE | HAS_FIXED;
    waits.place = 0;
    waits.due = waits.fixed = 50;
    listed(asked, write_list, waits);
    asked.address = 128;
    for (kind = 3; kind < 256; kind++) {
        asked.deadline = (uint8_t)kind;
        refused(asked, SITANKULO_SHAPE);
    }
}

/* Each refusal together with the next in the order. */
static void test_order(void) {
    struct asked asked;
    size_t i;
    for (i = 0; i < refused_scripts_count; i++) {
        asked = at(9);
        asked.record.flags = 255;
        asked.script = refused_scripts[i];
        refused(asked, refused_scripts[i].refusal);
        asked.address = 128;
        refused(asked, SITANKULO_ADDRESS_INVALID);
    }
    for (i = 0; i < foreign_records_count; i++) {
        asked = at(0);
        asked.record = foreign_records[i];
        asked.words_room = 0;
        refused(asked, SITANKULO_SHAPE);
    }
    asked = at(3);
    asked.record.flags = FAILED;
    refused(asked, SITANKULO_SHAPE);
    asked.record.place = UINT64_MAX;
    refused(asked, SITANKULO_SHAPE);
    asked = at(2);
    asked.record.flags = OUTSTANDING;
    refused(asked, SITANKULO_SHAPE);
    asked.record.place = 1;
    asked.deadline = SITANKULO_DEADLINE_PER_BYTE;
    asked.duration = UINT64_MAX;
    refused(asked, SITANKULO_OUT_OF_TURN);
    asked.record.flags = FAILED;
    refused(asked, SITANKULO_OUT_OF_TURN);
    asked.record.place = 2;
    refused(asked, SITANKULO_OUT_OF_TURN);
    asked = at(0);
    asked.words_room = 31;
    refused(asked, SITANKULO_ROOM);
    asked = at(0);
    asked.fifo_room = 1;
    refused(asked, SITANKULO_ROOM);
}

/* A record in longer memory: the bytes beyond it stay. */
static void test_longer_record(void) {
    static const struct record fresh = {0, 2, 0, 0}, waits = {OUTSTANDING, 1, 0, 0};
    uint8_t record[SITANKULO_RECORD_SIZE + 7], after[SITANKULO_RECORD_SIZE + 7], words[32], fifo[32];
    memset(record, 0xAB, sizeof record);
    memset(after, 0xAB, sizeof after);
    put_record(fresh, record);
    CHECK_ANSWER(SITANKULO_NONE, sitankulo_next(record, sizeof record, 0, 0, ADDRESS, k2.bytes, k2.length, 0, words, 32, fifo, 32));
    record[8] = 1;
    put_record(waits, after);
    CHECK_ANSWER(answer_of(0, 1), sitankulo_next(record, sizeof record, 0, 0, ADDRESS, k2.bytes, k2.length, 0, words, 32, fifo, 32));
    CHECK(memcmp(record, after, sizeof record) == 0);
}

/* Null with length 0, lengths that no memory has, and records that are too short. */
static void test_odd_memory(void) {
    static const struct record fresh = {0, 0, 0, 0}, waits = {OUTSTANDING, 0, 0, 0};
    struct lent record = lend_record(fresh), words = lend(32), fifo = lend(2);
    uint8_t bytes[32];
    size_t length;
    CHECK_ANSWER(SITANKULO_SHAPE, sitankulo_next(NULL, 0, 0, 0, ADDRESS, k2.bytes, k2.length, 0, words.at, 32, fifo.at, 2));
    for (length = 0; length < SITANKULO_RECORD_SIZE; length++) {
        CHECK_ANSWER(SITANKULO_SHAPE, sitankulo_next(record.at, length, 0, 0, ADDRESS, k2.bytes, k2.length, 0, words.at, 32, fifo.at, 2));
    }
    CHECK_ANSWER(SITANKULO_SHAPE, sitankulo_next(record.at, 25, 0, 0, ADDRESS, NULL, 0, 0, words.at, 32, fifo.at, 2));
    CHECK_ANSWER(SITANKULO_SHAPE, sitankulo_next(record.at, 25, 0, 0, ADDRESS, k2.bytes, SIZE_MAX, 0, words.at, 32, fifo.at, 2));
    CHECK_ANSWER(SITANKULO_ROOM, sitankulo_next(record.at, 25, 0, 0, ADDRESS, k2.bytes, k2.length, 0, NULL, 0, NULL, 0));
    put_words(write_list.words, bytes);
    expect(&words, 0, bytes, 32);
    expect(&fifo, 0, write_list.fifo, 2);
    expect_record(&record, waits);
    CHECK_ANSWER(answer_of(0, 2),
                 sitankulo_next(record.at, 25, 0, 0, ADDRESS, k2.bytes, k2.length, 0, words.at, SIZE_MAX, fifo.at, SIZE_MAX));
    TAKE_BACK(&record);
    TAKE_BACK(&words);
    TAKE_BACK(&fifo);
}

void test_next(void) {
    test_handed_out();
    test_deadlines();
    test_order();
    test_longer_record();
    test_odd_memory();
}
