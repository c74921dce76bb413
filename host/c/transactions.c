/* Whole transactions, from begin to the end, over the library's own model: what a sensor sends is what arrives. */
#include "transaction.h"

#include <string.h>

enum { MOST_LISTS = 8200 };

struct told {
    size_t lists;
    size_t written;                /* bytes that the sensor acknowledged, addresses included */
    uint32_t answer;               /* the last */
    uint8_t carried[MOST_LISTS];   /* how many bytes each list wrote and read */
    uint8_t buffer[SITANKULO_MOST];
};

static uint8_t sensor_byte(size_t i) {
    return (uint8_t)(i * 31 + i / 256);
}

/* Marks all commands of a list as done. */
static void mark_done(uint8_t words[SITANKULO_WORDS_SIZE]) {
    size_t i;
    for (i = 0; i < SITANKULO_WORDS_SIZE; i += 4) {
        words[i] |= 0x80;
    }
}

/* Drives a script against a sensor that counts up; every list passes the inspector and runs on the model. */
static const struct told *drive(const uint8_t *script, size_t length) {
    static struct told told;
    uint8_t record[SITANKULO_RECORD_SIZE], words[32], fifo[32], sends[32], received[32], events[2 * 72];
    uint32_t phase = SITANKULO_IDLE, answer;
    size_t taken = 0, i;
    memset(&told, 0, sizeof told);
    CHECK_ANSWER(0, sitankulo_begin(record, sizeof record, 0, 0, ADDRESS, script, length, sizeof told.buffer, 0, 0));
    while (told.lists < MOST_LISTS) {
        told.answer = sitankulo_next(record, sizeof record, 0, 0, ADDRESS, script, length, 0, words, sizeof words, fifo, sizeof fifo);
        if (SITANKULO_NUMBER(told.answer) != 0) {
            break;
        }
        for (i = 0; i < sizeof sends; i++) {
            sends[i] = sensor_byte(taken + i);
        }
        CHECK(SITANKULO_NUMBER(sitankulo_inspect(words, 32, fifo, SITANKULO_DETAIL(told.answer), phase)) == 0);
        answer = sitankulo_model_run(words, 32, fifo, SITANKULO_DETAIL(told.answer), phase, sends, sizeof sends, 0, received,
                                     sizeof received, events, sizeof events);
        CHECK(SITANKULO_NUMBER(answer) == 0);
        phase = SITANKULO_DETAIL(answer);
        taken += SITANKULO_RECEIVED(answer);
        told.written += SITANKULO_DETAIL(told.answer);
        told.carried[told.lists++] = (uint8_t)(SITANKULO_DETAIL(told.answer) + SITANKULO_RECEIVED(answer));
        mark_done(words);
        CHECK_ANSWER(0, sitankulo_complete(record, sizeof record, ADDRESS, script, length, COMPLETE | ANSWERED, words, 32, 0, received,
                                           SITANKULO_RECEIVED(answer), told.buffer, sizeof told.buffer));
    }
    CHECK(phase == SITANKULO_IDLE);
    return &told;
}

/* Document 01's pieces. */
static size_t pieces_of(size_t n) {
    size_t pieces = 0;
    do {
        n -= n <= 31 ? n : n <= 33 ? 29 : 31;
        pieces++;
    } while (n > 0);
    return pieces;
}

static void test_reads(void) {
    static const size_t lengths[] = {1, 2, 31, 32, 33, 34, 36, 62, 63, 64, 95, 1000, 4095, 4096};
    uint8_t script[] = {1, 0, 7, 0, 1, 0, 0xA0, 0, 0, 1};
    size_t l, i, right;
    for (l = 0; l < sizeof lengths / sizeof *lengths; l++) {
        const struct told *told;
        script[7] = (uint8_t)(lengths[l] >> 8);
        script[8] = (uint8_t)lengths[l];
        told = drive(script, sizeof script);
        for (i = right = 0; i < lengths[l]; i++) {
            right += told->buffer[i] == sensor_byte(i);
        }
        CHECK(right == lengths[l]);
        CHECK(told->answer == SITANKULO_NONE && told->written == 3 && told->lists == 1 + pieces_of(lengths[l]));
    }
}

static void test_writes(void) {
    static const size_t lengths[] = {0, 1, 31, 32, 33, 34, 63, 4093};
    static uint8_t script[3 + SITANKULO_MOST];
    size_t l;
    for (l = 0; l < sizeof lengths / sizeof *lengths; l++) {
        const struct told *told;
        script[0] = 1;
        script[1] = (uint8_t)((lengths[l] + 3) >> 8);
        script[2] = (uint8_t)(lengths[l] + 3);
        script[3] = (uint8_t)(lengths[l] >> 8);
        script[4] = (uint8_t)lengths[l];
        memset(script + 5, 0, sizeof script - 5);
        told = drive(script, 6 + lengths[l]);
        CHECK(told->answer == SITANKULO_NONE && told->written == 1 + lengths[l] && told->lists == pieces_of(lengths[l]));
    }
}

/* A script's lists carry so many bytes each, the address among them where it is sent. */
static void expect_lists(const uint8_t *script, size_t length, const uint8_t *carried, size_t lists) {
    const struct told *told = drive(script, length);
    CHECK(told->answer == SITANKULO_NONE && told->lists == lists);
    CHECK(lists == 0 || memcmp(told->carried, carried, lists) == 0);
}

#define EXPECT_LISTS(script, carried) expect_lists(script, sizeof script, carried, sizeof carried)

/* Document 01's K1. */
static void test_pieces(void) {
    static const uint8_t of_32[] = {1, 0, 3, 0, 32, 1}, of_33[] = {1, 0, 3, 0, 33, 1}, of_34[] = {1, 0, 3, 0, 34, 1};
    static const uint8_t of_63[] = {1, 0, 3, 0, 63, 1};
    static const uint8_t in_32[] = {1 + 29, 3}, in_33[] = {1 + 29, 4}, in_34[] = {1 + 31, 3}, in_63[] = {1 + 31, 29, 3};
    EXPECT_LISTS(of_32, in_32);
    EXPECT_LISTS(of_33, in_33);
    EXPECT_LISTS(of_34, in_34);
    EXPECT_LISTS(of_63, in_63);
}

/* No operation at all; empty ones between others and at the end; and as many records as a script holds. */
static void test_records(void) {
    static const uint8_t nothing[] = {1, 0, 0}, empty_reads[] = {1, 0, 6, 0, 0, 1, 0, 0, 1};
    static const uint8_t k6[] = {1, 0, 11, 0, 1, 0, 0xA0, 0, 0, 1, 0, 1, 0, 0xA1}, in_k6[] = {2, 1};
    static const uint8_t k7[] = {1, 0, 7, 0, 1, 0, 0xA0, 0, 0, 0}, in_k7[] = {2, 0};
    static const uint8_t empty_read_last[] = {1, 0, 7, 0, 1, 0, 0xA0, 0, 0, 1}, in_empty_read_last[] = {2};
    static const uint8_t empty_write_between[] = {1, 0, 11, 0, 1, 0, 0xA0, 0, 0, 0, 0, 1, 0, 0xA1}, in_empty_write_between[] = {2, 1};
    static const uint8_t three_writes[] = {1, 0, 12, 0, 1, 0, 0xA0, 0, 1, 0, 0xA1, 0, 1, 0, 0xA2}, in_three_writes[] = {2, 1, 1};
    static const uint8_t joined_reads[] = {1, 0, 9, 0, 1, 1, 0, 0, 1, 0, 2, 1}, in_joined_reads[] = {2, 2};
    static const uint8_t write_between[] = {1, 0, 9, 0, 1, 1, 0, 0, 0, 0, 1, 1}, in_write_between[] = {2, 1, 2};
    static uint8_t many[3 + 4095];
    const struct told *told;
    size_t i;
    expect_lists(nothing, sizeof nothing, NULL, 0);
    expect_lists(empty_reads, sizeof empty_reads, NULL, 0);
    EXPECT_LISTS(k6, in_k6);
    EXPECT_LISTS(k7, in_k7);
    EXPECT_LISTS(empty_read_last, in_empty_read_last);
    EXPECT_LISTS(empty_write_between, in_empty_write_between);
    EXPECT_LISTS(three_writes, in_three_writes);
    EXPECT_LISTS(joined_reads, in_joined_reads);
    EXPECT_LISTS(write_between, in_write_between);
    memcpy(many, "\x01\x0F\xFF", 3);
    for (i = 3; i < sizeof many; i += 3) {
        memcpy(many + i, "\x00\x03\x01", 3);
    }
    told = drive(many, sizeof many);
    CHECK(told->lists == 1365 && told->written == 1 && told->answer == SITANKULO_NONE);
}

void test_transactions(void) {
    test_reads();
    test_writes();
    test_pieces();
    test_records();
}
