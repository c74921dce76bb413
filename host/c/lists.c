/* sitankulo_build_write and sitankulo_build_read. */
#include "check.h"

enum { WRITE, READ, MOST = 40 };

struct asked {
    int kind;
    uint32_t address;
    size_t n;
    uint8_t flags;
};

struct list {
    uint32_t words[8];
    uint8_t fifo[MOST];
    uint8_t count;
};

static uint8_t written_byte(size_t i) {
    return (uint8_t)(7 * i + 3);
}

/* Document 01, "Write of n bytes" and "Read of n". */
static struct list planned(struct asked asked) {
    struct list list = {{0}, {0}, 0};
    size_t slot = 0, i;
    uint32_t n = (uint32_t)asked.n;
    int start = asked.flags & SITANKULO_START, stop = asked.flags & SITANKULO_STOP;
    if (start) {
        list.words[slot++] = 0x3000;
        list.fifo[list.count++] = (uint8_t)(2 * asked.address + (asked.kind == READ));
    }
    if (asked.kind == READ) {
        if (start) {
            list.words[slot++] = 0x0901;
        }
        if (asked.flags & SITANKULO_CONTINUES) {
            list.words[slot++] = 0x1800 + n;
        } else {
            if (n > 1) {
                list.words[slot++] = 0x1800 + n - 1;
            }
            list.words[slot++] = 0x1C01;
        }
    } else {
        for (i = 0; i < asked.n; i++) {
            list.fifo[list.count++] = written_byte(i);
        }
        if (list.count > 0) {
            list.words[slot++] = 0x0900u + list.count;
        }
    }
    if (stop) {
        list.words[slot++] = 0x1000;
    }
    if (!start || !stop) {
        list.words[slot++] = 0x2000;
    }
    return list;
}

static size_t limit(struct asked asked) {
    if (asked.kind == WRITE) {
        return asked.flags & SITANKULO_START ? 31 : 32;
    }
    return asked.flags & SITANKULO_CONTINUES ? 32 : 31;
}

static uint32_t refusal(struct asked asked, size_t words_room, size_t fifo_room) {
    if (asked.address > 127) {
        return SITANKULO_ADDRESS_INVALID;
    }
    if (asked.kind == READ && asked.n == 0) {
        return SITANKULO_ZERO_LENGTH_INVALID;
    }
    if (asked.n > limit(asked)) {
        return SITANKULO_FIFO_EXCEEDED;
    }
    return words_room < 32 || fifo_room < planned(asked).count ? SITANKULO_ROOM : 0;
}

/* Asks for a list in memory of these lengths, and compares all of it. */
static void ask(struct asked asked, size_t words_room, size_t fifo_room) {
    struct lent words = lend(words_room), fifo = lend(fifo_room), bytes = lend(asked.kind == WRITE ? asked.n : 0);
    uint32_t expected = refusal(asked, words_room, fifo_room), answer;
    size_t i;
    for (i = 0; i < bytes.size; i++) {
        bytes.at[i] = bytes.expected[i] = written_byte(i);
    }
    if (expected == 0) {
        struct list list = planned(asked);
        uint8_t word_bytes[32];
        put_words(list.words, word_bytes);
        expect(&words, 0, word_bytes, 32);
        expect(&fifo, 0, list.fifo, list.count);
        expected = answer_of(0, list.count);
    }
    if (asked.kind == WRITE) {
        answer = sitankulo_build_write(asked.address, bytes.at, asked.n, asked.flags, words.at, words_room, fifo.at, fifo_room);
    } else {
        answer = sitankulo_build_read(asked.address, asked.n, asked.flags, words.at, words_room, fifo.at, fifo_room);
    }
    CHECK_ANSWER(expected, answer);
    TAKE_BACK(&words);
    TAKE_BACK(&fifo);
    TAKE_BACK(&bytes);
}

/* Every length around the limits, with every byte as flags: only the three named bits count. */
static void test_all_lengths_and_flags(void) {
    static const uint32_t addresses[] = {0, 0x29, 127, 128};
    struct asked asked;
    size_t place;
    unsigned flags;
    for (asked.kind = WRITE; asked.kind <= READ; asked.kind++) {
        for (asked.n = 0; asked.n <= 34; asked.n++) {
            for (flags = 0; flags < 256; flags++) {
                for (place = 0; place < 4; place++) {
                    asked.flags = (uint8_t)flags;
                    asked.address = addresses[place];
                    ask(asked, 32, 32);
                }
            }
        }
    }
}

/* Refusals come in the order 1, 2, 3, 7, and each boundary of the room is met. */
static void test_room_and_order(void) {
    static const uint32_t addresses[] = {127, 128, 255, 256, 0x129, UINT32_MAX};
    static const size_t lengths[] = {0, 1, 30, 31, 32, 33, MOST};
    static const size_t rooms[] = {0, 1, 2, 29, 30, 31, 32, 33, 100};
    struct asked asked;
    size_t a, n, words, fifo;
    uint8_t flags;
    for (asked.kind = WRITE; asked.kind <= READ; asked.kind++) {
        for (flags = 0; flags < 8; flags++) {
            for (a = 0; a < sizeof addresses / sizeof *addresses; a++) {
                for (n = 0; n < sizeof lengths / sizeof *lengths; n++) {
                    for (words = 0; words < sizeof rooms / sizeof *rooms; words++) {
                        for (fifo = 0; fifo < sizeof rooms / sizeof *rooms; fifo++) {
                            asked.address = addresses[a];
                            asked.n = lengths[n];
                            asked.flags = flags;
                            ask(asked, rooms[words], rooms[fifo]);
                        }
                    }
                }
            }
        }
    }
}

static void expect_words(struct asked asked, const uint32_t words[8]) {
    struct list list = planned(asked);
    size_t i;
    for (i = 0; i < 8; i++) {
        CHECK(list.words[i] == words[i]);
    }
    ask(asked, 32, 32);
}

/* Document 01's cases. */
static void test_cases(void) {
    static const uint32_t k2_first[8] = {0x3000, 0x0902, 0x2000}, k2_second[8] = {0x3000, 0x0901, 0x1801, 0x1C01, 0x1000};
    static const uint32_t k5[8] = {0x3000, 0x0901, 0x1000}, k6_second[8] = {0x0901, 0x1000, 0x2000}, k7_second[8] = {0x1000, 0x2000};
    static const uint32_t nothing[8] = {0x2000}, longest_read[8] = {0x1820, 0x2000};
    struct asked k2_write = {WRITE, 0x29, 1, SITANKULO_START}, k2_read = {READ, 0x29, 2, SITANKULO_START | SITANKULO_STOP};
    struct asked k5_write = {WRITE, 0x29, 0, SITANKULO_START | SITANKULO_STOP}, k6_write = {WRITE, 0x29, 1, SITANKULO_STOP};
    struct asked k7_write = {WRITE, 0x29, 0, SITANKULO_STOP}, empty_write = {WRITE, 0x29, 0, 0};
    struct asked long_read = {READ, 0x29, 32, SITANKULO_CONTINUES};
    expect_words(k2_write, k2_first);
    expect_words(k2_read, k2_second);
    expect_words(k5_write, k5);
    expect_words(k6_write, k6_second);
    expect_words(k7_write, k7_second);
    expect_words(empty_write, nothing);
    expect_words(long_read, longest_read);
}

/* Null with length 0, and lengths that no memory has: a refused call reads nothing, and none goes beyond its answer. */
static void test_odd_memory(void) {
    struct lent words = lend(32), fifo = lend(32), byte = lend(1);
    static const uint32_t empty[8] = {0x2000};
    uint8_t word_bytes[32];
    CHECK_ANSWER(SITANKULO_FIFO_EXCEEDED, sitankulo_build_write(1, byte.at, SIZE_MAX, 0, words.at, 32, fifo.at, 32));
    CHECK_ANSWER(SITANKULO_FIFO_EXCEEDED, sitankulo_build_read(1, SIZE_MAX, 0, words.at, 32, fifo.at, 32));
    CHECK_ANSWER(SITANKULO_FIFO_EXCEEDED, sitankulo_build_read(1, (size_t)1 << 32, 0, words.at, 32, fifo.at, 32));
    CHECK_ANSWER(SITANKULO_FIFO_EXCEEDED, sitankulo_build_read(1, 257, 0, words.at, 32, fifo.at, 32));
    CHECK_ANSWER(SITANKULO_ROOM, sitankulo_build_write(1, NULL, 0, 0, NULL, 0, NULL, 0));
    CHECK_ANSWER(SITANKULO_ADDRESS_INVALID, sitankulo_build_write(128, NULL, 0, 0, NULL, 0, NULL, 0));
    CHECK_ANSWER(SITANKULO_ROOM, sitankulo_build_read(1, 1, 0, NULL, 0, NULL, 0));
    put_words(empty, word_bytes);
    expect(&words, 0, word_bytes, 32);
    CHECK_ANSWER(0, sitankulo_build_write(1, NULL, 0, 0, words.at, SIZE_MAX, NULL, 0));
    TAKE_BACK(&words);
    TAKE_BACK(&fifo);
    TAKE_BACK(&byte);
}

void test_lists(void) {
    test_all_lengths_and_flags();
    test_room_and_order();
    test_cases();
    test_odd_memory();
}
