/* sitankulo_clear_fresh and sitankulo_clear_step. */
#include "check.h"

#include <string.h>

enum { IDLE, STOP_TO_COME, CLOCK_LOW, CLOCK_HIGH };

struct clear {
    uint8_t state, clocks;
    uint64_t wait;
};

struct polled {
    struct clear after;
    uint32_t number;
    uint8_t changes[2];
    uint8_t count;
};

static void put_clear(struct clear clear, uint8_t bytes[SITANKULO_CLEAR_SIZE]) {
    bytes[0] = clear.state;
    bytes[1] = clear.clocks;
    put_time(clear.wait, bytes + 2);
}

static struct polled changing(struct polled polled, uint8_t first, int second) {
    polled.changes[polled.count++] = first;
    if (second >= 0) {
        polled.changes[polled.count++] = (uint8_t)second;
    }
    return polled;
}

/* Document 01, "Bus clear", for an acting poll: the next state, and the pin changes as if there were pins. */
static struct polled acting(struct polled polled, int pins, int sda) {
    struct clear *clear = &polled.after;
    if (clear->state == CLOCK_HIGH) {
        clear->state = CLOCK_LOW;
        return changing(polled, SITANKULO_SCL_LOW, -1);
    }
    if (clear->clocks == 0) {
        clear->state = STOP_TO_COME;
        return changing(polled, SITANKULO_SDA_LOW, SITANKULO_SCL_HIGH);
    }
    if (pins && sda) {
        clear->state = STOP_TO_COME;
        clear->clocks = 0;
        return changing(polled, SITANKULO_SCL_HIGH, SITANKULO_SDA_LOW);
    }
    clear->state = CLOCK_HIGH;
    clear->clocks--;
    return changing(polled, SITANKULO_SCL_HIGH, -1);
}

static struct polled poll_of(struct clear clear, int pins, uint64_t time, int sda) {
    struct polled polled;
    polled.after = clear;
    polled.number = SITANKULO_PENDING;
    polled.count = 0;
    if (clear.state == IDLE) {
        polled.number = !pins || sda ? 0 : SITANKULO_PENDING;
        return polled;
    }
    if (time < clear.wait) {
        return polled;
    }
    if (clear.state == STOP_TO_COME) {
        polled.after.state = IDLE;
        polled = changing(polled, SITANKULO_SDA_HIGH, -1);
    } else if (time > UINT64_MAX - 5) {
        polled.number = SITANKULO_CLOCK_RANGE;
    } else {
        polled = acting(polled, pins, sda);
        polled.after.wait = time + 5;
    }
    if (!pins) {
        polled.count = 0;
    }
    return polled;
}

static void step(struct clear clear, uint8_t pins, uint64_t time, uint8_t sda, size_t length, size_t room) {
    struct polled polled = poll_of(clear, pins != 0, time, sda != 0);
    struct lent record = lend(length), changes = lend(room);
    uint8_t bytes[SITANKULO_CLEAR_SIZE];
    uint32_t expected = polled.number;
    put_clear(clear, bytes);
    memcpy(record.at, bytes, length < sizeof bytes ? length : sizeof bytes);
    memcpy(record.expected, record.at, length);
    if (length < sizeof bytes) {
        expected = SITANKULO_SHAPE;
    } else if (expected != SITANKULO_CLOCK_RANGE && room < polled.count) {
        expected = SITANKULO_ROOM;
    } else if (expected != SITANKULO_CLOCK_RANGE) {
        put_clear(polled.after, bytes);
        expect(&record, 0, bytes, sizeof bytes);
        expect(&changes, 0, polled.changes, polled.count);
        expected = answer_of(expected, polled.count);
    }
    CHECK_ANSWER(expected, sitankulo_clear_step(record.at, length, pins, time, sda, changes.at, room));
    TAKE_BACK(&record);
    TAKE_BACK(&changes);
}

/* Every state, any number of clocks, flags that are any byte, clocks around the wait and at the end of the range. */
static void test_steps(void) {
    static const uint64_t times[][2] = {{0, 0}, {4, 5}, {5, 5}, {6, 5}, {0, UINT64_MAX - 6}, {0, UINT64_MAX - 5}, {0, UINT64_MAX - 4},
                                        {0, UINT64_MAX}, {UINT64_MAX, UINT64_MAX - 1}, {UINT64_MAX, UINT64_MAX}};
    static const uint8_t flags[] = {0, 1, 2, 255};
    struct clear clear;
    unsigned clocks;
    size_t time, pins, sda, room;
    for (clear.state = IDLE; clear.state <= CLOCK_HIGH; clear.state++) {
        for (clocks = 0; clocks < (clear.state >= CLOCK_LOW ? 256u : 1u); clocks++) {
            for (time = 0; time < sizeof times / sizeof *times; time++) {
                for (pins = 0; pins < sizeof flags; pins++) {
                    for (sda = 0; sda < sizeof flags; sda++) {
                        for (room = 0; room <= 3; room++) {
                            clear.clocks = (uint8_t)clocks;
                            clear.wait = times[time][0];
                            step(clear, flags[pins], times[time][1], flags[sda], SITANKULO_CLEAR_SIZE, room);
                        }
                    }
                }
            }
        }
    }
}

/* What no call leaves is refused, before anything else: too short, another state, clocks where there are none. */
static void test_foreign(void) {
    struct clear low = {CLOCK_LOW, 9, 0};
    unsigned state, clocks;
    size_t length;
    for (length = 0; length <= SITANKULO_CLEAR_SIZE + 5; length++) {
        step(low, 1, 0, 0, length, 2);
        step(low, 1, UINT64_MAX, 0, length, 0);
    }
    for (state = 0; state < 256; state++) {
        for (clocks = 0; clocks < 256; clocks += 51) {
            struct lent record = lend(SITANKULO_CLEAR_SIZE), changes = lend(0);
            if (state > CLOCK_HIGH || (state < CLOCK_LOW && clocks > 0)) {
                record.at[0] = record.expected[0] = (uint8_t)state;
                record.at[1] = record.expected[1] = (uint8_t)clocks;
                CHECK_ANSWER(SITANKULO_SHAPE, sitankulo_clear_step(record.at, 10, 1, UINT64_MAX, 0, changes.at, 0));
            }
            TAKE_BACK(&record);
            TAKE_BACK(&changes);
        }
    }
    CHECK_ANSWER(SITANKULO_SHAPE, sitankulo_clear_step(NULL, 0, 1, 0, 0, NULL, 0));
}

static void fresh(uint8_t pins, uint64_t time, size_t clear_room, size_t changes_room) {
    static const uint8_t changed[2] = {SITANKULO_SCL_LOW, SITANKULO_SDA_HIGH};
    struct lent record = lend(clear_room), changes = lend(changes_room);
    struct clear begun = {CLOCK_LOW, 9, 0}, idle = {IDLE, 0, 0};
    struct clear clear = pins ? begun : idle;
    uint8_t bytes[SITANKULO_CLEAR_SIZE], count = pins ? 2 : 0;
    uint32_t expected = SITANKULO_ROOM;
    clear.wait = time;
    if (clear_room >= sizeof bytes && changes_room >= count) {
        put_clear(clear, bytes);
        expect(&record, 0, bytes, sizeof bytes);
        expect(&changes, 0, changed, count);
        expected = answer_of(0, count);
    }
    CHECK_ANSWER(expected, sitankulo_clear_fresh(record.at, clear_room, pins, time, changes.at, changes_room));
    TAKE_BACK(&record);
    TAKE_BACK(&changes);
}

static void test_fresh(void) {
    static const uint64_t times[] = {0, 1, 0x0123456789ABCDEFu, UINT64_MAX};
    static const uint8_t flags[] = {0, 1, 2, 128, 255};
    size_t pins, time, clear_room, changes_room;
    for (pins = 0; pins < sizeof flags; pins++) {
        for (time = 0; time < 4; time++) {
            for (clear_room = 0; clear_room <= 12; clear_room++) {
                for (changes_room = 0; changes_room <= 3; changes_room++) {
                    fresh(flags[pins], times[time], clear_room, changes_room);
                }
            }
        }
    }
    CHECK_ANSWER(SITANKULO_ROOM, sitankulo_clear_fresh(NULL, 0, 1, 0, NULL, 0));
    {
        struct lent record = lend(SITANKULO_CLEAR_SIZE);
        static const uint8_t idle[SITANKULO_CLEAR_SIZE] = {0};
        expect(&record, 0, idle, sizeof idle);
        CHECK_ANSWER(0, sitankulo_clear_fresh(record.at, SIZE_MAX, 0, 0, NULL, 0));
        TAKE_BACK(&record);
    }
}

/* Document 01's K10: SDA always low, Idle after 20 acting polls with 9 falls and 10 rises of SCL. */
static void test_sda_held(void) {
    uint8_t clear[SITANKULO_CLEAR_SIZE], changes[2];
    unsigned polls = 0, falls = 0, rises = 0, i;
    uint64_t time = 1000;
    CHECK_ANSWER(answer_of(0, 2), sitankulo_clear_fresh(clear, sizeof clear, 1, time, changes, sizeof changes));
    while (clear[0] != IDLE && polls < 100) {
        uint32_t answer = sitankulo_clear_step(clear, sizeof clear, 1, time, 0, changes, sizeof changes);
        CHECK(SITANKULO_NUMBER(answer) == SITANKULO_PENDING);
        for (i = 0; i < SITANKULO_DETAIL(answer); i++) {
            falls += changes[i] == SITANKULO_SCL_LOW;
            rises += changes[i] == SITANKULO_SCL_HIGH;
        }
        polls++;
        time += 5;
    }
    CHECK(polls == 20 && falls == 9 && rises == 10);
}

void test_clears(void) {
    test_fresh();
    test_steps();
    test_foreign();
    test_sda_held();
}
