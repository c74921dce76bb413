/* sitankulo_inspect and sitankulo_model_run. */
#include "check.h"

#include <string.h>

enum { START_EVENT, STOP_EVENT, SENT, SENT_NACK, GOT, GOT_NACK, MOST_EVENTS = 72, MOST_RECEIVED = 32 };

struct list {
    uint32_t words[8];
    uint8_t fifo[40];
    size_t fifo_length;
    uint32_t phase;
};

struct sensor {
    const uint8_t *sends;
    size_t sends_length;
    size_t refuses;
};

struct run {
    uint32_t ending;
    uint32_t phase;
    uint8_t received[MOST_RECEIVED];
    uint8_t events[2 * MOST_EVENTS];
    size_t received_count, event_count;
};

static void note(struct run *run, int event, uint8_t byte) {
    run->events[2 * run->event_count] = (uint8_t)event;
    run->events[2 * run->event_count + 1] = byte;
    run->event_count++;
}

static int is_one_of(uint32_t phase, uint32_t a, uint32_t b, uint32_t c) {
    return phase == a || phase == b || phase == c;
}

/* Document 01, "Inspector and controller model". */
static struct run run_of(const struct list *list, const struct sensor *sensor) {
    struct run run;
    size_t slot, used = 0, sent = 0, i;
    memset(&run, 0, sizeof run);
    run.ending = SITANKULO_STUCK;
    run.phase = list->phase;
    if (list->fifo_length > 32 || list->phase > 4) {
        return run;
    }
    for (slot = 0; slot < 8; slot++) {
        uint32_t word = list->words[slot], count = word & 0xFF;
        if (word == 0x3000) {
            if (!is_one_of(run.phase, SITANKULO_IDLE, SITANKULO_WRITING, SITANKULO_READ_DONE)) {
                return run;
            }
            note(&run, START_EVENT, 0);
            run.phase = SITANKULO_STARTED;
        } else if (word == 0x0900 + count && count > 0) {
            uint8_t first = list->fifo[used < list->fifo_length ? used : 0];
            if (list->fifo_length - used < count || !is_one_of(run.phase, SITANKULO_STARTED, SITANKULO_WRITING, SITANKULO_WRITING) ||
                (run.phase == SITANKULO_STARTED && first % 2 == 1 && count != 1)) {
                return run;
            }
            for (i = 0; i < count; i++) {
                uint8_t byte = list->fifo[used++];
                sent++;
                if (sent == sensor->refuses) {
                    note(&run, SENT_NACK, byte);
                    run.ending = SITANKULO_UNANSWERED;
                    return run;
                }
                note(&run, SENT, byte);
            }
            run.phase = run.phase == SITANKULO_STARTED && first % 2 == 1 ? SITANKULO_READING : SITANKULO_WRITING;
        } else if ((word == 0x1800 + count && count > 0) || word == 0x1C01) {
            if (run.phase != SITANKULO_READING || run.received_count + count > 32) {
                return run;
            }
            for (i = 0; i < count; i++) {
                uint8_t byte = run.received_count < sensor->sends_length ? sensor->sends[run.received_count] : 255;
                run.received[run.received_count++] = byte;
                note(&run, word == 0x1C01 ? GOT_NACK : GOT, byte);
            }
            run.phase = word == 0x1C01 ? SITANKULO_READ_DONE : SITANKULO_READING;
        } else if (word == 0x1000 || word == 0x2000) {
            int stop = word == 0x1000;
            if (used < list->fifo_length || (stop && !is_one_of(run.phase, SITANKULO_WRITING, SITANKULO_READ_DONE, SITANKULO_READ_DONE)) ||
                (!stop && is_one_of(run.phase, SITANKULO_IDLE, SITANKULO_STARTED, SITANKULO_STARTED))) {
                return run;
            }
            if (stop) {
                note(&run, STOP_EVENT, 0);
                run.phase = SITANKULO_IDLE;
            }
            run.ending = 0;
            return run;
        } else {
            return run;
        }
    }
    return run;
}

static void ask_model(const struct list *list, const struct sensor *sensor, size_t received_room, size_t events_room) {
    struct run run = run_of(list, sensor);
    uint8_t bytes[32];
    struct lent words, fifo = lend_bytes(list->fifo, list->fifo_length), sends = lend_bytes(sensor->sends, sensor->sends_length);
    struct lent received = lend(received_room), events = lend(events_room);
    uint32_t expected = SITANKULO_ROOM;
    put_words(list->words, bytes);
    words = lend_bytes(bytes, 32);
    if (received_room >= run.received_count && events_room >= 2 * run.event_count) {
        expect(&received, 0, run.received, run.received_count);
        expect(&events, 0, run.events, 2 * run.event_count);
        expected = answer_of(run.ending, run.ending == 0 ? run.phase : 0) | (uint32_t)run.received_count << 16 |
                   (uint32_t)run.event_count << 24;
    }
    CHECK_ANSWER(expected, sitankulo_model_run(words.at, 32, fifo.at, fifo.size, list->phase, sends.at, sends.size, sensor->refuses,
                                               received.at, received_room, events.at, events_room));
    TAKE_BACK(&words);
    TAKE_BACK(&fifo);
    TAKE_BACK(&sends);
    TAKE_BACK(&received);
    TAKE_BACK(&events);
}

/* The inspector passes what the model runs against a sensor that acknowledges all. */
static void ask_inspector(const struct list *list) {
    static const struct sensor willing = {NULL, 0, 0};
    struct run run = run_of(list, &willing);
    uint8_t bytes[32];
    struct lent words, fifo = lend_bytes(list->fifo, list->fifo_length);
    put_words(list->words, bytes);
    words = lend_bytes(bytes, 32);
    CHECK_ANSWER(run.ending == 0 ? answer_of(0, run.phase) : SITANKULO_LIST_REFUSED,
                 sitankulo_inspect(words.at, 32, fifo.at, fifo.size, list->phase));
    TAKE_BACK(&words);
    TAKE_BACK(&fifo);
}

static void ask(const struct list *list) {
    static const uint8_t sends[] = {0x11, 0x22, 0x33};
    struct sensor sensor = {sends, 0, 0};
    struct run run;
    ask_inspector(list);
    for (sensor.sends_length = 0; sensor.sends_length <= 3; sensor.sends_length += 3) {
        for (sensor.refuses = 0; sensor.refuses <= 4; sensor.refuses++) {
            run = run_of(list, &sensor);
            ask_model(list, &sensor, MOST_RECEIVED, 2 * MOST_EVENTS);
            ask_model(list, &sensor, run.received_count, 2 * run.event_count);
            if (run.received_count > 0) {
                ask_model(list, &sensor, run.received_count - 1, 2 * run.event_count);
            }
            if (run.event_count > 0) {
                ask_model(list, &sensor, run.received_count, 2 * run.event_count - 1);
            }
        }
    }
}

/* Lists, planned and not, from every phase and from numbers that are none. */
static const uint32_t tables[][8] = {
    {0x3000, 0x0902, 0x2000},
    {0x3000, 0x0901, 0x1801, 0x1C01, 0x1000},
    {0x3000, 0x0901, 0x1000},
    {0x0901, 0x1000, 0x2000},
    {0x1000, 0x2000},
    {0x2000},
    {0x1C01, 0x1000},
    {0x1820, 0x2000},
    {0x1821, 0x2000},
    {0x181F, 0x1C01, 0x1000},
    {0x1820, 0x1C01, 0x1000},
    {0x3000, 0x0903, 0x2000},
    {0x3000, 0x3000, 0x2000},
    {0},
    {0x3000, 0, 0x2000},
    {0x3000, 0x0902},
    {0x80003000u, 0x0902, 0x2000},
    {0x3000, 0x0900, 0x2000},
    {0x3000, 0x0902, 0x2001},
    {0x1C02, 0x1000},
    {0x0901, 0x0901, 0x0901, 0x0901, 0x0901, 0x0901, 0x0901, 0x0901},
    {0x3000, 0x0901, 0x3000, 0x0901, 0x1801, 0x1C01, 0x1000},
    {0x09FF, 0x2000},
    {UINT32_MAX},
};

static void test_lists_and_phases(void) {
    static const uint32_t phases[] = {0, 1, 2, 3, 4, 5, 256, UINT32_MAX};
    static const size_t lengths[] = {0, 1, 2, 3, 8, 31, 32, 33, 40};
    static const uint8_t firsts[] = {0x52, 0x53};
    struct list list;
    size_t table, phase, length, first;
    for (table = 0; table < sizeof tables / sizeof *tables; table++) {
        for (phase = 0; phase < sizeof phases / sizeof *phases; phase++) {
            for (length = 0; length < sizeof lengths / sizeof *lengths; length++) {
                for (first = 0; first < sizeof firsts; first++) {
                    memcpy(list.words, tables[table], sizeof list.words);
                    memset(list.fifo, 0xA0, sizeof list.fifo);
                    list.fifo[0] = list.fifo[1] = firsts[first];
                    list.fifo_length = lengths[length];
                    list.phase = phases[phase];
                    ask(&list);
                }
            }
        }
    }
}

/* A full FIFO, the most bytes received, and both in one list: 67 events. */
static void test_longest(void) {
    struct list both = {{0x3000, 0x091F, 0x3000, 0x0901, 0x181F, 0x1C01, 0x1000}, {0}, 32, SITANKULO_IDLE};
    struct list writes = {{0x3000, 0x0920, 0x2000}, {0}, 32, SITANKULO_IDLE};
    struct list reads = {{0x181F, 0x1801, 0x2000}, {0}, 0, SITANKULO_READING};
    struct list refused = {{0x3000, 0x0920, 0x2000}, {0}, 32, SITANKULO_IDLE};
    static const struct sensor willing = {NULL, 0, 0}, last = {NULL, 0, 32}, beyond = {NULL, 0, 33}, never = {NULL, 0, SIZE_MAX};
    both.fifo[31] = 0x53;
    CHECK(run_of(&both, &willing).ending == 0 && run_of(&both, &willing).event_count == 67);
    ask(&both);
    ask(&writes);
    ask(&reads);
    ask_model(&refused, &willing, 0, 2 * 33);
    ask_model(&refused, &last, 0, 2 * 33);
    ask_model(&refused, &beyond, 0, 2 * 33);
    ask_model(&refused, &never, 0, 2 * 33);
}

/* Words that are not 32 bytes are refused before the room is looked at; null, overlapping and overlong memory. */
static void test_odd_memory(void) {
    static const struct list list = {{0x3000, 0x0901, 0x1000}, {0x52}, 1, 0};
    uint8_t bytes[64] = {0}, received[32], events[2 * MOST_EVENTS];
    size_t length;
    put_words(list.words, bytes);
    for (length = 0; length <= 64; length++) {
        if (length != 32) {
            CHECK_ANSWER(SITANKULO_LIST_REFUSED, sitankulo_inspect(bytes, length, list.fifo, 1, 0));
            CHECK_ANSWER(SITANKULO_LIST_REFUSED, sitankulo_model_run(bytes, length, list.fifo, 1, 0, NULL, 0, 0, NULL, 0, NULL, 0));
        }
    }
    CHECK_ANSWER(SITANKULO_LIST_REFUSED, sitankulo_inspect(NULL, 0, NULL, 0, 0));
    CHECK_ANSWER(SITANKULO_LIST_REFUSED, sitankulo_inspect(bytes, SIZE_MAX, NULL, 0, 0));
    CHECK_ANSWER(SITANKULO_LIST_REFUSED, sitankulo_inspect(bytes, 32, list.fifo, SIZE_MAX, 0));
    CHECK_ANSWER(SITANKULO_LIST_REFUSED, sitankulo_inspect(bytes, 32, NULL, 0, 0));
    CHECK_ANSWER(SITANKULO_STUCK, sitankulo_model_run(bytes, 32, list.fifo, SIZE_MAX, 0, NULL, 0, 0, NULL, 0, NULL, 0));
    CHECK_ANSWER(SITANKULO_ROOM, sitankulo_model_run(bytes, 32, list.fifo, 1, 0, NULL, 0, 0, NULL, 0, NULL, 0));
    CHECK_ANSWER(SITANKULO_LIST_REFUSED, sitankulo_inspect(bytes, 32, bytes, 32, 0));
    CHECK_ANSWER(0u | 3u << 24, sitankulo_model_run(bytes, 32, bytes + 31, 1, 0, bytes, 32, 0, received, 32, events, sizeof events));
}

void test_controller(void) {
    test_lists_and_phases();
    test_longest();
    test_odd_memory();
}
