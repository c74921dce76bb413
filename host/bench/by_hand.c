/* The calls that are counted, written by hand in C for speed alone: what calls over numbers and byte slices cost at least. Nothing here is
 * proved or shipped. A call that is not counted answers nothing useful. */
#include <string.h>

#include "../../include/sitankulo.h"

enum { OUTSTANDING = 1, POLLED = 2, FAILED = 4, HAS_DUE = 8, HAS_FIXED = 16, ALL_FLAGS = 31 };

static inline uint64_t number_at(const uint8_t *bytes) {
    uint64_t number;
    memcpy(&number, bytes, 8);
    return __builtin_bswap64(number);
}

static inline void put_number(uint8_t *bytes, uint64_t number) {
    number = __builtin_bswap64(number);
    memcpy(bytes, &number, 8);
}

static inline uint32_t word_at(const uint8_t *bytes) {
    uint32_t word;
    memcpy(&word, bytes, 4);
    return __builtin_bswap32(word);
}

static inline uint8_t *put_word(uint8_t *bytes, uint32_t word) {
    word = __builtin_bswap32(word);
    memcpy(bytes, &word, 4);
    return bytes + 4;
}

/* ---- scripts */

static uint32_t check(uint32_t address, const uint8_t *script, size_t length, size_t *total) {
    if (address > 127) return SITANKULO_ADDRESS_INVALID;
    if (length < 3) return SITANKULO_SHAPE;
    if (script[0] != 1) return SITANKULO_VERSION;
    size_t field = script[1] * 256u + script[2];
    if (field > SITANKULO_MOST) return SITANKULO_SIZE;
    if (field != length - 3) return SITANKULO_SHAPE;
    size_t at = 3, sum = 0;
    while (at < length) {
        if (length - at < 3) return SITANKULO_SHAPE;
        size_t n = script[at] * 256u + script[at + 1];
        uint8_t kind = script[at + 2];
        at += 3;
        if (kind == 1) {
            sum += n;
        } else {
            if (kind != 0 || length - at < n) return SITANKULO_SHAPE;
            at += n;
        }
    }
    if (sum > SITANKULO_MOST) return SITANKULO_SIZE;
    *total = sum;
    return 0;
}

struct operation {
    int there, reads;
    size_t length, end;
};

/* The kept operation at a place of an accepted script. */
static inline struct operation kept_at(const uint8_t *script, size_t length, size_t at) {
    while (at < length) {
        size_t n = script[at] * 256u + script[at + 1];
        int reads = script[at + 2];
        at += 3;
        if (!reads) return (struct operation){1, 0, n, at + n};
        if (n) return (struct operation){1, 1, n, at};
    }
    return (struct operation){0, 0, 0, at};
}

struct piece {
    int there, over, reads, start, stop, continues;
    size_t from, length, landing;
};

/* The piece at a record's place. */
static inline struct piece locate(const uint8_t *script, size_t length, uint64_t place) {
    int any = 0, before_reads = 0;
    size_t landing = 0;
    struct operation here = kept_at(script, length, 3);
    while (here.there) {
        struct operation next = kept_at(script, length, here.end);
        int start = !any || before_reads != here.reads;
        size_t lists = here.length ? (here.length - 1) / 31 + 1 : (size_t)(start || !next.there);
        if (place < lists) {
            size_t from = place * 31;
            if (from && here.length - from <= 2) from -= 2;
            size_t left = here.length - from;
            int last = place + 1 == lists;
            return (struct piece){
                1, 0, here.reads, start && place == 0, last && !next.there, !last || (next.there && next.reads),
                here.end - here.length + from, left <= 31 ? left : left <= 33 ? 29 : 31, landing + (here.reads ? from : 0)};
        }
        place -= lists;
        if (here.reads) landing += here.length;
        any = 1;
        before_reads = here.reads;
        here = next;
    }
    return (struct piece){.over = place == 0};
}

/* ---- transactions */

static inline int is_ours(const uint8_t *record, size_t length, uint64_t *due, uint64_t *fixed) {
    if (length < SITANKULO_RECORD_SIZE) return 0;
    *due = number_at(record + 9);
    *fixed = number_at(record + 17);
    uint8_t flags = record[0];
    if (flags > ALL_FLAGS || (!(flags & HAS_DUE) && *due) || (!(flags & HAS_FIXED) && *fixed)) return 0;
    return flags & OUTSTANDING ? !(flags & FAILED) : !(flags & (POLLED | HAS_DUE));
}

uint32_t sitankulo_begin(uint8_t *record, size_t record_room, uint8_t deadline, uint64_t duration, uint32_t address,
                         const uint8_t *script, size_t script_length, size_t read_room, uint8_t busy, uint64_t time) {
    if (deadline > 2) return SITANKULO_SHAPE;
    size_t total;
    uint32_t refusal = check(address, script, script_length, &total);
    if (refusal) return refusal;
    if (read_room < total || record_room < SITANKULO_RECORD_SIZE) return SITANKULO_ROOM;
    uint64_t fixed = deadline == 1 ? time + duration : 0;
    if (deadline == 1 && fixed < time) return SITANKULO_CLOCK_RANGE;
    record[0] = deadline == 1 ? HAS_FIXED : 0;
    put_number(record + 1, 0);
    put_number(record + 9, 0);
    put_number(record + 17, fixed);
    return busy ? SITANKULO_CLEAR : 0;
}

static inline void put_words(uint8_t *words, const struct piece *piece, size_t count) {
    memset(words, 0, SITANKULO_WORDS_SIZE);
    if (piece->start) words = put_word(words, 0x3000);
    if (count) words = put_word(words, 0x900 + (uint32_t)count);
    if (piece->reads) {
        uint32_t acknowledged = (uint32_t)piece->length - !piece->continues;
        if (acknowledged) words = put_word(words, 0x1800 + acknowledged);
        if (!piece->continues) words = put_word(words, 0x1C01);
    }
    if (piece->stop) words = put_word(words, 0x1000);
    if (!(piece->start && piece->stop)) put_word(words, 0x2000);
}

uint32_t sitankulo_next(uint8_t *record, size_t record_length, uint8_t deadline, uint64_t duration, uint32_t address,
                        const uint8_t *script, size_t script_length, uint64_t time,
                        uint8_t *words, size_t words_room, uint8_t *fifo, size_t fifo_room) {
    if (deadline > 2) return SITANKULO_SHAPE;
    size_t total;
    uint64_t due, fixed;
    uint32_t refusal = check(address, script, script_length, &total);
    if (refusal) return refusal;
    if (!is_ours(record, record_length, &due, &fixed)) return SITANKULO_SHAPE;
    uint8_t flags = record[0];
    struct piece piece = locate(script, script_length, number_at(record + 1));
    if (!piece.there && (!piece.over || (flags & OUTSTANDING))) return SITANKULO_SHAPE;
    if (flags & (OUTSTANDING | FAILED)) return SITANKULO_OUT_OF_TURN;
    if (!piece.there) return SITANKULO_NONE;
    due = 0;
    if (deadline == 1 && (flags & HAS_FIXED)) {
        due = fixed;
        flags |= HAS_DUE;
    } else if (deadline == 2) {
        uint64_t bytes = piece.length + 1;
        if (duration > (UINT64_MAX - time) / bytes) return SITANKULO_CLOCK_RANGE;
        due = time + duration * bytes;
        flags |= HAS_DUE;
    }
    size_t count = (size_t)piece.start + (piece.reads ? 0 : piece.length);
    if (words_room < SITANKULO_WORDS_SIZE || fifo_room < count) return SITANKULO_ROOM;
    put_words(words, &piece, count);
    if (piece.start) *fifo++ = (uint8_t)(address * 2 + (uint32_t)piece.reads);
    if (!piece.reads) memcpy(fifo, script + piece.from, piece.length);
    record[0] = flags | OUTSTANDING;
    put_number(record + 9, due);
    return (uint32_t)count << 8;
}

static inline uint32_t error_in(uint8_t bits) {
    if (bits & 1) return SITANKULO_ACKNOWLEDGE_CHECK_FAILED | SITANKULO_REASON_UNKNOWN << 8;
    if (bits & 2) return SITANKULO_ARBITRATION_LOST;
    if ((bits & 0x60) == 0x40) return SITANKULO_ACKNOWLEDGE_CHECK_FAILED | SITANKULO_REASON_DATA << 8;
    return bits & 0x1C ? SITANKULO_TIMEOUT : 0;
}

static inline uint32_t classified(uint8_t bits, const uint8_t *commands, uint64_t time, int polled, int limited, uint64_t due) {
    uint32_t error = error_in(bits);
    int past = limited && due < time;
    if (!polled) {
        if (!(bits & 0xC0)) return error ? error : past ? SITANKULO_TIMEOUT : SITANKULO_PENDING;
        if (error && error != SITANKULO_TIMEOUT) return error;
    }
    if (error) return error | 1u << 16;
    for (int slot = 0; slot < 8; slot++) {
        uint32_t word = word_at(commands + 4 * slot), opcode = word >> 11 & 7;
        if (!word) continue;
        if (opcode == 4) break;
        if (!(word >> 31)) return (past ? SITANKULO_EXECUTION_INCOMPLETE : SITANKULO_PENDING) | 1u << 16;
        if (opcode == 2) break;
    }
    return 1u << 16;
}

uint32_t sitankulo_classify(uint8_t bits, const uint8_t *commands, size_t commands_length, uint64_t time,
                            uint8_t polled, uint8_t limited, uint64_t due) {
    if (commands_length != SITANKULO_WORDS_SIZE) return SITANKULO_LIST_REFUSED;
    return classified(bits, commands, time, polled, limited, due);
}

uint32_t sitankulo_complete(uint8_t *record, size_t record_length, uint32_t address, const uint8_t *script, size_t script_length,
                            uint8_t bits, const uint8_t *commands, size_t commands_length, uint64_t time,
                            const uint8_t *received, size_t received_length, uint8_t *buffer, size_t buffer_room) {
    if (commands_length != SITANKULO_WORDS_SIZE) return SITANKULO_LIST_REFUSED;
    size_t total;
    uint64_t due, fixed;
    uint32_t refusal = check(address, script, script_length, &total);
    if (refusal) return refusal;
    if (!is_ours(record, record_length, &due, &fixed)) return SITANKULO_SHAPE;
    uint8_t flags = record[0];
    uint64_t place = number_at(record + 1);
    struct piece piece = locate(script, script_length, place);
    if (!piece.there && (!piece.over || (flags & OUTSTANDING))) return SITANKULO_SHAPE;
    if (!(flags & OUTSTANDING)) return SITANKULO_OUT_OF_TURN;
    if (buffer_room < total) return SITANKULO_ROOM;
    uint32_t told = classified(bits, commands, time, flags & POLLED, flags & HAS_DUE, due), answer = told & 0xFFFF;
    if (answer == SITANKULO_PENDING) {
        if (told >> 16) record[0] = flags | POLLED;
        return answer;
    }
    if (!answer && piece.reads) {
        if (received_length < piece.length) {
            answer = SITANKULO_EXECUTION_INCOMPLETE;
        } else {
            memcpy(buffer + piece.landing, received, piece.length);
        }
    }
    record[0] = (flags & HAS_FIXED) | (answer ? FAILED : 0);
    put_number(record + 1, place + !answer);
    put_number(record + 9, 0);
    return answer;
}

/* ---- bus clear */

enum { IDLE, SEND_STOP, CLOCK_LOW, CLOCK_HIGH };
enum { SCL_LOW, SCL_HIGH, SDA_LOW, SDA_HIGH };

uint32_t sitankulo_clear_fresh(uint8_t *clear, size_t clear_room, uint8_t pins, uint64_t time, uint8_t *changes, size_t changes_room) {
    size_t count = pins ? 2 : 0;
    if (clear_room < SITANKULO_CLEAR_SIZE || changes_room < count) return SITANKULO_ROOM;
    clear[0] = pins ? CLOCK_LOW : IDLE;
    clear[1] = pins ? 9 : 0;
    put_number(clear + 2, time);
    if (pins) {
        changes[0] = SCL_LOW;
        changes[1] = SDA_HIGH;
    }
    return (uint32_t)count << 8;
}

uint32_t sitankulo_clear_step(uint8_t *clear, size_t clear_length, uint8_t pins, uint64_t time, uint8_t sda,
                              uint8_t *changes, size_t changes_room) {
    if (clear_length < SITANKULO_CLEAR_SIZE) return SITANKULO_SHAPE;
    uint8_t state = clear[0], clocks = clear[1], made[2] = {0, 0};
    uint64_t wait = number_at(clear + 2);
    size_t count = 0;
    if (state > CLOCK_HIGH || (state < CLOCK_LOW && clocks)) return SITANKULO_SHAPE;
    if (state == IDLE) return !pins || sda ? 0 : SITANKULO_PENDING;
    if (time < wait) return SITANKULO_PENDING;
    if (state == SEND_STOP) {
        state = IDLE;
        made[count++] = SDA_HIGH;
    } else {
        if (time > UINT64_MAX - 5) return SITANKULO_CLOCK_RANGE;
        wait = time + 5;
        if (state == CLOCK_HIGH) {
            state = CLOCK_LOW;
            made[count++] = SCL_LOW;
        } else if (clocks == 0) {
            state = SEND_STOP;
            made[count++] = SDA_LOW;
            made[count++] = SCL_HIGH;
        } else {
            made[count++] = SCL_HIGH;
            if (pins && sda) {
                state = SEND_STOP;
                clocks = 0;
                made[count++] = SDA_LOW;
            } else {
                state = CLOCK_HIGH;
                clocks--;
            }
        }
    }
    if (!pins) count = 0;
    if (changes_room < count) return SITANKULO_ROOM;
    clear[0] = state;
    clear[1] = clocks;
    put_number(clear + 2, wait);
    for (size_t i = 0; i < count; i++) changes[i] = made[i];
    return SITANKULO_PENDING | (uint32_t)count << 8;
}

uint32_t sitankulo_inspect(const uint8_t *words, size_t words_length, const uint8_t *fifo, size_t fifo_length, uint32_t phase) {
    (void)words, (void)words_length, (void)fifo, (void)fifo_length, (void)phase;
    return SITANKULO_LIST_REFUSED;
}
