/* A printer's firmware loop over the library: it fetches the white reference of a colour sensor, and meets what can go wrong.
 *
 * The controller and the sensor are simulated here, by the library's own model. In a printer the three functions of "the hardware" write
 * and read registers and pins; all else stays as it is.
 *
 *     make lib
 *     cc -std=c99 -Iinclude examples/firmware.c target/library/libsitankulo.a -o firmware && ./firmware
 */
#include <sitankulo.h>
#include <stdio.h>
#include <string.h>

enum { SENSOR = 0x29, REFERENCE_SIZE = 36, MICROSECONDS_A_BYTE = 100 };

/* Write the register A0, then read 36 bytes. */
static const uint8_t fetch_white_reference[] = {1, 0, 7, 0, 1, 0, 0xA0, 0, REFERENCE_SIZE, 1};

/* ---- the hardware, simulated */

static struct {
    uint64_t clock;
    uint32_t phase;         /* of the bus, between lists */
    size_t refuses;         /* the sensor does not acknowledge the written byte of this number; 0: it acknowledges all */
    int silent;             /* the sensor stretches the clock and never lets go */
    int held_for;           /* it holds SDA low until so many rises of SCL */
    size_t sent;            /* how many bytes of the reference were sent */
    uint8_t words[SITANKULO_WORDS_SIZE];
    uint8_t received[SITANKULO_FIFO_SIZE];
    size_t received_count;
    uint8_t bits;           /* what the status registers show */
} hardware;

static uint8_t reference_byte(size_t place) {
    return (uint8_t)(200 + 3 * place);
}

/* Loads a list and starts the controller. */
static void start_controller(const uint8_t *words, const uint8_t *fifo, size_t fifo_count) {
    uint8_t sends[SITANKULO_FIFO_SIZE], events[144];
    uint32_t ran;
    size_t i;
    memcpy(hardware.words, words, sizeof hardware.words);
    hardware.bits = 0;
    hardware.received_count = 0;
    if (hardware.silent) {
        return;
    }
    for (i = 0; i < sizeof sends; i++) {
        sends[i] = reference_byte(hardware.sent + i);
    }
    ran = sitankulo_model_run(words, SITANKULO_WORDS_SIZE, fifo, fifo_count, hardware.phase, sends, sizeof sends, hardware.refuses,
                              hardware.received, sizeof hardware.received, events, sizeof events);
    if (SITANKULO_NUMBER(ran) == SITANKULO_UNANSWERED) {
        hardware.bits = 1; /* nack */
        return;
    }
    hardware.phase = SITANKULO_DETAIL(ran);
    hardware.received_count = SITANKULO_RECEIVED(ran);
    hardware.sent += hardware.received_count;
    hardware.bits = 32 + 64; /* response received, transfer complete */
    for (i = 0; i < sizeof hardware.words; i += 4) {
        hardware.words[i] |= 0x80; /* done */
    }
}

static void set_pin(uint8_t change) {
    static const char *const names[] = {"SCL low", "SCL high", "SDA low", "SDA high"};
    printf(" %s;", names[change]);
    if (change == SITANKULO_SCL_HIGH && hardware.held_for > 0) {
        hardware.held_for--;
    }
}

static uint8_t read_sda(void) {
    return hardware.held_for == 0;
}

/* ---- the firmware */

static void print_refusal(const char *what, uint32_t answer) {
    uint8_t name[SITANKULO_NAME_SIZE];
    uint32_t named = sitankulo_refusal_name(SITANKULO_NUMBER(answer), name, sizeof name);
    printf("  %s: %.*s (%u)", what, (int)SITANKULO_DETAIL(named), (const char *)name, SITANKULO_NUMBER(answer));
    printf(SITANKULO_DETAIL(answer) != 0 ? ", reason %u\n" : "\n", SITANKULO_DETAIL(answer));
}

/* Clears the bus by its pins: 1 if it is free. */
static int clear_bus(uint64_t limit) {
    uint8_t clear[SITANKULO_CLEAR_SIZE], changes[2], i;
    uint64_t start = hardware.clock;
    uint32_t answer = sitankulo_clear_fresh(clear, sizeof clear, 1, start, changes, sizeof changes);
    printf("  clearing the bus:");
    for (;;) {
        for (i = 0; i < SITANKULO_DETAIL(answer); i++) {
            set_pin(changes[i]);
        }
        hardware.clock++;
        if (hardware.clock - start > limit) {
            printf(" given up\n");
            return 0;
        }
        answer = sitankulo_clear_step(clear, sizeof clear, 1, hardware.clock, read_sda(), changes, sizeof changes);
        if (SITANKULO_NUMBER(answer) == 0) {
            printf(" free after %lu microseconds\n", (unsigned long)(hardware.clock - start));
            hardware.phase = SITANKULO_IDLE;
            return 1;
        }
    }
}

/* Waits for the list that the controller runs: 0, or why the transaction has ended. */
static uint32_t wait_for_list(uint8_t *record, uint8_t *buffer, size_t room) {
    uint32_t answer;
    do {
        hardware.clock += 20;
        answer = sitankulo_complete(record, SITANKULO_RECORD_SIZE, SENSOR, fetch_white_reference, sizeof fetch_white_reference,
                                    hardware.bits, hardware.words, sizeof hardware.words, hardware.clock, hardware.received,
                                    hardware.received_count, buffer, room);
    } while (answer == SITANKULO_PENDING);
    return answer;
}

/* Fetches the white reference: SITANKULO_NONE when it stands in the buffer, or why it does not. */
static uint32_t fetch(uint8_t *buffer, size_t room, uint8_t busy) {
    uint8_t record[SITANKULO_RECORD_SIZE], words[SITANKULO_WORDS_SIZE], fifo[SITANKULO_FIFO_SIZE];
    uint32_t answer = sitankulo_begin(record, sizeof record, SITANKULO_DEADLINE_PER_BYTE, MICROSECONDS_A_BYTE, SENSOR,
                                      fetch_white_reference, sizeof fetch_white_reference, room, busy, hardware.clock);
    hardware.sent = 0;
    if (answer == SITANKULO_CLEAR) {
        printf("  the bus is busy\n");
        answer = clear_bus(1000) ? 0 : SITANKULO_TIMEOUT;
    }
    while (answer == 0) {
        answer = sitankulo_next(record, sizeof record, SITANKULO_DEADLINE_PER_BYTE, MICROSECONDS_A_BYTE, SENSOR, fetch_white_reference,
                                sizeof fetch_white_reference, hardware.clock, words, sizeof words, fifo, sizeof fifo);
        if (SITANKULO_NUMBER(answer) != 0) {
            return answer;
        }
        printf("  list: %2u bytes into the FIFO", SITANKULO_DETAIL(answer));
        start_controller(words, fifo, SITANKULO_DETAIL(answer));
        answer = wait_for_list(record, buffer, room);
        printf(answer == 0 ? ", %2u received\n" : ", not done\n", (unsigned)hardware.received_count);
    }
    return answer;
}

static int is_white_reference(const uint8_t *buffer) {
    size_t i;
    for (i = 0; i < REFERENCE_SIZE; i++) {
        if (buffer[i] != reference_byte(i)) {
            return 0;
        }
    }
    return 1;
}

/* Fetches the reference and says what came of it: whether that is what was expected. */
static int try_fetch(const char *story, uint8_t busy, uint32_t expected) {
    uint8_t buffer[REFERENCE_SIZE] = {0};
    uint32_t answer;
    printf("%s\n", story);
    answer = fetch(buffer, sizeof buffer, busy);
    if (answer == SITANKULO_NONE) {
        printf("  the white reference is %s\n", is_white_reference(buffer) ? "here" : "WRONG");
        return expected == SITANKULO_NONE && is_white_reference(buffer);
    }
    print_refusal("no white reference", answer);
    return SITANKULO_NUMBER(answer) == expected;
}

int main(void) {
    int well = try_fetch("The sensor answers.", 0, SITANKULO_NONE);

    hardware.refuses = 2;
    well &= try_fetch("The sensor refuses the register's number.", 0, SITANKULO_ACKNOWLEDGE_CHECK_FAILED);
    hardware.refuses = 0;
    hardware.phase = SITANKULO_IDLE;

    hardware.held_for = 3;
    well &= try_fetch("The sensor holds SDA low.", 1, SITANKULO_NONE);

    hardware.silent = 1;
    well &= try_fetch("The sensor falls silent.", 0, SITANKULO_TIMEOUT);
    hardware.silent = 0;
    hardware.held_for = 9;
    well &= clear_bus(1000);
    well &= try_fetch("Once more, after the bus was cleared.", 0, SITANKULO_NONE);

    puts(well ? "All as it should be." : "NOT as it should be.");
    return well ? 0 : 1;
}
