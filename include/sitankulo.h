/* Sitankulo: the logic of an I2C master, proved.
 *
 * The library plans command lists for a controller with a FIFO of 32 bytes and eight command slots, says what a snapshot of the
 * controller means, inspects lists, and clears a bus that a sensor holds. It touches no register, no clock and no pin: what it has to
 * know is handed in, and what is to be done is handed back. It keeps nothing between calls, allocates nothing and calls nothing.
 *
 * Every call answers a number:
 *
 *     bits 0 to 7     0, a code below, or a refusal, 1 to 14      SITANKULO_NUMBER(answer)
 *     bits 8 to 15    what the call says of its answer             SITANKULO_DETAIL(answer)
 *     bits 16 to 31   0 but where a call says otherwise
 *
 * A refused call writes no byte anywhere. A call that is not refused writes only what it says here; bytes beyond stay as they are.
 *
 * A record or a clear may lie in memory that is longer than it; what is beyond is neither read nor written.
 *
 * A pointer may be null where its length is 0. Memory that is lent for writing must not overlap any other memory of the same call; what is
 * only read may overlap. A flag is a byte: 0 is no, any other value is yes. Numbers in memory are big-endian. Times are in microseconds.
 *
 * The driving of a transaction, in short:
 *
 *     sitankulo_begin, and clear the bus first if it answers SITANKULO_CLEAR
 *     sitankulo_next, until it answers SITANKULO_NONE:
 *         load the FIFO and the command slots, start the controller
 *         sitankulo_complete with a snapshot, again while it answers SITANKULO_PENDING
 *         anything but 0 ends the transaction
 *
 * Every call on one transaction takes the same script, address, deadline kind and duration. The record is the only thing that changes.
 */
#ifndef SITANKULO_H
#define SITANKULO_H

#include <stddef.h>
#include <stdint.h>

#ifdef __cplusplus
extern "C" {
#endif

#define SITANKULO_NUMBER(answer) ((uint8_t)((answer) & 0xFFu))
#define SITANKULO_DETAIL(answer) ((uint8_t)(((answer) >> 8) & 0xFFu))

/* ---- refusals; each call lists its own, in the order in which they are looked for */

#define SITANKULO_ADDRESS_INVALID 1u           /* an address above 127 */
#define SITANKULO_ZERO_LENGTH_INVALID 2u       /* a list for a read of 0 bytes */
#define SITANKULO_FIFO_EXCEEDED 3u             /* more bytes than one list takes */
#define SITANKULO_VERSION 4u                   /* the script's first byte is not 1 */
#define SITANKULO_SHAPE 5u                     /* a malformed script; a record or clear that no call left; an unknown deadline kind */
#define SITANKULO_SIZE 6u                      /* a body above 4,096 bytes, or more than 4,096 bytes to read */
#define SITANKULO_ROOM 7u                      /* the read buffer, or memory lent for an answer, is too short */
#define SITANKULO_EXECUTION_INCOMPLETE 8u      /* commands not done in time, or bytes missing; ends the transaction */
#define SITANKULO_ACKNOWLEDGE_CHECK_FAILED 9u  /* a byte was not acknowledged; the detail is the reason; ends the transaction */
#define SITANKULO_ARBITRATION_LOST 10u         /* ends the transaction */
#define SITANKULO_TIMEOUT 11u                  /* ends the transaction */
#define SITANKULO_OUT_OF_TURN 12u              /* a list is outstanding or the transaction has failed; or no list is outstanding */
#define SITANKULO_CLOCK_RANGE 13u              /* a time sum exceeds 64 bits */
#define SITANKULO_LIST_REFUSED 14u             /* the inspector's no; command words that are not 32 bytes */

/* reasons, with SITANKULO_ACKNOWLEDGE_CHECK_FAILED */
#define SITANKULO_REASON_ADDRESS 1u
#define SITANKULO_REASON_DATA 2u
#define SITANKULO_REASON_UNKNOWN 3u

/* ---- answers that are no refusals; 0 is success */

#define SITANKULO_STUCK 247u       /* a run on the model: the list hangs the controller */
#define SITANKULO_UNANSWERED 248u  /* a run on the model: the sensor did not acknowledge a byte */
#define SITANKULO_GIVEN_UP 249u    /* a clear run: the limit is exceeded */
#define SITANKULO_SPENT 250u       /* a clear run: all polls are taken */
#define SITANKULO_TAPE_OVER 251u   /* a clear run: no sample is left */
#define SITANKULO_CLOCK_ENDED 252u /* a clear run: a time sum would exceed 64 bits */
#define SITANKULO_CLEAR 253u       /* begin: clear the bus first, without a reset; abandoning: reset the controller and clear the bus */
#define SITANKULO_NONE 254u        /* next: no list is left, the transaction has succeeded; a name: no refusal has this number */
#define SITANKULO_PENDING 255u     /* not yet */

/* ---- sizes in bytes */

#define SITANKULO_WORDS_SIZE 32u   /* eight command words of four bytes */
#define SITANKULO_FIFO_SIZE 32u    /* no list has more FIFO bytes */
#define SITANKULO_RECORD_SIZE 25u
#define SITANKULO_CLEAR_SIZE 10u
#define SITANKULO_REPORT_SIZE 17u
#define SITANKULO_NAME_SIZE 22u    /* no name of a refusal is longer */
#define SITANKULO_MOST 4096u       /* a script's body, and its read total */

/* ---- one command list
 *
 * A list is eight command words, 32 bytes, unused ones 0, and the bytes for the FIFO. Its answer's detail is how many bytes go into the
 * FIFO. `words` gets 32 bytes, `fifo` as many as that.
 */

/* flags; other bits are ignored, and CONTINUES by a write */
#define SITANKULO_START 1u     /* START and the address come first */
#define SITANKULO_STOP 2u      /* STOP comes last */
#define SITANKULO_CONTINUES 4u /* a read whose last byte is acknowledged, since another read follows */

/* 0, or 1, 3, 7. Up to 31 bytes with START, 32 without. */
uint32_t sitankulo_build_write(uint32_t address, const uint8_t *bytes, size_t n, uint8_t flags,
                               uint8_t *words, size_t words_room, uint8_t *fifo, size_t fifo_room);

/* 0, or 1, 2, 3, 7. Up to 32 bytes if it continues, 31 otherwise. */
uint32_t sitankulo_build_read(uint32_t address, size_t n, uint8_t flags,
                              uint8_t *words, size_t words_room, uint8_t *fifo, size_t fifo_room);

/* ---- transactions
 *
 * A script: the byte 1; the length of what follows in two bytes; then records. A record: a length in two bytes; 0 for a write, with that
 * many bytes after it, or 1 for a read.
 *
 * A record of a transaction, 25 bytes: byte 0 holds flags (1 a list is outstanding, 2 its poll has succeeded, 4 the transaction has
 * failed, 8 the list has a due time, 16 there is a fixed deadline); 1 to 8 how many lists are completed; 9 to 16 the due time; 17 to 24
 * the fixed deadline; 0 where there is none.
 *
 * A deadline's kind: 0 none; 1 fixed, `duration` after begin; 2 per byte, for each list `duration` times its bytes and one.
 *
 * A snapshot of the controller: `bits`, of which 1 is nack, 2 arbitration lost, 4 and 8 the two state timeouts, 16 time out, 32 response
 * received, 64 transfer complete, 128 end detected; the eight command words as they read now, 32 bytes; and the clock.
 */

#define SITANKULO_DEADLINE_NONE 0u
#define SITANKULO_DEADLINE_FIXED 1u
#define SITANKULO_DEADLINE_PER_BYTE 2u

/* Accepts a script, for a read buffer of `read_room` bytes. 0 or SITANKULO_CLEAR, and the record is written; or 5 (deadline kind), 1, 5,
 * 4, 6, 5, 5, 6, 7, 13. */
uint32_t sitankulo_begin(uint8_t *record, size_t record_room, uint8_t deadline, uint64_t duration, uint32_t address,
                         const uint8_t *script, size_t script_length, size_t read_room, uint8_t busy, uint64_t time);

/* The next list. 0, with the list in `words` and `fifo`, and the record waits for it; SITANKULO_NONE; or 5 (deadline kind), the
 * script's 1, 5, 4, 6, 5, 5, 6, then 5 (record), 12, 13, 7. */
uint32_t sitankulo_next(uint8_t *record, size_t record_length, uint8_t deadline, uint64_t duration, uint32_t address,
                        const uint8_t *script, size_t script_length, uint64_t time,
                        uint8_t *words, size_t words_room, uint8_t *fifo, size_t fifo_room);

/* What became of the outstanding list. 0, and the bytes that it received stand in the read buffer; SITANKULO_PENDING; 8 to 11; or 14
 * (commands not 32 bytes), the script's 1, 5, 4, 6, 5, 5, 6, then 5 (record), 12, 7. The record is written unless the call is refused
 * with 1 to 7, 12 or 14. `received` are the bytes from the receive FIFO, of which a read takes its own number. */
uint32_t sitankulo_complete(uint8_t *record, size_t record_length, uint32_t address, const uint8_t *script, size_t script_length,
                            uint8_t bits, const uint8_t *commands, size_t commands_length, uint64_t time,
                            const uint8_t *received, size_t received_length, uint8_t *buffer, size_t buffer_room);

/* Gives the transaction up while a list is outstanding. 0 or SITANKULO_CLEAR, and the record is written; or 14 (commands not 32 bytes),
 * 5 (record), 12. */
uint32_t sitankulo_abandon(uint8_t *record, size_t record_length,
                           uint8_t bits, const uint8_t *commands, size_t commands_length, uint64_t time);

/* What a snapshot means for a list by itself. `polled`: its poll has succeeded before; `limited`: it is due at `due`. 0,
 * SITANKULO_PENDING, 8 to 11 with the reason as detail, or 14 (commands not 32 bytes). Bit 16 of the answer: its poll has succeeded by
 * now. */
uint32_t sitankulo_classify(uint8_t bits, const uint8_t *commands, size_t commands_length, uint64_t time,
                            uint8_t polled, uint8_t limited, uint64_t due);

#define SITANKULO_POLLED(answer) ((uint8_t)(((answer) >> 16) & 1u))

/* ---- the bus clear by pins
 *
 * A clear, 10 bytes: byte 0 the state (0 idle, 1 the STOP is to come, 2 a clock with SCL low, 3 with SCL high); byte 1 the clocks left; 2 to
 * 9 the time until which the levels are held.
 *
 * Pin changes come in order, a byte each: 0 SCL low, 1 SCL high, 2 SDA low, 3 SDA high; high is released. The detail is how many.
 */

#define SITANKULO_SCL_LOW 0u
#define SITANKULO_SCL_HIGH 1u
#define SITANKULO_SDA_LOW 2u
#define SITANKULO_SDA_HIGH 3u

/* A fresh clear. 0, or 7. */
uint32_t sitankulo_clear_fresh(uint8_t *clear, size_t clear_room, uint8_t pins, uint64_t time, uint8_t *changes, size_t changes_room);

/* One poll. 0 the bus is free; SITANKULO_PENDING; or 5 (clear), 13, 7. */
uint32_t sitankulo_clear_step(uint8_t *clear, size_t clear_length, uint8_t pins, uint64_t time, uint8_t sda,
                              uint8_t *changes, size_t changes_room);

/* Polls over a tape of clocks and levels of SDA, up to `budget` times. 0, SITANKULO_GIVEN_UP, SITANKULO_SPENT, SITANKULO_TAPE_OVER or
 * SITANKULO_CLOCK_ENDED; or 5 (clear), 7. `report`, 17 bytes: the polls taken in 8, the number of pin changes in 8, and whether a reset
 * is to follow them. The clocks are numbers in the machine's own order. */
uint32_t sitankulo_clear_run(uint8_t *clear, size_t clear_length, uint8_t pins, uint8_t reset, uint64_t start, uint64_t limit,
                             size_t budget, const uint64_t *clocks, size_t clocks_length, const uint8_t *levels, size_t levels_length,
                             uint8_t *changes, size_t changes_room, uint8_t *report, size_t report_room);

/* ---- the inspector and the controller model
 *
 * Phases: 0 Idle, 1 Started, 2 Writing, 3 Reading, 4 ReadDone.
 */

#define SITANKULO_IDLE 0u
#define SITANKULO_STARTED 1u
#define SITANKULO_WRITING 2u
#define SITANKULO_READING 3u
#define SITANKULO_READ_DONE 4u

/* 0 with the phase that the list leaves as detail, or 14. */
uint32_t sitankulo_inspect(const uint8_t *words, size_t words_length, const uint8_t *fifo, size_t fifo_length, uint32_t phase);

/* Runs a list on the model, against a sensor that sends these bytes (255 beyond them) and does not acknowledge the written byte of number
 * `refuses` (0: it acknowledges all). 0 with the phase that the list leaves as detail; SITANKULO_STUCK; SITANKULO_UNANSWERED; or 14
 * (words not 32 bytes), 7. Bits 16 to 23 of the answer: how many bytes were received, at most 32. Bits 24 to 31: how many events went
 * over the bus, at most 72, two bytes each: 0 START; 1 STOP; 2 and 3 a byte sent with ACK and NACK; 4 and 5 a byte received with ACK and
 * NACK; and then the byte. */
uint32_t sitankulo_model_run(const uint8_t *words, size_t words_length, const uint8_t *fifo, size_t fifo_length, uint32_t phase,
                             const uint8_t *sends, size_t sends_length, size_t refuses,
                             uint8_t *received, size_t received_room, uint8_t *events, size_t events_room);

#define SITANKULO_RECEIVED(answer) ((uint8_t)(((answer) >> 16) & 0xFFu))
#define SITANKULO_EVENTS(answer) ((uint8_t)(((answer) >> 24) & 0xFFu))

/* ---- names
 *
 * The name of a refusal as text, without an end mark: 0 with its length as detail; SITANKULO_NONE for another number; or 7. */
uint32_t sitankulo_refusal_name(uint8_t number, uint8_t *text, size_t text_room);

#ifdef __cplusplus
}
#endif

#endif
