/* What the tests of begin, next, complete and abandon share. */
#ifndef TRANSACTION_H
#define TRANSACTION_H

#include "check.h"

#define ADDRESS 0x29u

/* The bits of a record's byte 0. */
enum { OUTSTANDING = 1, POLLED = 2, FAILED = 4, HAS_DUE = 8, HAS_FIXED = 16 };

struct record {
    uint8_t flags;
    uint64_t place, due, fixed;
};

void put_record(struct record record, uint8_t bytes[SITANKULO_RECORD_SIZE]);
struct lent lend_record(struct record record);
void expect_record(struct lent *lent, struct record record);

struct script {
    const uint8_t *bytes;
    size_t length;
    uint32_t refusal;
};

/* Document 01's K2: one byte written, two read; 2 lists. */
extern const struct script k2;

/* Scripts with a fault and the next fault in document 01's order: the first is told. */
extern const struct script refused_scripts[];
extern const size_t refused_scripts_count;

/* Records that no call leaves, with another fault in each that is looked for later. */
extern const struct record foreign_records[];
extern const size_t foreign_records_count;

/* A snapshot's commands: K2's lists, all commands done. */
extern const uint8_t k2_write_done[SITANKULO_WORDS_SIZE], k2_read_done[SITANKULO_WORDS_SIZE];

/* Bits of a snapshot. */
enum { NACK = 1, LOST = 2, TIME_OUT = 16, ANSWERED = 32, COMPLETE = 64, ENDED = 128 };

#endif
