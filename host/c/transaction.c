/* Records, scripts and snapshots for the tests of a transaction's calls. */
#include "transaction.h"

void put_record(struct record record, uint8_t bytes[SITANKULO_RECORD_SIZE]) {
    bytes[0] = record.flags;
    put_time(record.place, bytes + 1);
    put_time(record.due, bytes + 9);
    put_time(record.fixed, bytes + 17);
}

struct lent lend_record(struct record record) {
    uint8_t bytes[SITANKULO_RECORD_SIZE];
    put_record(record, bytes);
    return lend_bytes(bytes, sizeof bytes);
}

void expect_record(struct lent *lent, struct record record) {
    uint8_t bytes[SITANKULO_RECORD_SIZE];
    put_record(record, bytes);
    expect(lent, 0, bytes, sizeof bytes);
}

#define SCRIPT(bytes, refusal) {bytes, sizeof bytes, refusal}

static const uint8_t k2_bytes[] = {1, 0, 7, 0, 1, 0, 0xA0, 0, 2, 1};
const struct script k2 = SCRIPT(k2_bytes, 0);

static const uint8_t no_byte_of_version_2[] = {2};
static const uint8_t two_bytes[] = {1, 0};
static const uint8_t version_0[] = {0, 0, 0}, version_2_and_too_large[] = {2, 0xFF, 0xFF};
static const uint8_t too_large_and_unequal[] = {1, 0x10, 0x01};
static const uint8_t field_above[] = {1, 0, 4, 0, 0, 2}, field_below[] = {1, 0, 2, 0, 0, 2};
static const uint8_t cut_in_length[] = {1, 0, 1, 0}, cut_before_kind[] = {1, 0, 2, 0, 0}, kind_2[] = {1, 0, 3, 0, 0, 2};
static const uint8_t kind_255[] = {1, 0, 3, 0, 0, 255}, write_cut[] = {1, 0, 4, 0, 2, 0, 0xA0};
static const uint8_t bad_after_good[] = {1, 0, 6, 0, 1, 1, 0, 0, 2}, bad_after_too_much[] = {1, 0, 6, 0xFF, 0xFF, 1, 0, 0, 2};
static const uint8_t reads_4097[] = {1, 0, 3, 0x10, 0x01, 1}, reads_4096_and_1[] = {1, 0, 6, 0x10, 0, 1, 0, 1, 1};

const struct script refused_scripts[] = {
    SCRIPT(no_byte_of_version_2, SITANKULO_SHAPE),
    SCRIPT(two_bytes, SITANKULO_SHAPE),
    SCRIPT(version_0, SITANKULO_VERSION),
    SCRIPT(version_2_and_too_large, SITANKULO_VERSION),
    SCRIPT(too_large_and_unequal, SITANKULO_SIZE),
    SCRIPT(field_above, SITANKULO_SHAPE),
    SCRIPT(field_below, SITANKULO_SHAPE),
    SCRIPT(cut_in_length, SITANKULO_SHAPE),
    SCRIPT(cut_before_kind, SITANKULO_SHAPE),
    SCRIPT(kind_2, SITANKULO_SHAPE),
    SCRIPT(kind_255, SITANKULO_SHAPE),
    SCRIPT(write_cut, SITANKULO_SHAPE),
    SCRIPT(bad_after_good, SITANKULO_SHAPE),
    SCRIPT(bad_after_too_much, SITANKULO_SHAPE),
    SCRIPT(reads_4097, SITANKULO_SIZE),
    SCRIPT(reads_4096_and_1, SITANKULO_SIZE),
};
const size_t refused_scripts_count = sizeof refused_scripts / sizeof *refused_scripts;

const struct record foreign_records[] = {
    {32, 0, 0, 0},
    {64 | OUTSTANDING, 0, 0, 0},
    {255, 0, 0, 0},
    {POLLED, 0, 0, 0},
    {HAS_DUE, 0, 7, 0},
    {OUTSTANDING | FAILED, 0, 0, 0},
    {OUTSTANDING, 0, 1, 0},
    {OUTSTANDING, 0, 0, 1},
    {FAILED, 0, 1, 0},
};
const size_t foreign_records_count = sizeof foreign_records / sizeof *foreign_records;

const uint8_t k2_write_done[] = {0x80, 0, 0x30, 0, 0x80, 0, 0x09, 0x02, 0, 0, 0x20, 0, 0, 0, 0, 0,
                                 0, 0, 0, 0, 0, 0, 0, 0, 0, 0, 0, 0, 0, 0, 0, 0};
const uint8_t k2_read_done[] = {0x80, 0, 0x30, 0, 0x80, 0, 0x09, 0x01, 0x80, 0, 0x18, 0x01, 0x80, 0, 0x1C, 0x01,
                                0x80, 0, 0x10, 0, 0, 0, 0, 0, 0, 0, 0, 0, 0, 0, 0, 0};
