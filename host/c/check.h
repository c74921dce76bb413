/* What every subject of the tests uses: checks that are counted, and memory to lend.
 *
 * Lent memory is filled before a call. Afterwards it has to hold what is expected of it, which is what it held before but where a test
 * says otherwise. All subjects run twice: with canaries on both sides of what is lent, and on blocks that are exactly as long as what is
 * lent, so that valgrind sees a byte that is read beyond. */
#ifndef CHECK_H
#define CHECK_H

#include <stddef.h>
#include <stdint.h>

#include "../../include/sitankulo.h"

#define CHECK(holds) check((holds) != 0, #holds, __FILE__, __LINE__)
#define CHECK_ANSWER(expected, answer) check_answer((expected), (answer), #answer, __FILE__, __LINE__)

void check(int holds, const char *what, const char *file, int line);
void check_answer(uint32_t expected, uint32_t answer, const char *what, const char *file, int line);

struct lent {
    uint8_t *at; /* what a call gets */
    size_t size;
    uint8_t *expected;
    uint8_t *block;
};

struct lent lend(size_t size);
struct lent lend_bytes(const uint8_t *bytes, size_t size);
void expect(struct lent *lent, size_t from, const uint8_t *bytes, size_t n);

#define TAKE_BACK(lent) take_back((lent), __FILE__, __LINE__)
void take_back(struct lent *lent, const char *file, int line);

/* Big-endian numbers. */
void put_words(const uint32_t words[8], uint8_t bytes[SITANKULO_WORDS_SIZE]);
void put_time(uint64_t time, uint8_t bytes[8]);

/* An answer of these parts. */
uint32_t answer_of(uint32_t number, uint32_t detail);

/* The subjects. */
void test_lists(void);
void test_begin(void);
void test_next(void);
void test_complete(void);
void test_abandon(void);
void test_transactions(void);
void test_snapshots(void);
void test_clears(void);
void test_clear_runs(void);
void test_controller(void);
void test_names(void);

#endif
