/* Runs the subjects, counts their checks, and lends memory. */
#include "check.h"

#include <stdio.h>
#include <stdlib.h>
#include <string.h>

enum { CANARIES = 64, CANARY = 0xC5, MOST_PRINTED = 20 };

static size_t passed, failed;
static size_t canaries;

static void report(const char *file, int line) {
    failed++;
    if (failed <= MOST_PRINTED) {
        printf("%s:%d: ", file, line);
    }
}

void check(int holds, const char *what, const char *file, int line) {
    if (holds) {
        passed++;
        return;
    }
    report(file, line);
    if (failed <= MOST_PRINTED) {
        printf("not so: %s\n", what);
    }
}

void check_answer(uint32_t expected, uint32_t answer, const char *what, const char *file, int line) {
    if (expected == answer) {
        passed++;
        return;
    }
    report(file, line);
    if (failed <= MOST_PRINTED) {
        printf("%s is %08lx and should be %08lx\n", what, (unsigned long)answer, (unsigned long)expected);
    }
}

static void *room_for(size_t size) {
    void *block = malloc(size == 0 ? 1 : size);
    if (block == NULL) {
        fputs("no memory\n", stderr);
        exit(2);
    }
    return block;
}

/* Lends memory whose bytes differ from one place to the next. */
struct lent lend(size_t size) {
    struct lent lent;
    size_t i;
    lent.size = size;
    lent.expected = room_for(size);
    lent.block = room_for(size + 2 * canaries);
    lent.at = lent.block + canaries;
    memset(lent.block, CANARY, canaries);
    memset(lent.at + size, CANARY, canaries);
    for (i = 0; i < size; i++) {
        lent.expected[i] = lent.at[i] = (uint8_t)(0xA1 + 3 * i);
    }
    return lent;
}

struct lent lend_bytes(const uint8_t *bytes, size_t size) {
    struct lent lent = lend(size);
    if (size > 0) {
        memcpy(lent.at, bytes, size);
        memcpy(lent.expected, bytes, size);
    }
    return lent;
}

/* After the call these bytes shall stand there. */
void expect(struct lent *lent, size_t from, const uint8_t *bytes, size_t n) {
    if (n > 0) {
        memcpy(lent->expected + from, bytes, n);
    }
}

void take_back(struct lent *lent, const char *file, int line) {
    size_t i, whole = 0;
    for (i = 0; i < canaries; i++) {
        whole += lent->block[i] == CANARY && lent->at[lent->size + i] == CANARY;
    }
    check(whole == canaries, "nothing is written around lent memory", file, line);
    check(memcmp(lent->at, lent->expected, lent->size) == 0, "lent memory holds what is expected", file, line);
    free(lent->expected);
    free(lent->block);
}

void put_words(const uint32_t words[8], uint8_t bytes[SITANKULO_WORDS_SIZE]) {
    size_t i;
    for (i = 0; i < SITANKULO_WORDS_SIZE; i++) {
        bytes[i] = (uint8_t)(words[i / 4] >> (24 - 8 * (i % 4)));
    }
}

void put_time(uint64_t time, uint8_t bytes[8]) {
    size_t i;
    for (i = 0; i < 8; i++) {
        bytes[i] = (uint8_t)(time >> (56 - 8 * i));
    }
}

uint32_t answer_of(uint32_t number, uint32_t detail) {
    return number | detail << 8;
}

static void run_all(void) {
    test_lists();
    test_begin();
    test_next();
    test_complete();
    test_abandon();
    test_transactions();
    test_snapshots();
    test_clears();
    test_clear_runs();
    test_controller();
    test_names();
}

int main(void) {
    canaries = CANARIES;
    run_all();
    canaries = 0;
    run_all();
    printf("%lu passed, %lu failed\n", (unsigned long)passed, (unsigned long)failed);
    return failed == 0 ? 0 : 1;
}
