/* sitankulo_refusal_name. */
#include "check.h"

#include <string.h>

static const char *const names[] = {
    NULL, "AddressInvalid", "ZeroLengthInvalid", "FifoExceeded", "Version", "Shape", "Size", "Room", "ExecutionIncomplete",
    "AcknowledgeCheckFailed", "ArbitrationLost", "Timeout", "OutOfTurn", "ClockRange", "ListRefused",
};

static void ask(unsigned number, size_t room) {
    struct lent text = lend(room);
    uint32_t expected = SITANKULO_NONE;
    if (number >= 1 && number <= 14) {
        size_t length = strlen(names[number]);
        CHECK(length <= SITANKULO_NAME_SIZE);
        expected = SITANKULO_ROOM;
        if (length <= room) {
            expected = answer_of(0, (uint32_t)length);
            expect(&text, 0, (const uint8_t *)names[number], length);
        }
    }
    CHECK_ANSWER(expected, sitankulo_refusal_name((uint8_t)number, text.at, room));
    TAKE_BACK(&text);
}

void test_names(void) {
    unsigned number;
    size_t room;
    for (number = 0; number < 256; number++) {
        for (room = 0; room <= SITANKULO_NAME_SIZE + 2; room++) {
            ask(number, room);
        }
    }
    CHECK_ANSWER(SITANKULO_ROOM, sitankulo_refusal_name(1, NULL, 0));
    CHECK_ANSWER(SITANKULO_NONE, sitankulo_refusal_name(0, NULL, 0));
}
