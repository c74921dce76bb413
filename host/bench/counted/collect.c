/* Tells callgrind to begin or to stop collecting. */
#include <valgrind/callgrind.h>

void collect_toggle(void) {
    CALLGRIND_TOGGLE_COLLECT;
}
