/* The header by itself, as C99 and as C++. */
#include "../../include/sitankulo.h"

extern uint32_t (*const header_is_complete)(uint8_t, uint8_t *, size_t);
uint32_t (*const header_is_complete)(uint8_t, uint8_t *, size_t) = sitankulo_refusal_name;
