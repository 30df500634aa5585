/* refusals.c: see refusals.h. */
#include "refusals.h"

const uint32_t due_for_number[WW_STATE_NUMBERS] = {
    [WW_STATE_ROLE] = WW_BAD_ROLE,       [WW_STATE_S] = WW_BAD_SYMBOL_RATE,  [WW_STATE_N] = WW_BAD_RATE,
    [WW_STATE_SHAPING] = WW_BAD_SHAPING, [WW_STATE_MARK] = WW_UNSTATED_MARK, [WW_STATE_REGISTER] = WW_BAD_STATE,
    [WW_STATE_Z] = WW_BAD_STATE,
};

size_t refusal_place(uint32_t number)
{
    switch (number) {
#define PLACE(refusal) \
    case refusal: return PLACE_OF_##refusal;
        WW_REFUSALS_IN_ORDER(PLACE)
#undef PLACE
    default: return NO_PLACE;
    }
}

uint32_t first_due(uint32_t one, uint32_t other)
{
    if (one == WW_DONE) {
        return other;
    }
    return other == WW_DONE || refusal_place(one) < refusal_place(other) ? one : other;
}
