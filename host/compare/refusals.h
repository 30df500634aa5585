/*
 * refusals.h: which of several refusals is due: the first in the header's list, WW_REFUSALS_IN_ORDER.
 *
 * A comparison that puts several faults into one call expects that one. So the header's list is held against the library
 * and against the second program, whose orders are their own.
 */
#ifndef REFUSALS_H
#define REFUSALS_H

#include <stddef.h>
#include <stdint.h>

#include "workerwax.h"

/* A list that names a refusal twice, or two of the same number, does not compile. */
enum {
    NO_PLACE,
#define PLACE(refusal) PLACE_OF_##refusal,
    WW_REFUSALS_IN_ORDER(PLACE)
#undef PLACE
};

/* Only its size is used: one more than the largest number in the list. */
union results {
#define ROOM(refusal) char room_of_##refusal[(refusal) + 1];
    WW_REFUSALS_IN_ORDER(ROOM)
#undef ROOM
};

enum { RESULTS = sizeof(union results) };

/* The place of a refusal in the list, the first at 1; NO_PLACE for a number that is not in it. */
size_t refusal_place(uint32_t number);

/* Of two faults the one that is due. WW_DONE stands for no fault. */
uint32_t first_due(uint32_t one, uint32_t other);

/* What is due for a state whose number at this place alone is out of its range. */
extern const uint32_t due_for_number[WW_STATE_NUMBERS];

#endif
