/* shapes.h: what each call takes and can refuse with, and how it is made, all out of the rows of calls.def. */
#ifndef SHAPES_H
#define SHAPES_H

#include "calls.h"
#include "lent.h"

enum program { LIBRARY, SECOND, PROGRAMS };

struct shape {
    const char *name;
    size_t numbers, slices, read_only; /* the first `read_only` slices are lent for reading alone */
    const uint32_t *refusal;           /* what it can refuse with, `refusals` of them in their order */
    size_t refusals;
};

extern const struct shape shapes[ENTRIES];

/* Whether the number is WW_DONE or one of the refusals. */
int shape_can_give(const struct shape *shape, uint32_t number);

/* Ends the program where a row has its refusals in another order than the header's list, or a refusal is in no row. */
void shapes_check(void);

/* Makes the call in one of the programs, with its slices as they are lent. Gives what it returns. */
uint32_t shape_call(enum program program, const struct call *call, const struct lent *lent, enum placement placement);

#endif
