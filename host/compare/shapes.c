/* shapes.c: see shapes.h. */
#include "shapes.h"

#include <inttypes.h>
#include <stdio.h>
#include <stdlib.h>

#include "refusals.h"
#include "second.h"
#include "workerwax.h"

/*
 * A row of arguments: EACH is of(at), of(at + 1) and so on, `count` times, with a comma behind each, and LAST is the same
 * with none behind the last. A call with more of them than there are here needs a line more.
 */
#define EACH(count, of, at) EACH_##count(of, at)
#define EACH_0(of, at)
#define EACH_1(of, at) of(at),
#define EACH_2(of, at) of(at), EACH_1(of, at + 1)
#define EACH_3(of, at) of(at), EACH_2(of, at + 1)
#define EACH_4(of, at) of(at), EACH_3(of, at + 1)
#define EACH_5(of, at) of(at), EACH_4(of, at + 1)
#define EACH_6(of, at) of(at), EACH_5(of, at + 1)
#define EACH_7(of, at) of(at), EACH_6(of, at + 1)
#define EACH_8(of, at) of(at), EACH_7(of, at + 1)
#define LAST(count, of, at) LAST_##count(of, at)
#define LAST_1(of, at) of(at)
#define LAST_2(of, at) of(at), LAST_1(of, at + 1)
#define LAST_3(of, at) of(at), LAST_2(of, at + 1)
#define LAST_4(of, at) of(at), LAST_3(of, at + 1)

/* Both programs' calls, declared once more: a row that is not as they are declared is a conflict and does not compile. */
#define A_NUMBER(at) uint64_t
#define A_READ(at) const uint8_t *, size_t
#define A_WRITTEN(at) uint8_t *, size_t
#define TYPES(numbers, read, written) EACH(numbers, A_NUMBER, 0) EACH(read, A_READ, 0) LAST(written, A_WRITTEN, read)
#define CALL(NAME, name, numbers, read, written, refusals) \
    uint32_t ww_##name(TYPES(numbers, read, written)); \
    uint32_t second_##name(TYPES(numbers, read, written));
#include "calls.def"

#define LISTED(...) (const uint32_t[]){__VA_ARGS__}, sizeof((const uint32_t[]){__VA_ARGS__}) / sizeof(uint32_t)

const struct shape shapes[ENTRIES] = {
#define CALL(NAME, name, numbers, read, written, refusals) {#name, numbers, (read) + (written), read, LISTED refusals},
#include "calls.def"
};

int shape_can_give(const struct shape *shape, uint32_t number)
{
    size_t i;
    for (i = 0; i < shape->refusals; i++) {
        if (shape->refusal[i] == number) {
            return 1;
        }
    }
    return number == WW_DONE;
}

static void check_order(const struct shape *shape)
{
    size_t i, last = NO_PLACE;
    for (i = 0; i < shape->refusals; i++) {
        size_t place = refusal_place(shape->refusal[i]);
        if (place <= last) {
            fprintf(stderr, "compare: the row of %s has %" PRIu32 " out of the order of the header's list\n", shape->name,
                    shape->refusal[i]);
            exit(1);
        }
        last = place;
    }
}

void shapes_check(void)
{
    size_t entry;
    uint32_t number;
    for (number = 0; number < RESULTS; number++) {
        int given = refusal_place(number) == NO_PLACE;
        for (entry = 0; entry < ENTRIES; entry++) {
            given = given || shape_can_give(&shapes[entry], number);
        }
        if (!given) {
            fprintf(stderr, "compare: the header's list has %" PRIu32 ", and no row has it\n", number);
            exit(1);
        }
    }
    for (entry = 0; entry < ENTRIES; entry++) {
        check_order(&shapes[entry]);
    }
}

#define NUMBER(at) call->number[at]
/* A slice as it is handed over. One of no bytes may be null, and in one of the placements it is. */
#define SLICE(at) \
    (call->slice[at].stated == 0 && placement == AT_START ? NULL : lent[at].bytes), call->slice[at].stated
#define ARGUMENTS(numbers, read, written) EACH(numbers, NUMBER, 0) EACH(read, SLICE, 0) LAST(written, SLICE, read)

uint32_t shape_call(enum program program, const struct call *call, const struct lent *lent, enum placement placement)
{
    switch (call->entry) {
#define CALL(NAME, name, numbers, read, written, refusals) \
    case NAME: \
        return program == LIBRARY ? ww_##name(ARGUMENTS(numbers, read, written)) \
                                  : second_##name(ARGUMENTS(numbers, read, written));
#include "calls.def"
    default: abort();
    }
}
