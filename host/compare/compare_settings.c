/* compare_settings.c: the parameter entry and both starts, on more than the permitted numbers. */
#include <string.h>

#include "compare.h"
#include "lines.h"
#include "random.h"
#include "refusals.h"
#include "workerwax.h"

static const uint64_t registers[] = {0, ((uint64_t)1 << 23) - 1, (uint64_t)1 << 23, (uint64_t)1 << 32};
static const uint64_t zs[] = {0, 1, 2, 3, 4, (uint64_t)1 << 32};

/* What a narrowing conversion would take for the number that it replaces, and the largest number of all. */
static uint64_t wide(size_t which, uint64_t legal)
{
    const uint64_t all[5] = {((uint64_t)1 << 32) + legal, ((uint64_t)1 << 8) + legal, ((uint64_t)1 << 16) + legal,
                             ((uint64_t)1 << 63) + legal, UINT64_MAX};
    return all[which];
}

static void try_parameters(struct tally *tally, const uint64_t *x, uint32_t due)
{
    const struct call call = {PARAMETERS, {WW_SETTINGS(x)}, {room(WW_PARAMETERS_BYTES)}};
    compare(tally, &call, due);
}

static void try_start(struct tally *tally, const uint64_t *x, uint32_t due)
{
    struct call call = {START, {0}, {room(WW_START_BYTES)}};
    size_t i;
    memcpy(call.number, x, WW_STATE_NUMBERS * sizeof x[0]);
    if (compare(tally, &call, due) == WW_DONE) {
        for (i = 0; i < WW_STATE_NUMBERS; i++) {
            demand(ww_number(compared(0), i) == x[i], "the first state is not what was given");
        }
    }
}

static struct call short_start_call(const uint64_t *x, struct slice answer)
{
    const struct call call = {SHORT_START, {x[WW_STATE_ROLE], x[WW_STATE_S], x[WW_STATE_N], x[WW_STATE_MARK]}, {answer}};
    return call;
}

static void try_short_start(struct tally *tally, const uint64_t *x, uint32_t due)
{
    const struct call call = short_start_call(x, room(WW_START_BYTES));
    if (compare(tally, &call, due) == WW_DONE) {
        demand(ww_number(compared(0), WW_STATE_SHAPING) == 0 && ww_number(compared(0), WW_STATE_REGISTER) == 0 &&
                   ww_number(compared(0), WW_STATE_Z) == 0 && ww_number(compared(0), WW_STATE_MARK) == x[WW_STATE_MARK],
               "a short start takes shaping, register and Z as 0 and nothing else");
    }
}

/* role 0 to 2, s 0 to 6, n 0 to 16, shaping 0 to 2, mark 0 to 3: one more than permitted on every side. */
static void try_all_settings(struct tally *tally)
{
    uint64_t number;
    for (number = 0; number < 3 * 7 * 17 * 3 * 4; number++) {
        uint64_t x[WW_STATE_NUMBERS] = {number % 3, number / 3 % 7, number / 21 % 17, number / 357 % 3, number / 1071, 0, 0};
        size_t i;
        try_parameters(tally, x, NOT_KNOWN);
        if (x[WW_STATE_SHAPING] == 0) {
            try_short_start(tally, x, NOT_KNOWN);
        }
        for (i = 0; i < 4 * 6; i++) {
            x[WW_STATE_REGISTER] = registers[i / 6];
            x[WW_STATE_Z] = zs[i % 6];
            try_start(tally, x, NOT_KNOWN);
        }
    }
}

/* Each number of a permitted start replaced by one that a narrower type would let through. Some registers are in range. */
static void try_wide(struct tally *tally, const struct line *line)
{
    size_t place, which;
    for (place = 0; place < WW_STATE_NUMBERS; place++) {
        const uint32_t due = place == WW_STATE_REGISTER ? NOT_KNOWN : due_for_number[place];
        for (which = 0; which < 5; which++) {
            uint64_t x[WW_STATE_NUMBERS] = {WW_SETTINGS(line->settings), random_below((uint64_t)1 << 23), random_below(4)};
            x[place] = wide(which, x[place]);
            try_start(tally, x, due);
            if (place < WW_SETTINGS_NUMBERS) {
                try_parameters(tally, x, due);
            }
            if (place < WW_SETTINGS_NUMBERS && place != WW_STATE_SHAPING) {
                try_short_start(tally, x, due);
            }
        }
    }
}

/* A wrong length, alone and with a fault in another number: the role, or the Z of a start. */
static void try_length(struct tally *tally, const struct line *line, struct slice answer, int with_fault)
{
    const uint64_t *x = line->settings;
    struct call parameters = {PARAMETERS, {WW_SETTINGS(x)}, {answer}}, short_start = short_start_call(x, answer);
    struct call start = {START, {WW_SETTINGS(x), 1, 0}, {answer}};
    if (with_fault) {
        parameters.number[WW_STATE_ROLE] = short_start.number[WW_STATE_ROLE] = 2;
        start.number[WW_STATE_Z] = 4;
    }
    if (answer.stated != WW_PARAMETERS_BYTES) {
        compare(tally, &parameters, first_due(WW_BAD_LENGTH, with_fault ? WW_BAD_ROLE : WW_DONE));
    }
    if (answer.stated != WW_START_BYTES) {
        compare(tally, &start, first_due(WW_BAD_LENGTH, with_fault ? WW_BAD_STATE : WW_DONE));
        compare(tally, &short_start, first_due(WW_BAD_LENGTH, with_fault ? WW_BAD_ROLE : WW_DONE));
    }
}

static void try_lengths(struct tally *tally, const struct line *line)
{
    static const size_t lengths[] = {0, 1, 4, 27, 28, 29, 31, 32, 33, 56, 64, 256 + 28, 256 + 32};
    const struct slice huge = {NULL, 32, HUGE_LENGTH};
    const struct slice wrapped = {NULL, 32, ((size_t)1 << 32) + 32};
    int with_fault;
    size_t i;
    for (with_fault = 0; with_fault < 2; with_fault++) {
        for (i = 0; i < sizeof lengths / sizeof lengths[0]; i++) {
            try_length(tally, line, room(lengths[i]), with_fault);
        }
        try_length(tally, line, huge, with_fault);
        try_length(tally, line, wrapped, with_fault);
    }
}

void compare_settings(struct tally *tally)
{
    size_t i;
    try_all_settings(tally);
    for (i = 0; i < LINES; i++) {
        try_wide(tally, &lines()[i]);
    }
    for (i = 0; i < LINES; i += 7) {
        try_lengths(tally, &lines()[i]);
    }
}
