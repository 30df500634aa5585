/* compare_lengths.c: writer and reader with slices of a wrong length, and with numbers that a narrow type would let through. */
#include <string.h>

#include "compare.h"
#include "frames.h"
#include "refusals.h"
#include "shapes.h"

/* Bytes for slices that are longer than any right one. */
static uint8_t plenty[4 * WW_MAX_BITS];

/* One slice with another length. Its bytes, as far as they go, are those of the data frame. */
static void try_length(struct tally *tally, const struct call *good, size_t which, size_t stated, int with_bad_content)
{
    struct call call = *good;
    struct slice *slice = &call.slice[which];
    const size_t right = slice->stated;
    if (stated == right) {
        return;
    }
    memset(plenty, with_bad_content ? 255 : 0, sizeof plenty);
    if (slice->content != NULL) {
        memcpy(plenty, slice->content, with_bad_content ? right / 2 : right);
        slice->content = plenty;
    }
    slice->there = stated <= 2 * WW_MAX_BITS ? stated : right;
    slice->stated = stated;
    compare(tally, &call, WW_BAD_LENGTH);
}

static void try_lengths(struct tally *tally, const struct call *good, const struct line *line)
{
    int with_bad_content;
    size_t which, i;
    for (which = 0; which < shapes[good->entry].slices; which++) {
        const size_t right = good->slice[which].stated;
        const size_t lengths[] = {0, 1, right - 1, right + 1, right - 2, right + 2, right / 2, 2 * right, 256 + right,
                                  line->n, 16 * line->p, 32 * line->p, WW_READ_BYTES, WW_START_BYTES,
                                  ((size_t)1 << 32) + right, HUGE_LENGTH, HUGE_LENGTH + right};
        for (with_bad_content = 0; with_bad_content < 2; with_bad_content++) {
            for (i = 0; i < sizeof lengths / sizeof lengths[0]; i++) {
                try_length(tally, good, which, lengths[i], with_bad_content);
            }
        }
    }
}

/* Lengths of two slices changed so that their sum stays right, and the two exchanged. */
static void try_two_lengths(struct tally *tally, const struct call *good)
{
    struct call call = *good;
    call.slice[TO] = room(good->slice[TO].stated + 1);
    call.slice[ANSWER] = room(good->slice[ANSWER].stated - 1);
    compare(tally, &call, WW_BAD_LENGTH);
    call.slice[TO] = room(good->slice[ANSWER].stated);
    call.slice[ANSWER] = room(good->slice[TO].stated);
    compare(tally, &call, good->slice[TO].stated == good->slice[ANSWER].stated ? NOT_KNOWN : WW_BAD_LENGTH);
}

static void try_wide(struct tally *tally, const struct call *good)
{
    size_t place, i;
    for (place = 0; place < WW_STATE_NUMBERS; place++) {
        const uint64_t is = good->number[place];
        const uint64_t wide[] = {((uint64_t)1 << 32) + is, ((uint64_t)1 << 63) + is, UINT64_MAX, ((uint64_t)1 << 31) + is,
                                 256 + is, 65536 + is};
        for (i = 0; i < sizeof wide / sizeof wide[0]; i++) {
            struct call call = *good;
            call.number[place] = wide[i];
            compare(tally, &call, place == WW_STATE_REGISTER && i >= 4 ? NOT_KNOWN : due_for_number[place]);
        }
    }
}

/* A register at its limit, and every Z. The register 0 comes once more, last: nothing may be left of the calls before it. */
static void try_states(struct tally *tally, const struct call *good)
{
    static const uint64_t registers[] = {0, 1, (uint64_t)1 << 22, ((uint64_t)1 << 23) - 1, (uint64_t)1 << 23, 0};
    size_t i;
    for (i = 0; i < 6 * 5; i++) {
        struct call call = *good;
        call.number[WW_STATE_REGISTER] = registers[i / 5];
        call.number[WW_STATE_Z] = i % 5;
        compare(tally, &call, i / 5 == 4 || i % 5 == 4 ? WW_BAD_STATE : NOT_KNOWN);
    }
}

void compare_lengths(struct tally *tally)
{
    static struct data_frame frame;
    size_t i, which;
    for (i = 0; i < LINES; i += 3) {
        random_data_frame(&frame, &lines()[i]);
        for (which = 0; which < 2; which++) {
            const struct call good = which == 0 ? write_call(&frame) : read_call(&frame);
            try_lengths(tally, &good, frame.line);
            try_two_lengths(tally, &good);
            try_wide(tally, &good);
            try_states(tally, &good);
        }
    }
}
