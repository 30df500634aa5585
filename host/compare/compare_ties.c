/*
 * compare_ties.c: several faults at once, so that the order of the refusals is seen.
 *
 * A good call of the writer or the reader gets some faults, drawn at random. The first of their refusals in the header's
 * list is due. It follows from the faults and the list alone, so library, second program and list are held to one another.
 */
#include <string.h>

#include "compare.h"
#include "frames.h"
#include "random.h"
#include "refusals.h"
#include "second.h"

#define TRIES 60000
#define MOST_FAULTS 4

/* The faults. Those below PERMISSION are of the state's numbers, each by its place. */
enum fault {
    PERMISSION = WW_STATE_NUMBERS,
    LENGTH_FROM,
    LENGTH_TO,
    LENGTH_ANSWER,
    SET,
    STEP,
    CONTENT,
    FAULTS
};

/* A call and the data frame that it points into. */
struct attempt {
    struct data_frame frame;
    struct call call;
};

static uint8_t longer[4 * WW_MAX_BITS]; /* for slices of a wrong length: zeros */

/* Numbers that are out of range for everything that the state holds, with what stood there in their low bits. */
static uint64_t out_of_range(uint64_t is)
{
    const uint64_t all[4] = {((uint64_t)1 << 32) + is, ((uint64_t)1 << 24) + is, UINT64_MAX, ((uint64_t)1 << 63) + is};
    return all[random_below(4)];
}

static uint32_t fault_in_number(struct attempt *attempt, size_t place)
{
    attempt->call.number[place] = out_of_range(attempt->call.number[place]);
    return due_for_number[place];
}

/* 6: only at the rates above 28,800 bit/s. */
static uint32_t fault_in_permission(struct attempt *attempt)
{
    if (attempt->frame.line->settings[WW_STATE_N] < 13) {
        return WW_DONE;
    }
    attempt->call.number[WW_STATE_MARK] = 0;
    return WW_NO_LARGE;
}

static uint32_t fault_in_length(struct attempt *attempt, size_t which)
{
    struct slice *slice = &attempt->call.slice[which];
    const size_t right = slice->stated;
    const size_t lengths[4] = {0, right - 1, right + 1, random_below(right)};
    slice->there = slice->stated = lengths[random_below(4)];
    if (slice->content != NULL) {
        slice->content = longer;
    }
    return WW_BAD_LENGTH;
}

/* 9 for the writer and 10 for the reader, anywhere. */
static uint32_t fault_in_content(struct attempt *attempt)
{
    struct data_frame *frame = &attempt->frame;
    if (attempt->call.entry == WRITE) {
        frame->bits[random_below(frame->line->n)] = (uint8_t)(2 + random_below(254));
        return WW_BAD_BIT;
    } else {
        const uint64_t limits[4] = {frame->line->m << frame->line->q, frame->line->m << frame->line->q, 4, 2};
        const size_t place = random_below(16 * frame->line->p);
        set_label(frame, place, limits[place % 4] + random_below(65536 - limits[place % 4]));
        return WW_BAD_LABEL;
    }
}

/* 11: a set of rings past the limit of its mapping frame, where there is one. */
static uint32_t fault_in_set(struct attempt *attempt)
{
    struct data_frame *frame = &attempt->frame;
    const uint64_t m = frame->line->m, mapping_frame = random_below(frame->line->p);
    const uint64_t limit = (uint64_t)1 << line_bits_of_s(frame->line, mapping_frame);
    const uint64_t all = second_lighter(m, 8 * (m - 1) + 1);
    uint8_t rings[8];
    if (attempt->call.entry == WRITE || limit >= all) {
        return WW_DONE;
    }
    second_rings_of(m, limit + random_below(all - limit), rings);
    set_rings(frame, mapping_frame, rings);
    return WW_BAD_SET;
}

/*
 * 12: a Z two steps on where the mapping frame carries no I3. The last symbol carries none unless it has twelve bits. No
 * data frame has this fault and 11: where an I3 is missing b is at most 12, so M is 1 and there is one set of rings.
 */
static uint32_t fault_in_step(struct attempt *attempt)
{
    struct data_frame *frame = &attempt->frame;
    const uint64_t mapping_frame = random_below(frame->line->p);
    const size_t place = label_place(mapping_frame, 3, 2);
    if (attempt->call.entry == WRITE || line_frame_length(frame->line, mapping_frame) >= 12) {
        return WW_DONE;
    }
    set_label(frame, place, (ww_label(frame->labels, place) + 2) % 4);
    return WW_BAD_STEP;
}

/* Makes one fault if the set has it. Gives its refusal, or WW_DONE where there is none or this call cannot have it. */
static uint32_t make_fault(struct attempt *attempt, uint64_t set, size_t fault)
{
    if ((set >> fault & 1) == 0) {
        return WW_DONE;
    }
    switch (fault) {
    case PERMISSION: return fault_in_permission(attempt);
    case LENGTH_FROM: return fault_in_length(attempt, FROM);
    case LENGTH_TO: return fault_in_length(attempt, TO);
    case LENGTH_ANSWER: return fault_in_length(attempt, ANSWER);
    case SET: return fault_in_set(attempt);
    case STEP: return fault_in_step(attempt);
    case CONTENT: return fault_in_content(attempt);
    default: return fault_in_number(attempt, fault);
    }
}

/*
 * Makes the faults of the set, each once, and gives the refusal that is due. A content fault is made last: one of rings
 * would else put it right again. Mark: a permission taken away and then left unstated is unstated, so that one is made
 * first.
 */
static uint32_t make_faults(struct attempt *attempt, uint64_t set)
{
    uint32_t due = make_fault(attempt, set, PERMISSION);
    size_t fault;
    for (fault = 0; fault < FAULTS; fault++) {
        if (fault != PERMISSION) {
            due = first_due(due, make_fault(attempt, set, fault));
        }
    }
    return due;
}

/* A line at random. Every fourth has at most twelve bits in a mapping frame, every fifth needs its permission. */
static const struct line *choose_line(uint64_t try)
{
    const struct line *line;
    do {
        line = &lines()[random_below(LINES)];
    } while ((try % 4 == 0 && line->b > 12) || (try % 4 != 0 && try % 5 == 0 && line->settings[WW_STATE_N] < 13));
    return line;
}

void compare_ties(struct tally *tally)
{
    static struct attempt attempt;
    uint64_t try;
    for (try = 0; try < TRIES; try++) {
        uint64_t set = 0, count = 1 + random_below(MOST_FAULTS);
        uint32_t due;
        random_data_frame(&attempt.frame, choose_line(try));
        attempt.call = random_below(3) == 0 ? write_call(&attempt.frame) : read_call(&attempt.frame);
        while (count-- > 0) {
            /* half of the draws are among length, permission and content: those of the settings hide what comes behind them */
            set |= (uint64_t)1 << (random_below(2) == 0 ? PERMISSION + random_below(FAULTS - PERMISSION)
                                                        : random_below(FAULTS));
        }
        due = make_faults(&attempt, set);
        compare(tally, &attempt.call, due);
    }
}
