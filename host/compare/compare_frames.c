/* compare_frames.c: data frames for every permitted line, written and read in rows, each from the state that came back. */
#include <string.h>

#include "compare.h"
#include "frames.h"
#include "random.h"

#define ROWS 6
#define FRAMES_IN_A_ROW 4

/* Rows 0 and 1 send nothing but zeros and nothing but ones: with a register of 0 that is where a scrambler shows least. */
static void choose_bits(struct data_frame *frame, size_t row)
{
    if (row < 2) {
        memset(frame->bits, (int)row, frame->line->n);
    } else {
        random_bits(frame->bits, frame->line->n);
    }
}

static struct state_numbers started(struct tally *tally, const struct line *line, size_t row)
{
    struct state_numbers state = random_state(line);
    struct call call = {START, {0}, {room(WW_START_BYTES)}};
    if (row == 0) {
        state.number[WW_STATE_REGISTER] = 0;
        state.number[WW_STATE_Z] = 0;
    }
    memcpy(call.number, state.number, sizeof state.number);
    compare(tally, &call, WW_DONE);
    return state_in(compared(0), 0);
}

/* Writes the data frame and reads it back. Gives the state behind it, which writer and reader must agree on. */
static struct state_numbers sent(struct tally *tally, struct data_frame *frame)
{
    const struct call write = write_call(frame), read = read_call(frame);
    uint8_t answer[WW_WRITE_BYTES];
    compare(tally, &write, WW_DONE);
    memcpy(frame->labels, compared(TO), 32 * frame->line->p);
    memcpy(answer, compared(ANSWER), sizeof answer);
    demand(ww_number(answer, WW_NEXT_BITS) == frame->line->n, "the writer does not give N");
    compare(tally, &read, WW_DONE);
    demand(memcmp(compared(TO), frame->bits, frame->line->n) == 0, "the bits read are not the bits written");
    demand(memcmp(compared(ANSWER), answer, sizeof answer) == 0, "writer and reader disagree on the next state");
    return state_in(answer, WW_NEXT_STATE);
}

void compare_frames(struct tally *tally)
{
    static struct data_frame frame;
    size_t i, row, which;
    for (i = 0; i < LINES; i++) {
        frame.line = &lines()[i];
        for (row = 0; row < ROWS; row++) {
            frame.before = started(tally, frame.line, row);
            for (which = 0; which < FRAMES_IN_A_ROW; which++) {
                choose_bits(&frame, row);
                frame.before = sent(tally, &frame);
            }
        }
    }
}
