/* frames.c: see frames.h. */
#include "frames.h"

#include <stdio.h>
#include <stdlib.h>
#include <string.h>

#include "random.h"
#include "second.h"

struct state_numbers random_state(const struct line *line)
{
    struct state_numbers state;
    memcpy(state.number, line->settings, sizeof line->settings);
    state.number[WW_STATE_REGISTER] = random_below((uint64_t)1 << 23);
    state.number[WW_STATE_Z] = random_below(4);
    return state;
}

struct state_numbers state_in(const uint8_t *answer, size_t place)
{
    struct state_numbers state;
    size_t i;
    for (i = 0; i < WW_STATE_NUMBERS; i++) {
        state.number[i] = ww_number(answer, place + i);
    }
    return state;
}

void random_data_frame(struct data_frame *frame, const struct line *line)
{
    uint8_t answer[WW_WRITE_BYTES];
    const uint64_t *x = frame->before.number;
    frame->line = line;
    frame->before = random_state(line);
    random_bits(frame->bits, line->n);
    if (second_write(WW_STATE(x), frame->bits, line->n, frame->labels, 32 * line->p, answer, sizeof answer) != WW_DONE) {
        fprintf(stderr, "frames: the second program does not write a permitted data frame\n");
        exit(1);
    }
}

struct call write_call(const struct data_frame *frame)
{
    struct call call = {WRITE, {0},
                        {slice_of(frame->bits, frame->line->n), room(32 * frame->line->p), room(WW_WRITE_BYTES)}};
    memcpy(call.number, frame->before.number, sizeof frame->before.number);
    return call;
}

struct call read_call(const struct data_frame *frame)
{
    struct call call = {READ, {0},
                        {slice_of(frame->labels, 32 * frame->line->p), room(frame->line->n), room(WW_READ_BYTES)}};
    memcpy(call.number, frame->before.number, sizeof frame->before.number);
    return call;
}

size_t label_place(uint64_t mapping_frame, uint64_t symbol, uint64_t part)
{
    return (size_t)(16 * mapping_frame + 4 * symbol + part);
}

void set_label(struct data_frame *frame, size_t place, uint64_t label)
{
    frame->labels[2 * place] = (uint8_t)(label & 255);
    frame->labels[2 * place + 1] = (uint8_t)(label >> 8);
}

void set_rings(struct data_frame *frame, uint64_t mapping_frame, const uint8_t rings[8])
{
    const uint64_t q = frame->line->q;
    size_t i;
    for (i = 0; i < 8; i++) {
        size_t place = label_place(mapping_frame, i / 2, i % 2);
        uint64_t low = ww_label(frame->labels, place) & (((uint64_t)1 << q) - 1);
        set_label(frame, place, ((uint64_t)rings[i] << q) + low);
    }
}
