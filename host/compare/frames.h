/* frames.h: calls of the writer and the reader on permitted settings, for the groups that send or damage data frames. */
#ifndef FRAMES_H
#define FRAMES_H

#include "calls.h"
#include "lines.h"
#include "workerwax.h"

/* The state of a line: role s n shaping mark register Z. */
struct state_numbers {
    uint64_t number[WW_STATE_NUMBERS];
};

/* A data frame: the state before it, its bits and its labels, as the second program writes them. */
struct data_frame {
    const struct line *line;
    struct state_numbers before;
    uint8_t bits[WW_MAX_BITS];
    uint8_t labels[WW_MAX_LABELS_BYTES];
};

/* A state of the line with a register and a Z drawn at random. */
struct state_numbers random_state(const struct line *line);

/* The state that starts at a place of an answer. */
struct state_numbers state_in(const uint8_t *answer, size_t place);

/* A data frame of random bits from a random state, written. */
void random_data_frame(struct data_frame *frame, const struct line *line);

/* The calls on it. They point into the data frame. */
struct call write_call(const struct data_frame *frame);
struct call read_call(const struct data_frame *frame);

/* The labels by their places: 4D symbol j of a mapping frame, and in it 0 and 1 for the 2D labels, 2 for Z, 3 for I1. */
size_t label_place(uint64_t mapping_frame, uint64_t symbol, uint64_t part);
void set_label(struct data_frame *frame, size_t place, uint64_t label);

/* Gives a mapping frame the eight rings, and leaves its q bits, Z and I1 as they are. */
void set_rings(struct data_frame *frame, uint64_t mapping_frame, const uint8_t rings[8]);

#endif
