/*
 * bench_frames.c: the rows of ww_write and ww_read, on data frames of random bits, each from a random state.
 *
 * The reader is given the labels that the second program wrote beforehand, so both sides read the same and none is
 * refused.
 */
#include <stdio.h>
#include <stdlib.h>
#include <string.h>

#include "bench.h"
#include "random.h"
#include "second.h"
#include "workerwax.h"

struct given {
    uint64_t state[WW_STATE_NUMBERS];
    uint8_t bits[WW_MAX_BITS];
    uint8_t labels[WW_MAX_LABELS_BYTES];
};

struct room {
    uint8_t bits[WW_MAX_BITS];
    uint8_t labels[WW_MAX_LABELS_BYTES];
    uint8_t answer[WW_WRITE_BYTES];
};

static size_t bits_length, labels_length;
static struct given given[BENCH_CALLS];
static struct room got[SIDES][BENCH_CALLS];

static int write_one(data_call *write, const struct given *one, uint8_t *labels, uint8_t *answer)
{
    const uint64_t *x = one->state;
    return write(WW_STATE(x), one->bits, bits_length, labels, labels_length, answer, WW_WRITE_BYTES) == WW_DONE;
}

static int read_one(data_call *read, const struct given *one, uint8_t *bits, uint8_t *answer)
{
    const uint64_t *x = one->state;
    return read(WW_STATE(x), one->labels, labels_length, bits, bits_length, answer, WW_READ_BYTES) == WW_DONE;
}

/* The exact lengths of the row's settings. */
static int find_lengths(const struct row *row)
{
    uint8_t answer[WW_PARAMETERS_BYTES];
    const uint64_t *x = row->numbers;
    if (second_parameters(WW_SETTINGS(x), answer, sizeof answer) != WW_DONE) {
        return 0;
    }
    bits_length = ww_number(answer, WW_PARAMETERS_N);
    labels_length = 32 * ww_number(answer, WW_PARAMETERS_P);
    return 1;
}

void frames_draw(const struct row *row)
{
    uint8_t answer[WW_WRITE_BYTES];
    int good = find_lengths(row);
    size_t i;
    memset(got, 0, sizeof got);
    for (i = 0; good && i < BENCH_CALLS; i++) {
        memcpy(given[i].state, row->numbers, sizeof row->numbers);
        given[i].state[WW_STATE_REGISTER] = random_below((uint64_t)1 << 23);
        given[i].state[WW_STATE_Z] = random_below(4);
        random_bits(given[i].bits, bits_length);
        good = write_one(second_write, &given[i], given[i].labels, answer);
    }
    if (!good) {
        fprintf(stderr, "bench: the second program does not write %s\n", row->input);
        exit(1);
    }
}

int frames_write(const struct row *row, int side)
{
    int good = 1;
    size_t i;
    (void)row;
    for (i = 0; i < BENCH_CALLS; i++) {
        good &= write_one(bench_sides[side].write, &given[i], got[side][i].labels, got[side][i].answer);
    }
    return good;
}

int frames_read(const struct row *row, int side)
{
    int good = 1;
    size_t i;
    (void)row;
    for (i = 0; i < BENCH_CALLS; i++) {
        good &= read_one(bench_sides[side].read, &given[i], got[side][i].bits, got[side][i].answer);
    }
    return good;
}

int frames_agree(const struct row *row)
{
    (void)row;
    return memcmp(got[LIBRARY], got[PLAIN], sizeof got[PLAIN]) == 0;
}
