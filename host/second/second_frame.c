/*
 * second_frame.c: one mapping frame (clauses 9.3 and 9.5), bits to sixteen labels and back.
 *
 * A frame of b > 12 bits, or b - 1 in a low frame: S, then for each of four 4D symbols I1, I2, I3 and two groups of q
 * bits. The low frame's S has one bit less and the top one is 0. With b <= 12 there is no S and q is 0, and only the
 * first length - 8 symbols carry an I3.
 */
#include "second.h"
#include "second_bits.h"
#include "second_inside.h"

/* Bits of S that the frame carries. */
static uint64_t bits_of_s(const struct parameters *by, uint64_t length)
{
    return by->b > 12 && length < by->b ? by->k - 1 : by->k;
}

/* Whether 4D symbol j carries an I3 (clause 9.3.2). */
static int carries_i3(const struct parameters *by, uint64_t length, uint64_t j)
{
    return by->b > 12 || j < length - 8;
}

static void put_label(uint8_t *labels, size_t place, uint64_t label)
{
    labels[2 * place] = (uint8_t)(label & 255);
    labels[2 * place + 1] = (uint8_t)(label >> 8);
}

static uint64_t get_label(const uint8_t *labels, size_t place)
{
    return (uint64_t)labels[2 * place] + 256 * (uint64_t)labels[2 * place + 1];
}

void second_write_frame(const struct parameters *by, uint64_t length, const uint8_t *bits, uint64_t *z, uint8_t *labels)
{
    uint8_t rings[8];
    uint64_t j;
    second_rings_of(by->m, take(&bits, bits_of_s(by, length)), rings);
    for (j = 0; j < 4; j++) {
        uint64_t i1 = take(&bits, 1);
        uint64_t i2 = take(&bits, 1);
        uint64_t i3 = carries_i3(by, length, j) ? take(&bits, 1) : 0;
        uint64_t first = take(&bits, by->q);
        uint64_t second = take(&bits, by->q);
        *z = (*z + i2 + 2 * i3) % 4; /* (9-25) */
        put_label(labels, 4 * j, ((uint64_t)rings[2 * j] << by->q) + first); /* (9-26) */
        put_label(labels, 4 * j + 1, ((uint64_t)rings[2 * j + 1] << by->q) + second);
        put_label(labels, 4 * j + 2, *z);
        put_label(labels, 4 * j + 3, i1);
    }
}

/* 10: of the four labels of each 4D symbol, the first two are below M*2^q, the third is at most 3 and the last at most 1. */
static uint32_t refuse_labels(const struct parameters *by, const uint8_t *labels)
{
    const uint64_t limit[4] = {by->m << by->q, by->m << by->q, 4, 2};
    size_t i;
    for (i = 0; i < 16; i++) {
        if (get_label(labels, i) >= limit[i % 4]) {
            return LABEL;
        }
    }
    return DONE;
}

/* The number of the eight rings that the labels hold above their q bits. */
static uint64_t number_of_labels(const struct parameters *by, const uint8_t *labels)
{
    uint8_t rings[8];
    size_t i;
    for (i = 0; i < 8; i++) {
        rings[i] = (uint8_t)(get_label(labels, 4 * (i / 2) + i % 2) >> by->q);
    }
    return second_number_of(by->m, rings);
}

/* The bits behind S. 12 where the step of Z has an I3 for which the frame has no place. */
static uint32_t read_symbols(const struct parameters *by, uint64_t length, const uint8_t *labels, uint64_t z, uint8_t *bits)
{
    uint32_t refused = DONE;
    uint64_t j;
    for (j = 0; j < 4; j++) {
        uint64_t step = (get_label(labels, 4 * j + 2) + 4 - z) % 4;
        z = get_label(labels, 4 * j + 2);
        give(&bits, get_label(labels, 4 * j + 3), 1);
        give(&bits, step, 1);
        if (carries_i3(by, length, j)) {
            give(&bits, step >> 1, 1);
        } else if (step >> 1 != 0) {
            refused = STEP;
        }
        give(&bits, get_label(labels, 4 * j), by->q); /* the q bits stand lowest, so the ring above is left out */
        give(&bits, get_label(labels, 4 * j + 1), by->q);
    }
    return refused;
}

uint32_t second_read_frame(const struct parameters *by, uint64_t length, const uint8_t *labels, uint64_t *z, uint8_t *bits)
{
    uint64_t z_before = *z, number;
    *z = get_label(labels, 14);
    if (refuse_labels(by, labels) != DONE) {
        *z = 0; /* whatever comes behind, the data frame is refused with 10 */
        return LABEL;
    }
    number = number_of_labels(by, labels);
    if (number >> bits_of_s(by, length) != 0) {
        return SET;
    }
    give(&bits, number, bits_of_s(by, length));
    return read_symbols(by, length, labels, z_before, bits);
}
