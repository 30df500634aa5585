/* compare_damage.c: data frames with one thing wrong in their bits or labels, or two in different mapping frames. */
#include <string.h>

#include "compare.h"
#include "frames.h"
#include "random.h"
#include "second.h"

/* What is accepted must be what the writer writes: the bits that were read give the labels again. */
static void try_labels(struct tally *tally, const struct data_frame *damaged, uint32_t due)
{
    const struct call read = read_call(damaged);
    static struct data_frame again;
    if (compare(tally, &read, due) == WW_DONE) {
        struct call write;
        again = *damaged;
        memcpy(again.bits, compared(TO), damaged->line->n);
        write = write_call(&again);
        compare(tally, &write, WW_DONE);
        demand(memcmp(compared(TO), damaged->labels, 32 * damaged->line->p) == 0,
               "the reader accepts labels that the writer does not write");
    }
}

static void try_label(struct tally *tally, const struct data_frame *good, size_t place, uint64_t label, uint32_t due)
{
    static struct data_frame damaged;
    damaged = *good;
    set_label(&damaged, place, label);
    try_labels(tally, &damaged, due);
}

static void damage_bits(struct tally *tally, const struct data_frame *good)
{
    static const uint8_t bytes[] = {2, 3, 128, 255};
    const size_t places[] = {0, 1, good->line->n / 2, good->line->n - 2, good->line->n - 1};
    static struct data_frame damaged;
    size_t i, k;
    for (i = 0; i < sizeof places / sizeof places[0]; i++) {
        for (k = 0; k < sizeof bytes; k++) {
            struct call call;
            damaged = *good;
            damaged.bits[places[i]] = bytes[k];
            call = write_call(&damaged);
            compare(tally, &call, WW_BAD_BIT);
        }
    }
}

/* The labels of one 4D symbol, at their limits and far past them. */
static void damage_symbol(struct tally *tally, const struct data_frame *good, uint64_t mapping_frame, uint64_t symbol)
{
    const uint64_t limits[4] = {good->line->m << good->line->q, good->line->m << good->line->q, 4, 2};
    uint64_t part;
    for (part = 0; part < 4; part++) {
        size_t place = label_place(mapping_frame, symbol, part);
        uint64_t is = ww_label(good->labels, place);
        try_label(tally, good, place, limits[part], WW_BAD_LABEL);
        try_label(tally, good, place, limits[part] - 1, NOT_KNOWN);
        try_label(tally, good, place, 0, NOT_KNOWN);
        try_label(tally, good, place, 65535, WW_BAD_LABEL);
        try_label(tally, good, place, is | 0x8000, WW_BAD_LABEL);
        try_label(tally, good, place, is | 0x0100, part < 2 ? NOT_KNOWN : WW_BAD_LABEL);
        try_label(tally, good, place, is << 8, NOT_KNOWN);
        try_label(tally, good, place, random_below(limits[part]), NOT_KNOWN);
    }
}

/* Rings of the numbers around the limit of this mapping frame, which is half as high in a low one. */
static void damage_rings(struct tally *tally, const struct data_frame *good, uint64_t mapping_frame)
{
    const uint64_t m = good->line->m, limit = (uint64_t)1 << line_bits_of_s(good->line, mapping_frame);
    const uint64_t all = second_lighter(m, 8 * (m - 1) + 1);
    const uint64_t numbers[] = {0, limit / 2, limit - 1, limit, limit + 1, all - 1, random_below(all)};
    static struct data_frame damaged;
    size_t i;
    for (i = 0; i < sizeof numbers / sizeof numbers[0]; i++) {
        if (numbers[i] < all) {
            uint8_t rings[8];
            second_rings_of(m, numbers[i], rings);
            damaged = *good;
            set_rings(&damaged, mapping_frame, rings);
            try_labels(tally, &damaged, numbers[i] < limit ? WW_DONE : WW_BAD_SET);
        }
    }
}

/* Whether 4D symbol j of the mapping frame carries an I3. */
static int carries_i3(const struct line *line, uint64_t mapping_frame, uint64_t symbol)
{
    return line->b > 12 || symbol < line_frame_length(line, mapping_frame) - 8;
}

/* Z one, two and three steps on. The step of the next symbol changes by as much, back. */
static void damage_z(struct tally *tally, const struct data_frame *good, uint64_t mapping_frame, uint64_t symbol)
{
    size_t place = label_place(mapping_frame, symbol, 2);
    uint64_t steps;
    for (steps = 1; steps < 4; steps++) {
        int is_refused = steps == 2 && !carries_i3(good->line, mapping_frame, symbol);
        try_label(tally, good, place, (ww_label(good->labels, place) + steps) % 4, is_refused ? WW_BAD_STEP : NOT_KNOWN);
    }
}

/* 10 in one mapping frame, and 11 or 12 in another: 10 is due, whichever of them comes first. */
static void damage_two(struct tally *tally, const struct data_frame *good, uint64_t one, uint64_t other)
{
    const uint64_t limit = good->line->m << good->line->q;
    const size_t bad_places[3] = {label_place(one, 0, 0), label_place(one, 3, 1), label_place(one, 3, 3)};
    static struct data_frame damaged;
    size_t i;
    for (i = 0; i < 3; i++) {
        uint8_t rings[8];
        size_t z_place = label_place(other, 3, 2);
        memset(rings, (int)(good->line->m - 1), sizeof rings);
        damaged = *good;
        set_rings(&damaged, other, rings);
        set_label(&damaged, z_place, (ww_label(good->labels, z_place) + 2) % 4);
        try_labels(tally, &damaged, NOT_KNOWN);
        set_label(&damaged, bad_places[i], i == 2 ? 2 : limit);
        try_labels(tally, &damaged, WW_BAD_LABEL);
    }
}

void compare_damage(struct tally *tally)
{
    static struct data_frame good;
    size_t i, k;
    uint64_t symbol;
    for (i = 0; i < LINES; i++) {
        const struct line *line = &lines()[i];
        const uint64_t places[3] = {0, random_below(line->p), line->p - 1};
        random_data_frame(&good, line);
        damage_bits(tally, &good);
        for (k = 0; k < 3; k++) {
            damage_symbol(tally, &good, places[k], random_below(4));
            damage_two(tally, &good, places[k], places[(k + 1) % 3]);
            damage_two(tally, &good, places[(k + 1) % 3], places[k]);
        }
        for (k = 0; k < line->p; k++) {
            damage_rings(tally, &good, k);
            for (symbol = 0; (line->b <= 12 || k == 0) && symbol < 4; symbol++) {
                damage_z(tally, &good, k, symbol);
            }
        }
    }
}
