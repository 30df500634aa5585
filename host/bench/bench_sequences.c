/*
 * bench_sequences.c: the rows of the readers and writers of sequences, on fields drawn at random.
 *
 * The reader is given the sequences that the second program wrote beforehand, so both sides read the same and none is
 * refused.
 */
#include <stdio.h>
#include <stdlib.h>
#include <string.h>

#include "bench.h"
#include "random.h"
#include "second.h"
#include "workerwax.h"

#define MOST_BITS 128
#define MOST_ANSWER_BYTES 128

struct sequence {
    uint8_t bits[MOST_BITS];
    uint8_t answer[MOST_ANSWER_BYTES]; /* of the reader; the writer takes its first numbers */
};

struct kind {
    size_t bits, fields, fields_bytes, answer_bytes;
    int64_t (*draw)(size_t place); /* a number that the field may be */
};

static struct sequence given[BENCH_CALLS];
static struct sequence got[SIDES][BENCH_CALLS];

static int64_t up_to(uint64_t highest)
{
    return (int64_t)random_below(highest + 1);
}

static int64_t draw_info0(size_t place)
{
    return up_to(place == WW_INFO0_DIFFERENCE ? 5 : place == WW_INFO0_CLOCK ? 2 : 1);
}

static int64_t draw_info1c(size_t place)
{
    static const uint64_t highest_of_block[3] = {1, 10, 14};
    switch (place) {
    case WW_INFO1C_POWER:
    case WW_INFO1C_EXTRA_POWER: return up_to(7);
    case WW_INFO1C_MD: return up_to(127);
    case WW_INFO1C_COUNT: return up_to(1023) - 512;
    default: return up_to(highest_of_block[place % 3]); /* they begin at place 3 */
    }
}

static int64_t draw_jp(size_t place)
{
    return up_to(place == WW_JP_FRACTION ? 65535 : 1);
}

static const struct kind kinds[SEQUENCES] = {
    [INFO0] = {WW_INFO0_BITS, WW_INFO0_FIELDS, WW_INFO0_BYTES, WW_INFO0_BYTES, draw_info0},
    [INFO1C] = {WW_INFO1C_BITS, WW_INFO1C_FIELDS, WW_INFO1C_BYTES, WW_INFO1C_REPORT_BYTES, draw_info1c},
    [JP] = {WW_JP_BITS, WW_JP_FIELDS, 4 * WW_JP_FIELDS, WW_JP_BYTES, draw_jp},
};

static int write_one(const struct row *row, int side, const struct sequence *from, struct sequence *to)
{
    const struct kind *kind = &kinds[row->numbers[0]];
    const uint8_t *fields = from->answer;
    sequence_call *write = bench_sides[side].sequence[row->numbers[0]].write;
    numbers_call *write_numbers = bench_sides[side].sequence[row->numbers[0]].write_numbers;
    if (write != NULL) {
        return write(fields, kind->fields_bytes, to->bits, kind->bits) == WW_DONE;
    }
    return write_numbers(ww_number(fields, 0), ww_number(fields, 1), ww_number(fields, 2), to->bits, kind->bits) == WW_DONE;
}

static int read_one(const struct row *row, int side, const struct sequence *from, struct sequence *to)
{
    const struct kind *kind = &kinds[row->numbers[0]];
    sequence_call *read = bench_sides[side].sequence[row->numbers[0]].read;
    return read(from->bits, kind->bits, to->answer, kind->answer_bytes) == WW_DONE;
}

void sequences_draw(const struct row *row)
{
    const struct kind *kind = &kinds[row->numbers[0]];
    size_t i, place;
    memset(got, 0, sizeof got);
    for (i = 0; i < BENCH_CALLS; i++) {
        for (place = 0; place < kind->fields; place++) {
            ww_put_signed_number(given[i].answer, place, kind->draw(place));
        }
        if (!write_one(row, PLAIN, &given[i], &given[i])) {
            fprintf(stderr, "bench: the second program does not write %s\n", row->input);
            exit(1);
        }
    }
}

int sequences_read(const struct row *row, int side)
{
    int good = 1;
    size_t i;
    for (i = 0; i < BENCH_CALLS; i++) {
        good &= read_one(row, side, &given[i], &got[side][i]);
    }
    return good;
}

int sequences_write(const struct row *row, int side)
{
    int good = 1;
    size_t i;
    for (i = 0; i < BENCH_CALLS; i++) {
        good &= write_one(row, side, &given[i], &got[side][i]);
    }
    return good;
}

int sequences_agree(const struct row *row)
{
    (void)row;
    return memcmp(got[LIBRARY], got[PLAIN], sizeof got[PLAIN]) == 0;
}
