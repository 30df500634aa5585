/*
 * bench_rings.c: the rows of ww_map and ww_rank.
 *
 * The ranker is given the rings of the second program and not those that its own side mapped, so a row can be run alone
 * and both sides rank the same sets.
 */
#include <string.h>

#include "bench.h"
#include "random.h"
#include "second.h"
#include "workerwax.h"

static uint64_t numbers[BENCH_CALLS];
static uint8_t sets[BENCH_CALLS][WW_RINGS_BYTES];
static uint8_t mapped[SIDES][BENCH_CALLS][WW_RINGS_BYTES];
static uint8_t ranked[SIDES][BENCH_CALLS][WW_RANK_BYTES];

void rings_draw(const struct row *row)
{
    size_t i;
    memset(mapped, 0, sizeof mapped);
    memset(ranked, 0, sizeof ranked);
    for (i = 0; i < BENCH_CALLS; i++) {
        numbers[i] = random_below((uint64_t)1 << row->numbers[0]);
        second_rings_of(row->numbers[1], numbers[i], sets[i]);
    }
}

int rings_map(const struct row *row, int side)
{
    map_call *map = bench_sides[side].map;
    uint32_t refused = WW_DONE;
    size_t i;
    for (i = 0; i < BENCH_CALLS; i++) {
        refused |= map(row->numbers[0], row->numbers[1], numbers[i], mapped[side][i], WW_RINGS_BYTES);
    }
    return refused == WW_DONE;
}

int rings_rank(const struct row *row, int side)
{
    rank_call *rank = bench_sides[side].rank;
    uint32_t refused = WW_DONE;
    size_t i;
    for (i = 0; i < BENCH_CALLS; i++) {
        refused |= rank(row->numbers[0], row->numbers[1], sets[i], WW_RINGS_BYTES, ranked[side][i], WW_RANK_BYTES);
    }
    return refused == WW_DONE;
}

int rings_agree(const struct row *row)
{
    (void)row;
    return memcmp(mapped[LIBRARY], mapped[PLAIN], sizeof mapped[PLAIN]) == 0 &&
           memcmp(ranked[LIBRARY], ranked[PLAIN], sizeof ranked[PLAIN]) == 0;
}
