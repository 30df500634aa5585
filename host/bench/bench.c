/*
 * bench.c: the library against the second program, on the same work in one process: tools/bench runs it.
 *
 *     bench count    makes each row's calls once on each side. tools/bench runs this under callgrind, which counts the
 *                    instructions inside the calls and writes them out at each bench_counted
 *     bench time     says how long a call takes on each side
 *
 * Both print a line for each row and fail where the two sides do not give the same.
 */
#include "bench.h"

#include <stdio.h>
#include <string.h>

#include "random.h"
#include "second.h"
#include "workerwax.h"

const struct side bench_sides[SIDES] = {
    {"library", ww_map, ww_rank, ww_write, ww_read,
     {[INFO0] = {ww_info0_read, ww_info0_write, NULL},
      [INFO1C] = {ww_info1c_read, ww_info1c_write, NULL},
      [JP] = {ww_jp_read, NULL, ww_jp_write}}},
    {"plain", second_map, second_rank, second_write, second_read,
     {[INFO0] = {second_info0_read, second_info0_write, NULL},
      [INFO1C] = {second_info1c_read, second_info1c_write, NULL},
      [JP] = {second_jp_read, NULL, second_jp_write}}},
};

#define RINGS(k, m) \
    {"map", "K " #k ", M " #m, rings_draw, rings_map, rings_agree, {k, m}}, \
    {"rank", "K " #k ", M " #m, rings_draw, rings_rank, rings_agree, {k, m}}
#define FRAMES(input, role, s, n, shaping) \
    {"write", input, frames_draw, frames_write, frames_agree, {role, s, n, shaping, 1}}, \
    {"read", input, frames_draw, frames_read, frames_agree, {role, s, n, shaping, 1}}
#define SEQUENCE(name, which) \
    {name "_read", "random fields", sequences_draw, sequences_read, sequences_agree, {which}}, \
    {name "_write", "random fields", sequences_draw, sequences_write, sequences_agree, {which}}

static const struct row rows[] = {
    RINGS(31, 18),
    RINGS(31, 15),
    RINGS(28, 14),
    RINGS(24, 8),
    RINGS(8, 2),
    FRAMES("s5 n14 expanded", 0, 5, 14, 1),
    FRAMES("s5 n14 expanded, role 1", 1, 5, 14, 1), /* its nearer tap is 5 back and not 18: less can be done at once */
    FRAMES("s4 n12 minimum", 0, 4, 12, 0),
    FRAMES("s3 n6 minimum", 0, 3, 6, 0),
    FRAMES("s0 n1 minimum", 0, 0, 1, 0), /* no S, so little to do: what a call costs at least */
    SEQUENCE("info0", INFO0),
    SEQUENCE("info1c", INFO1C),
    SEQUENCE("jp", JP),
};

/*
 * callgrind is told to write out what it has counted when this is entered, so it must stay a function of its own. The
 * line says what those counts are of.
 */
__attribute__((noinline)) static void bench_counted(const struct row *row, int side)
{
    printf("%s|%s|%s|%d\n", row->call, row->input, bench_sides[side].name, BENCH_CALLS);
}

static int count(const struct row *row)
{
    int side, good = 1;
    for (side = 0; side < SIDES; side++) {
        good &= row->run(row, side);
        bench_counted(row, side);
    }
    return good;
}

static int take_time(const struct row *row)
{
    double nanoseconds[SIDES];
    int good = bench_time(row, nanoseconds);
    if (good) {
        printf("%s|%s|%.1f|%.1f\n", row->call, row->input, nanoseconds[LIBRARY], nanoseconds[PLAIN]);
    }
    return good;
}

int main(int argc, char **argv)
{
    size_t i;
    int counting = argc == 2 && strcmp(argv[1], "count") == 0;
    if (!counting && (argc != 2 || strcmp(argv[1], "time") != 0)) {
        fprintf(stderr, "usage: bench count | time\n");
        return 2;
    }
    random_seed(34);
    second_init();
    for (i = 0; i < sizeof rows / sizeof rows[0]; i++) {
        const struct row *row = &rows[i];
        row->draw(row);
        if (!(counting ? count(row) : take_time(row)) || !row->agree(row)) {
            fprintf(stderr, "bench: ww_%s and the second program do not give the same: %s\n", row->call, row->input);
            return 1;
        }
    }
    return 0;
}
