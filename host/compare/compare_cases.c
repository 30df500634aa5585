/* compare_cases.c: the scope paper's worked cases, with their answers written out here. */
#include <string.h>

#include "compare.h"
#include "workerwax.h"

struct settings_case {
    uint64_t settings[WW_SETTINGS_NUMBERS];
    uint32_t due;
    uint32_t answer[8];
};

static const struct settings_case settings_cases[] = {
    {{0, 5, 14, 1, 1}, 0, {1176, 15, 79, 6, 27, 5, 13, 1664}},
    {{0, 4, 12, 0, 0}, 0, {1152, 16, 72, 16, 28, 4, 12, 768}},
    {{0, 4, 12, 1, 0}, 0, {1152, 16, 72, 16, 28, 4, 14, 896}},
    {{0, 4, 13, 0, 1}, 0, {1248, 16, 78, 16, 26, 5, 10, 1280}},
    {{0, 4, 13, 0, 0}, 6, {0}},
    {{0, 4, 13, 0, 2}, 5, {0}},
    {{0, 0, 1, 0, 0}, 0, {96, 12, 8, 12, 0, 0, 1, 4}},
    {{0, 0, 10, 0, 0}, 3, {0}},
    {{1, 5, 2, 1, 0}, 0, {168, 15, 12, 3, 0, 0, 1, 4}},
    {{0, 3, 2, 1, 0}, 0, {192, 15, 13, 12, 1, 0, 2, 8}}, /* expanded M would be 1, below the minimum */
    {{0, 3, 3, 1, 0}, 0, {288, 15, 20, 3, 8, 0, 3, 12}}, /* 1.25*2 is a half, and goes up */
    {{0, 1, 6, 1, 0}, 0, {504, 12, 42, 12, 30, 0, 17, 68}},
};

struct rings_case {
    uint64_t m, k, number;
    uint8_t rings[8];
};

static const struct rings_case rings_cases[] = {
    {1, 0, 0, {0, 0, 0, 0, 0, 0, 0, 0}},   {2, 8, 1, {0, 0, 0, 0, 0, 0, 0, 1}},   {2, 8, 2, {0, 0, 0, 0, 0, 0, 1, 0}},
    {2, 8, 5, {0, 0, 0, 1, 0, 0, 0, 0}},   {2, 8, 8, {1, 0, 0, 0, 0, 0, 0, 0}},   {2, 8, 9, {0, 0, 0, 0, 0, 0, 1, 1}},
    {2, 8, 10, {0, 0, 0, 0, 0, 1, 0, 1}},  {2, 8, 11, {0, 0, 0, 0, 1, 0, 0, 1}},  {2, 8, 254, {1, 1, 1, 1, 1, 1, 1, 0}},
    {2, 8, 255, {1, 1, 1, 1, 1, 1, 1, 1}}, {3, 12, 9, {0, 0, 0, 0, 0, 0, 0, 2}},
};

static void settings_are_worked_out(struct tally *tally)
{
    size_t i, k;
    for (i = 0; i < sizeof settings_cases / sizeof settings_cases[0]; i++) {
        const struct settings_case *one = &settings_cases[i];
        struct call call = {PARAMETERS, {0}, {room(WW_PARAMETERS_BYTES)}};
        memcpy(call.number, one->settings, sizeof one->settings);
        if (compare(tally, &call, one->due) == WW_DONE) {
            for (k = 0; k < 8; k++) {
                demand(ww_number(compared(0), k) == one->answer[k], "not the scope paper's numbers");
            }
        }
    }
}

static void rings_are_mapped_and_ranked(struct tally *tally)
{
    size_t i;
    for (i = 0; i < sizeof rings_cases / sizeof rings_cases[0]; i++) {
        const struct rings_case *one = &rings_cases[i];
        const struct call map = {MAP, {one->k, one->m, one->number}, {room(WW_RINGS_BYTES)}};
        const struct call rank = {RANK, {one->k, one->m}, {slice_of(one->rings, 8), room(WW_RANK_BYTES)}};
        compare(tally, &map, WW_DONE);
        demand(memcmp(compared(0), one->rings, 8) == 0, "not the scope paper's rings");
        compare(tally, &rank, WW_DONE);
        demand(ww_number(compared(RANK_ANSWER), 0) == one->number, "not the scope paper's number");
    }
}

static void rings_are_refused(struct tally *tally)
{
    static const uint8_t twos[8] = {2, 2, 2, 2, 2, 2, 2, 2};
    const struct call beyond = {MAP, {8, 2, 256}, {room(WW_RINGS_BYTES)}};
    const struct call crowded = {MAP, {13, 3, 0}, {room(WW_RINGS_BYTES)}};
    const struct call heavy = {RANK, {12, 3}, {slice_of(twos, 8), room(WW_RANK_BYTES)}};
    compare(tally, &beyond, WW_BAD_NUMBER);
    compare(tally, &crowded, WW_BAD_COUNTS);
    compare(tally, &heavy, WW_BAD_SET);
}

/*
 * The scrambler from 0 on a 1 and then zeros. At s 0, n 1 every mapping frame has eight bits, I1 and I2 for each of its
 * symbols. So of the scrambled bits the even ones are the I1 labels, and the odd ones are the steps of Z.
 */
static void scrambler_is_seen(struct tally *tally, uint64_t role, const char *due)
{
    uint8_t bits[96] = {1};
    const struct call call = {WRITE, {role, 0, 1, 0, 0, 0, 0},
                              {slice_of(bits, sizeof bits), room(12 * 32), room(WW_WRITE_BYTES)}};
    uint32_t z = 0;
    size_t i;
    compare(tally, &call, WW_DONE);
    for (i = 0; due[i] != '\0'; i += 2) {
        uint32_t z_next = ww_label(compared(TO), 2 * i + 2);
        demand(ww_label(compared(TO), 2 * i + 3) == (uint32_t)(due[i] - '0'), "not the scrambled bits due, in I1");
        demand((z_next + 4 - z) % 4 == (uint32_t)(due[i + 1] - '0'), "not the scrambled bits due, in Z");
        z = z_next;
    }
}

void compare_cases(struct tally *tally)
{
    settings_are_worked_out(tally);
    rings_are_mapped_and_ranked(tally);
    rings_are_refused(tally);
    scrambler_is_seen(tally, 0, "100000000000000000100001"); /* ones at 0, 18, 23 */
    scrambler_is_seen(tally, 1, "100001000010000100001001"); /* ones at 0, 5, 10, 15, 20, 23 */
}
