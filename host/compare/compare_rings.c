/* compare_rings.c: the mapper and the ranker, for every permitted K and M and around them. */
#include <inttypes.h>
#include <stdio.h>
#include <stdlib.h>
#include <string.h>

#include "compare.h"
#include "random.h"
#include "refusals.h"
#include "second.h"
#include "workerwax.h"

#define PERMITTED_PAIRS 427
#define RANDOM_NUMBERS 60
#define NUMBERS_PAST 16

static uint64_t power8(uint64_t m)
{
    return m * m * m * m * m * m * m * m;
}

static int is_permitted(uint64_t k, uint64_t m)
{
    return k <= 31 && m >= 1 && m <= 18 && (uint64_t)1 << k <= power8(m);
}

static uint32_t try_set(struct tally *tally, uint64_t k, uint64_t m, const uint8_t rings[8], uint32_t due)
{
    const struct call call = {RANK, {k, m}, {slice_of(rings, WW_RINGS_BYTES), room(WW_RANK_BYTES)}};
    return compare(tally, &call, due);
}

/* Maps a number, and ranks what came. */
static void try_number(struct tally *tally, uint64_t k, uint64_t m, uint64_t number)
{
    const struct call call = {MAP, {k, m, number}, {room(WW_RINGS_BYTES)}};
    uint8_t rings[8];
    if (compare(tally, &call, number < (uint64_t)1 << k ? WW_DONE : WW_BAD_NUMBER) == WW_DONE) {
        memcpy(rings, compared(0), sizeof rings);
        try_set(tally, k, m, rings, WW_DONE);
        demand(ww_number(compared(RANK_ANSWER), 0) == number, "the rank of a number's rings is not the number");
    }
}

static void try_numbers(struct tally *tally, uint64_t k, uint64_t m)
{
    const uint64_t end = (uint64_t)1 << k;
    const uint64_t ends[] = {0, 1, end / 2, end - 2, end - 1, end, end + 1, (uint64_t)1 << 32, ((uint64_t)1 << 32) + 1,
                             (uint64_t)1 << 63, UINT64_MAX};
    uint64_t weight;
    size_t i;
    for (i = 0; i < sizeof ends / sizeof ends[0]; i++) {
        try_number(tally, k, m, ends[i]);
    }
    for (weight = 0; weight <= 8 * (m - 1) + 1; weight++) {
        uint64_t first = second_lighter(m, weight);
        try_number(tally, k, m, first - 1);
        try_number(tally, k, m, first);
        try_number(tally, k, m, first + 1);
    }
    for (i = 0; i < RANDOM_NUMBERS; i++) {
        try_number(tally, k, m, random_below(end));
    }
}

/* Sets of rings below M whose number is 2^K or more: the first ones, the last ones, and some between. */
static void try_sets_past(struct tally *tally, uint64_t k, uint64_t m)
{
    const uint64_t first = (uint64_t)1 << k, past = power8(m) - first;
    uint8_t rings[8];
    uint64_t i;
    for (i = 0; i < NUMBERS_PAST && i < past; i++) {
        const uint64_t numbers[3] = {first + i, power8(m) - 1 - i, first + random_below(past)};
        size_t which;
        for (which = 0; which < 3; which++) {
            second_rings_of(m, numbers[which], rings);
            try_set(tally, k, m, rings, WW_BAD_SET);
        }
    }
    memset(rings, (int)(m - 1), sizeof rings);
    try_set(tally, k, m, rings, past == 0 ? WW_DONE : WW_BAD_SET);
    for (i = 0; i < RANDOM_NUMBERS / 2; i++) {
        size_t which;
        for (which = 0; which < 8; which++) {
            rings[which] = (uint8_t)random_below(m);
        }
        try_set(tally, k, m, rings, NOT_KNOWN);
    }
}

/* A ring that is none, at each of the eight places, among rings that are in range and among the heaviest. */
static void try_bad_rings(struct tally *tally, uint64_t k, uint64_t m)
{
    const uint8_t bad[3] = {(uint8_t)m, 128, 255};
    size_t place, which;
    for (place = 0; place < 8; place++) {
        for (which = 0; which < 3; which++) {
            uint8_t rings[8];
            memset(rings, which == 1 ? (int)(m - 1) : 0, sizeof rings);
            rings[place] = bad[which];
            try_set(tally, k, m, rings, WW_BAD_LABEL);
        }
    }
}

/* Each wrong length is tried with a good number or good rings, and with bad ones. */
static void try_lengths(struct tally *tally, uint64_t k, uint64_t m)
{
    static const size_t lengths[] = {0, 1, 3, 4, 5, 7, 8, 9, 16, 256 + 4, 256 + 8, HUGE_LENGTH, ((size_t)1 << 32) + 8};
    uint8_t rings[512];
    size_t i, bad;
    for (i = 0; i < sizeof lengths / sizeof lengths[0]; i++) {
        for (bad = 0; bad < 2; bad++) {
            const size_t there = lengths[i] < sizeof rings ? lengths[i] : 8;
            const struct slice to = {NULL, there, lengths[i]}, from = {rings, there, lengths[i]};
            const struct call map = {MAP, {k, m, bad ? UINT64_MAX : 0}, {to}};
            const struct call first = {RANK, {k, m}, {from, room(WW_RANK_BYTES)}};
            const struct call second = {RANK, {k, m}, {slice_of(rings, WW_RINGS_BYTES), to}};
            const uint32_t rank_due = first_due(WW_BAD_LENGTH, bad ? WW_BAD_LABEL : WW_DONE);
            memset(rings, bad ? 255 : 0, sizeof rings);
            if (lengths[i] != WW_RINGS_BYTES) {
                compare(tally, &map, first_due(WW_BAD_LENGTH, bad ? WW_BAD_NUMBER : WW_DONE));
                compare(tally, &first, rank_due);
            }
            if (lengths[i] != WW_RANK_BYTES) {
                compare(tally, &second, rank_due);
            }
        }
    }
}

/* 13 alone, and with what else can be wrong. */
static void try_refused_pair(struct tally *tally, uint64_t k, uint64_t m)
{
    static const uint8_t zeros[16], heavy[8] = {255, 255, 255, 255, 255, 255, 255, 255};
    const struct {
        uint32_t with;
        struct call call;
    } tries[] = {
        {WW_DONE, {MAP, {k, m, 0}, {room(WW_RINGS_BYTES)}}},
        {WW_BAD_NUMBER, {MAP, {k, m, UINT64_MAX}, {room(WW_RINGS_BYTES)}}},
        {WW_BAD_LENGTH, {MAP, {k, m, 0}, {room(7)}}},
        {WW_DONE, {RANK, {k, m}, {slice_of(zeros, 8), room(WW_RANK_BYTES)}}},
        {WW_BAD_LABEL, {RANK, {k, m}, {slice_of(heavy, 8), room(WW_RANK_BYTES)}}},
        {WW_BAD_LENGTH, {RANK, {k, m}, {slice_of(zeros, 9), room(0)}}},
    };
    size_t i;
    for (i = 0; i < sizeof tries / sizeof tries[0]; i++) {
        compare(tally, &tries[i].call, first_due(WW_BAD_COUNTS, tries[i].with));
    }
}

/* Pairs of K and M that are not permitted: just outside, far outside, and what a narrow type would take for permitted ones. */
static void try_refused_pairs(struct tally *tally)
{
    static const uint64_t far[] = {63, 64, 255, 256, 256 + 3, 65536 + 4, (uint64_t)1 << 32, ((uint64_t)1 << 32) + 5,
                                   ((uint64_t)1 << 63) + 2, UINT64_MAX};
    const size_t more = sizeof far / sizeof far[0];
    size_t i, j;
    for (i = 0; i < 35 + more; i++) {
        for (j = 0; j < 22 + more; j++) {
            uint64_t k = i < 35 ? i : far[i - 35], m = j < 22 ? j : far[j - 22];
            if (!is_permitted(k, m)) {
                try_refused_pair(tally, k, m);
            }
        }
    }
}

void compare_rings(struct tally *tally)
{
    uint64_t k, m;
    int pairs = 0;
    for (k = 0; k <= 31; k++) {
        for (m = 1; m <= 18; m++) {
            if (is_permitted(k, m)) {
                pairs++;
                try_numbers(tally, k, m);
                try_sets_past(tally, k, m);
                try_bad_rings(tally, k, m);
                try_lengths(tally, k, m);
            }
        }
    }
    if (pairs != PERMITTED_PAIRS) {
        fprintf(stderr, "compare: %d permitted pairs of K and M, and not %d\n", pairs, PERMITTED_PAIRS);
        exit(1);
    }
    try_refused_pairs(tally);
}
