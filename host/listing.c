/*
 * listing.c: the eight rings by listing alone.
 *
 * For M of 1 to 4 this writes down all M^8 sets of rings and sorts them in the listing order. There is no count in it:
 * the order compares two sets by eight keys. The place of a set in the sorted list is its number, and every number is
 * then asked of the library and of the second program, both ways.
 */
#include <inttypes.h>
#include <stdio.h>
#include <stdlib.h>
#include <string.h>

#include "second.h"
#include "workerwax.h"

#define MOST_SETS 65536  /* 4^8 */
#define STATED_SETS 72354 /* 1 + 256 + 6561 + 65536 */
#define STATED_MAPS 69889 /* those below 2^K: 1 + 256 + 4096 + 65536 */

struct set {
    uint8_t rings[8];
};

static struct set list[MOST_SETS];
static uint64_t sets, maps;

/* m1+..+m8; m1+..+m4; m5+m6; m7; m5; m1+m2; m3; m1. */
static void keys_of(const struct set *set, int keys[8])
{
    const uint8_t *m = set->rings;
    const int four = m[0] + m[1] + m[2] + m[3];
    keys[0] = four + m[4] + m[5] + m[6] + m[7];
    keys[1] = four;
    keys[2] = m[4] + m[5];
    keys[3] = m[6];
    keys[4] = m[4];
    keys[5] = m[0] + m[1];
    keys[6] = m[2];
    keys[7] = m[0];
}

static int in_listing_order(const void *left, const void *right)
{
    int one[8], other[8];
    size_t i;
    keys_of(left, one);
    keys_of(right, other);
    for (i = 0; i < 8; i++) {
        if (one[i] != other[i]) {
            return one[i] < other[i] ? -1 : 1;
        }
    }
    return 0;
}

/* All sets of rings below m, in any order, then sorted. */
static size_t make_list(size_t m)
{
    size_t count = 0, place;
    struct set set = {{0}};
    do {
        list[count++] = set;
        for (place = 0; place < 8 && ++set.rings[place] == m; place++) {
            set.rings[place] = 0;
        }
    } while (place < 8);
    qsort(list, count, sizeof list[0], in_listing_order);
    return count;
}

static void fail(const char *what, size_t m, size_t number)
{
    fprintf(stderr, "listing: M %zu, place %zu in the list: %s\n", m, number, what);
    exit(1);
}

static void check_map(uint64_t k, size_t m, size_t number)
{
    uint8_t rings[8] = {0}, rings_second[8] = {0};
    if (ww_map(k, m, number, rings, sizeof rings) != WW_DONE || memcmp(rings, list[number].rings, 8) != 0) {
        fail("the library maps the number to something else", m, number);
    }
    if (second_map(k, m, number, rings_second, 8) != WW_DONE || memcmp(rings_second, list[number].rings, 8) != 0) {
        fail("the second program maps the number to something else", m, number);
    }
    maps++;
}

/* The rank of a set is its place, and from 2^K on it is refused. */
static void check_rank(uint64_t k, size_t m, size_t number)
{
    const uint32_t due = number < (size_t)1 << k ? WW_DONE : WW_BAD_SET;
    uint8_t answer[WW_RANK_BYTES] = {0}, answer_second[WW_RANK_BYTES] = {0};
    const uint32_t expected = due == WW_DONE ? (uint32_t)number : 0; /* a refusal leaves the answer at 0 */
    if (ww_rank(k, m, list[number].rings, 8, answer, sizeof answer) != due || ww_number(answer, 0) != expected) {
        fail("the library ranks the set otherwise", m, number);
    }
    if (second_rank(k, m, list[number].rings, 8, answer_second, 4) != due || ww_number(answer_second, 0) != expected) {
        fail("the second program ranks the set otherwise", m, number);
    }
    sets++;
}

/* What no call gives: rings and number past 2^K. The comparison makes its sets by them. */
static void check_unrestricted(size_t m, size_t number)
{
    uint8_t rings[8];
    second_rings_of(m, number, rings);
    if (memcmp(rings, list[number].rings, 8) != 0 || second_number_of(m, rings) != number) {
        fail("the second program has other rings for it", m, number);
    }
}

int main(void)
{
    size_t m, number;
    second_init();
    for (m = 1; m <= 4; m++) {
        const size_t count = make_list(m);
        uint64_t k = 0;
        while ((size_t)2 << k <= count) { /* the largest K with 2^K at most M^8 */
            k++;
        }
        for (number = 0; number < count; number++) {
            check_unrestricted(m, number);
            check_rank(k, m, number);
            if (number < (size_t)1 << k) {
                check_map(k, m, number);
            }
        }
        printf("%8zu  sets of M %zu, K %" PRIu64 "\n", count, m, k);
    }
    printf("%8" PRIu64 "  sets listed, sorted and ranked, %" PRIu64 " numbers mapped\n", sets, maps);
    return sets == STATED_SETS && maps == STATED_MAPS ? 0 : 1;
}
