/*
 * second_rings.c: the shell mapper of clause 9.4 and its inverse.
 *
 * A ring is 0 to M - 1. g2(p) pairs of rings have the sum p, g4(p) fours and g8(p) eights; z8(p) eights have a sum
 * below p. Each count is the one before it folded with itself, (9-4) and (9-5). They are made once, for every M.
 *
 * An eight of total A is two fours, of sums B and A - B; a four of sum B is two pairs, of sums C and B - C. The place
 * of the first half is the remainder and the place of the second half is the quotient, at both levels: (9-9), (9-10)
 * and (9-13) to (9-16).
 */
#include "second.h"
#include "second_inside.h"

#define TOP (SECOND_MAX_RINGS - 1)

struct counts {
    uint64_t g1[TOP + 1], g2[2 * TOP + 1], g4[4 * TOP + 1], g8[8 * TOP + 1], z8[8 * TOP + 2];
};

static struct counts counts_by_m[SECOND_MAX_RINGS + 1];

/* both[p] = the sum of half[i]*half[p - i]; half has `top` as its last place. */
static void fold(const uint64_t *half, uint64_t top, uint64_t *both)
{
    uint64_t i, j;
    for (i = 0; i <= top; i++) {
        for (j = 0; j <= top; j++) {
            both[i + j] += half[i] * half[j];
        }
    }
}

void second_init(void)
{
    uint64_t m, p;
    for (m = 1; m <= SECOND_MAX_RINGS; m++) {
        struct counts *c = &counts_by_m[m];
        *c = (struct counts){{0}, {0}, {0}, {0}, {0}};
        for (p = 0; p < m; p++) {
            c->g1[p] = 1;
        }
        fold(c->g1, TOP, c->g2);
        fold(c->g2, 2 * TOP, c->g4);
        fold(c->g4, 4 * TOP, c->g8);
        for (p = 0; p <= 8 * TOP; p++) {
            c->z8[p + 1] = c->z8[p] + c->g8[p];
        }
    }
}

uint64_t second_lighter(uint64_t m, uint64_t weight)
{
    return counts_by_m[m].z8[weight];
}

/* (9-17) to (9-24): the pair of a sum and a place. */
static void pair_of(uint64_t m, uint64_t sum, uint64_t place, uint8_t *pair)
{
    uint64_t first = sum < m ? place : sum - (m - 1 - place);
    pair[0] = (uint8_t)first;
    pair[1] = (uint8_t)(sum - first);
}

static uint64_t place_of_pair(uint64_t m, const uint8_t *pair)
{
    return (uint64_t)pair[0] + pair[1] < m ? pair[0] : m - 1 - pair[1];
}

/*
 * The largest p for which the sum of g(i)*g(sum - i) over i < p is at most *rest: *rest loses that sum. g has `top` as
 * its last place and is 0 above. A p whose own product is 0 is passed over: the next one takes no more off.
 */
static uint64_t split(const uint64_t *g, uint64_t top, uint64_t sum, uint64_t *rest)
{
    uint64_t p = sum > top ? sum - top : 0;
    while (*rest >= g[p] * g[sum - p]) {
        *rest -= g[p] * g[sum - p];
        p++;
    }
    return p;
}

/* What split takes off for p. */
static uint64_t before(const uint64_t *g, uint64_t top, uint64_t sum, uint64_t p)
{
    uint64_t i, total = 0;
    for (i = sum > top ? sum - top : 0; i < p; i++) {
        total += g[i] * g[sum - i];
    }
    return total;
}

/* (9-11) to (9-16) for one four. */
static void four_of(uint64_t m, uint64_t sum, uint64_t place, uint8_t *four)
{
    const uint64_t *g2 = counts_by_m[m].g2;
    uint64_t first = split(g2, 2 * (m - 1), sum, &place);
    pair_of(m, first, place % g2[first], four);
    pair_of(m, sum - first, place / g2[first], four + 2);
}

static uint64_t place_of_four(uint64_t m, const uint8_t *four)
{
    const uint64_t *g2 = counts_by_m[m].g2;
    uint64_t first = (uint64_t)four[0] + four[1];
    uint64_t sum = first + four[2] + four[3];
    return before(g2, 2 * (m - 1), sum, first) + place_of_pair(m, four + 2) * g2[first] + place_of_pair(m, four);
}

/* Steps 2 to 6 of clause 9.4. */
void second_rings_of(uint64_t m, uint64_t number, uint8_t rings[8])
{
    const struct counts *c = &counts_by_m[m];
    uint64_t total = 0, first, rest;
    while (total < 8 * (m - 1) && c->z8[total + 1] <= number) {
        total++;
    }
    rest = number - c->z8[total];
    first = split(c->g4, 4 * (m - 1), total, &rest);
    four_of(m, first, rest % c->g4[first], rings);
    four_of(m, total - first, rest / c->g4[first], rings + 4);
}

uint64_t second_number_of(uint64_t m, const uint8_t rings[8])
{
    const struct counts *c = &counts_by_m[m];
    uint64_t first = (uint64_t)rings[0] + rings[1] + rings[2] + rings[3];
    uint64_t total = first + rings[4] + rings[5] + rings[6] + rings[7];
    return c->z8[total] + before(c->g4, 4 * (m - 1), total, first) + place_of_four(m, rings + 4) * c->g4[first] +
           place_of_four(m, rings);
}

/* 13: K above 31, M not 1 to 18, or more numbers than sets. */
static uint32_t refuse_counts(uint64_t k, uint64_t m)
{
    if (k > 31 || m < 1 || m > SECOND_MAX_RINGS) {
        return COUNTS;
    }
    return (uint64_t)1 << k > counts_by_m[m].z8[8 * (m - 1) + 1] ? COUNTS : DONE; /* all sets: M^8 */
}

uint32_t second_map(uint64_t k, uint64_t m, uint64_t number, uint8_t *rings, size_t rings_length)
{
    if (refuse_counts(k, m) != DONE) {
        return COUNTS;
    }
    if (rings_length != 8) {
        return LENGTH;
    }
    if (number >> k != 0) {
        return NUMBER;
    }
    second_rings_of(m, number, rings);
    return DONE;
}

uint32_t second_rank(uint64_t k, uint64_t m, const uint8_t *rings, size_t rings_length,
                     uint8_t *answer, size_t answer_length)
{
    uint64_t number;
    size_t i;
    if (refuse_counts(k, m) != DONE) {
        return COUNTS;
    }
    if (rings_length != 8 || answer_length != 4) {
        return LENGTH;
    }
    for (i = 0; i < 8; i++) {
        if (rings[i] >= m) {
            return LABEL;
        }
    }
    number = second_number_of(m, rings);
    if (number >> k != 0) {
        return SET;
    }
    second_put(answer, &number, 1);
    return DONE;
}
