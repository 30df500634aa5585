/* second_settings.c: the settings, worked out or refused (clauses 8.1, 8.2 and 9.2), and the starts. */
#include <string.h>

#include "second.h"
#include "second_inside.h"

/* Table 7, with the data rates of Table 8 in steps of 2,400 bit/s. */
struct symbol_rate {
    uint64_t frames_in_superframe, p, lowest, highest;
};

static const struct symbol_rate symbol_rates[6] = {
    {7, 12, 1, 9}, {8, 12, 2, 11}, {7, 14, 2, 11}, {7, 15, 2, 12}, {7, 16, 2, 13}, {8, 15, 2, 14},
};

static uint64_t power8(uint64_t base)
{
    uint64_t square = base * base;
    uint64_t fourth = square * square;
    return fourth * fourth;
}

/* The smallest M with M^8 at least 2^K. */
static uint64_t minimum_m(uint64_t k)
{
    uint64_t m = 1;
    while (power8(m) < (uint64_t)1 << k) {
        m++;
    }
    return m;
}

/*
 * The whole number nearest to 1.25 * 2^(K/8), a half going up: the last M for which M - 1/2 is at most that. With both
 * sides times 4 and to the power 8 this is (4M - 2)^8 <= 5^8 * 2^K, which is below 2^50, so no fraction is needed.
 * Never below the minimum.
 */
static uint64_t expanded_m(uint64_t k)
{
    uint64_t limit = power8(5) << k;
    uint64_t m = 1;
    while (power8(4 * (m + 1) - 2) <= limit) {
        m++;
    }
    return m > minimum_m(k) ? m : minimum_m(k);
}

/* (8-1), (8-2), the rule of Table 10 for K and q, and (9-2). */
static void follow(const struct symbol_rate *rate, uint64_t n, uint64_t shaping, struct parameters *found)
{
    found->n = 2400 * n * 28 / (100 * rate->frames_in_superframe);
    found->p = rate->p;
    found->b = (found->n + found->p - 1) / found->p;
    found->r = found->n - (found->b - 1) * found->p;
    found->k = 0;
    found->q = 0;
    if (found->b > 12) {
        found->k = found->b - 12;
        while (found->k >= 32) {
            found->k -= 8;
            found->q++;
        }
    }
    found->m = shaping == 0 ? minimum_m(found->k) : expanded_m(found->k);
    found->l = 4 * found->m << found->q;
}

uint32_t second_work_out(const struct state *given, struct parameters *found)
{
    const struct symbol_rate *rate;
    if (given->role > 1) {
        return ROLE;
    }
    if (given->s > 5) {
        return SYMBOL_RATE;
    }
    rate = &symbol_rates[given->s];
    if (given->n < rate->lowest || given->n > rate->highest) {
        return DATA_RATE;
    }
    if (given->shaping > 1) {
        return SHAPING;
    }
    if (given->mark > 1) {
        return MARK;
    }
    if (given->n > 12 && given->mark == 0) { /* above 28,800 bit/s: note to Table 15 */
        return LARGE;
    }
    follow(rate, given->n, given->shaping, found);
    return DONE;
}

uint32_t second_refuse_state(const struct state *given, struct parameters *found)
{
    uint32_t refused = second_work_out(given, found);
    if (refused != DONE) {
        return refused;
    }
    return given->reg >> 23 != 0 || given->z > 3 ? STATE : DONE;
}

/*
 * Clause 8.2 switches by a counter. After i frames it has taken in i*r and given off P as often as fits, so frame i is
 * high exactly when P fits once more into (i + 1)*r than into i*r.
 */
int second_is_high(uint64_t p, uint64_t r, uint64_t frame)
{
    return (frame + 1) * r / p > frame * r / p;
}

void second_put(uint8_t *answer, const uint64_t *numbers, size_t count)
{
    size_t i;
    for (i = 0; i < 4 * count; i++) {
        answer[i] = (uint8_t)(numbers[i / 4] >> 8 * (i % 4));
    }
}

void second_get(const uint8_t *answer, uint64_t *numbers, size_t count)
{
    size_t i;
    for (i = 0; i < count; i++) {
        const uint8_t *at = answer + 4 * i;
        numbers[i] = at[0] + 256 * (at[1] + 256 * (at[2] + 256 * (uint64_t)at[3]));
    }
}

void second_halves(double number, uint64_t halves[2])
{
    uint64_t eight_bytes;
    memcpy(&eight_bytes, &number, sizeof number);
    halves[0] = eight_bytes & 0xffffffff;
    halves[1] = eight_bytes >> 32;
}

void second_put_state(uint8_t *answer, const struct state *state)
{
    const uint64_t numbers[7] = {state->role, state->s, state->n, state->shaping, state->mark, state->reg, state->z};
    second_put(answer, numbers, 7);
}

uint32_t second_parameters(uint64_t role, uint64_t s, uint64_t n, uint64_t shaping, uint64_t mark,
                           uint8_t *answer, size_t answer_length)
{
    const struct state given = {role, s, n, shaping, mark, 0, 0};
    struct parameters found;
    uint32_t refused = second_work_out(&given, &found);
    if (refused != DONE) {
        return refused;
    }
    if (answer_length != 32) {
        return LENGTH;
    }
    {
        const uint64_t numbers[8] = {found.n, found.p, found.b, found.r, found.k, found.q, found.m, found.l};
        second_put(answer, numbers, 8);
    }
    return DONE;
}

uint32_t second_start(uint64_t role, uint64_t s, uint64_t n, uint64_t shaping, uint64_t mark, uint64_t reg, uint64_t z,
                      uint8_t *answer, size_t answer_length)
{
    const struct state given = {role, s, n, shaping, mark, reg, z};
    struct parameters found;
    uint32_t refused = second_refuse_state(&given, &found);
    if (refused != DONE) {
        return refused;
    }
    if (answer_length != 28) {
        return LENGTH;
    }
    second_put_state(answer, &given);
    return DONE;
}

uint32_t second_short_start(uint64_t role, uint64_t s, uint64_t n, uint64_t mark, uint8_t *answer, size_t answer_length)
{
    return second_start(role, s, n, 0, mark, 0, 0, answer, answer_length);
}
