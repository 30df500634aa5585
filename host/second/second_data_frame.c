/*
 * second_data_frame.c: one data frame, written and read (clauses 7, 8.1 and 8.2).
 *
 * The scrambler works over a line of scrambled bits: first the 23 that the register holds, oldest first, then those of
 * this data frame. Clause 7 is then one sentence, and the register afterwards is the last 23 of the line.
 */
#include "second.h"
#include "second_bits.h"
#include "second_inside.h"

#define HISTORY 23
#define MAX_BITS 1248

/* (7-1) and (7-2): how far back the nearer tap is. The other is 23 back. */
static size_t nearer_tap(uint64_t role)
{
    return role == 0 ? 18 : 5;
}

static void put_history(uint64_t reg, uint8_t *line)
{
    size_t back;
    for (back = 1; back <= HISTORY; back++) {
        line[HISTORY - back] = (uint8_t)(reg >> (back - 1) & 1);
    }
}

static uint64_t register_after(const uint8_t *line, size_t bits)
{
    uint64_t reg = 0;
    size_t back;
    for (back = 1; back <= HISTORY; back++) {
        reg |= (uint64_t)line[HISTORY + bits - back] << (back - 1);
    }
    return reg;
}

/* The lengths of writer and reader are tested as one. */
static int lengths_fit(const struct parameters *by, size_t bits, size_t labels, size_t answer)
{
    return bits == by->n && labels == 32 * by->p && answer == 32;
}

static uint64_t frame_length(const struct parameters *by, uint64_t frame)
{
    return second_is_high(by->p, by->r, frame) ? by->b : by->b - 1;
}

/* N and the next state. */
static void put_next(uint8_t *answer, const struct parameters *by, const struct state *next)
{
    second_put(answer, &by->n, 1);
    second_put_state(answer + 4, next);
}

uint32_t second_write(uint64_t role, uint64_t s, uint64_t n, uint64_t shaping, uint64_t mark, uint64_t reg, uint64_t z,
                      const uint8_t *bits, size_t bits_length, uint8_t *labels, size_t labels_length,
                      uint8_t *answer, size_t answer_length)
{
    struct state now = {role, s, n, shaping, mark, reg, z};
    struct parameters by;
    uint8_t line[HISTORY + MAX_BITS];
    const uint8_t *from = line + HISTORY;
    size_t tap, i;
    uint64_t frame;
    uint32_t refused = second_refuse_state(&now, &by);
    if (refused != DONE) {
        return refused;
    }
    if (!lengths_fit(&by, bits_length, labels_length, answer_length)) {
        return LENGTH;
    }
    if (!are_bits(bits, bits_length)) {
        return BIT;
    }
    tap = nearer_tap(role);
    put_history(reg, line);
    for (i = HISTORY; i < HISTORY + by.n; i++) {
        line[i] = bits[i - HISTORY] ^ line[i - tap] ^ line[i - HISTORY];
    }
    for (frame = 0; frame < by.p; frame++) {
        second_write_frame(&by, frame_length(&by, frame), from, &now.z, labels + 32 * frame);
        from += frame_length(&by, frame);
    }
    now.reg = register_after(line, by.n);
    put_next(answer, &by, &now);
    return DONE;
}

/* All mapping frames into the line. Of 10, 11 and 12 the smallest is given, so 10 anywhere comes before 11 anywhere. */
static uint32_t read_frames(const struct parameters *by, const uint8_t *labels, uint64_t *z, uint8_t *line)
{
    uint32_t refused = DONE;
    uint8_t *to = line + HISTORY;
    uint64_t frame;
    for (frame = 0; frame < by->p; frame++) {
        uint32_t here = second_read_frame(by, frame_length(by, frame), labels + 32 * frame, z, to);
        if (here != DONE && (refused == DONE || here < refused)) {
            refused = here;
        }
        to += frame_length(by, frame);
    }
    return refused;
}

uint32_t second_read(uint64_t role, uint64_t s, uint64_t n, uint64_t shaping, uint64_t mark, uint64_t reg, uint64_t z,
                     const uint8_t *labels, size_t labels_length, uint8_t *bits, size_t bits_length,
                     uint8_t *answer, size_t answer_length)
{
    struct state now = {role, s, n, shaping, mark, reg, z};
    struct parameters by;
    uint8_t line[HISTORY + MAX_BITS];
    size_t tap, i;
    uint32_t refused = second_refuse_state(&now, &by);
    if (refused != DONE) {
        return refused;
    }
    if (!lengths_fit(&by, bits_length, labels_length, answer_length)) {
        return LENGTH;
    }
    put_history(reg, line);
    refused = read_frames(&by, labels, &now.z, line);
    if (refused != DONE) {
        return refused;
    }
    tap = nearer_tap(role);
    for (i = HISTORY; i < HISTORY + by.n; i++) {
        bits[i - HISTORY] = line[i] ^ line[i - tap] ^ line[i - HISTORY];
    }
    now.reg = register_after(line, by.n);
    put_next(answer, &by, &now);
    return DONE;
}
