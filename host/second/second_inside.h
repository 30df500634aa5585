/* second_inside.h: what the files of the second program share among themselves. */
#ifndef SECOND_INSIDE_H
#define SECOND_INSIDE_H

#include <stddef.h>
#include <stdint.h>

/* What comes back: the numbers of the scope paper's table, and of the requests behind it. */
enum {
    DONE = 0,
    ROLE = 1,
    SYMBOL_RATE = 2,
    DATA_RATE = 3,
    SHAPING = 4,
    MARK = 5,
    LARGE = 6,
    STATE = 7,
    LENGTH = 8,
    BIT = 9,
    LABEL = 10,
    SET = 11,
    STEP = 12,
    COUNTS = 13,
    NUMBER = 14,
    SYNC = 16,
    CRC = 17,
    FIELD = 18
};

/* The numbers that follow from the settings, by their names in V.34. */
struct parameters {
    uint64_t n, p, b, r, k, q, m, l;
};

/* The state as it is given: nothing is known of these numbers until second_refuse_state has looked at them. */
struct state {
    uint64_t role, s, n, shaping, mark, reg, z;
};

/* What the settings are refused with, or DONE and the parameters. */
uint32_t second_work_out(const struct state *given, struct parameters *found);

/* The same, and STATE behind it. */
uint32_t second_refuse_state(const struct state *given, struct parameters *found);

/* Writes numbers of 32 bits, low byte first, and reads them. */
void second_put(uint8_t *answer, const uint64_t *numbers, size_t count);
void second_get(const uint8_t *answer, uint64_t *numbers, size_t count);

/* The two numbers of 32 bits as which the eight bytes of a double are written: the lower half, and then the upper. */
void second_halves(double number, uint64_t halves[2]);

/* Writes the numbers of a state. */
void second_put_state(uint8_t *answer, const struct state *state);

/* One mapping frame of `length` bits, from and to sixteen labels of two bytes each. z is the last Z, and becomes the next. */
void second_write_frame(const struct parameters *by, uint64_t length, const uint8_t *bits, uint64_t *z, uint8_t *labels);

/* The inverse: 10, 11 or 12, or 0 and the bits. z moves on whether or not the frame is refused. */
uint32_t second_read_frame(const struct parameters *by, uint64_t length, const uint8_t *labels, uint64_t *z, uint8_t *bits);

#endif
