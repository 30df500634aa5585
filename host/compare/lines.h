/* lines.h: every permitted set of settings, with the numbers that follow from it, for the tests to go through. */
#ifndef LINES_H
#define LINES_H

#include <stddef.h>
#include <stdint.h>

#include "workerwax.h"

#define LINES 508 /* 65 rates of six symbol rates, two roles, two shapings, two marks, less the three rates that need mark 1 */

struct line {
    uint64_t settings[WW_SETTINGS_NUMBERS]; /* role s n shaping mark */
    uint64_t n, p, b, r, k, q, m, l;
};

/* All lines. Made at the first call; the program ends where there are not exactly LINES. */
const struct line *lines(void);

/* Bits of S, and bits in all, of a mapping frame of the line. */
uint64_t line_bits_of_s(const struct line *line, uint64_t frame);
uint64_t line_frame_length(const struct line *line, uint64_t frame);

#endif
