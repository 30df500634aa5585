/* lines.c: see lines.h. */
#include "lines.h"

#include <stdio.h>
#include <stdlib.h>

#include "second.h"
#include "workerwax.h"

static struct line all[LINES];

static int work_out(struct line *line)
{
    uint8_t answer[WW_PARAMETERS_BYTES];
    const uint64_t *x = line->settings;
    if (second_parameters(WW_SETTINGS(x), answer, sizeof answer) != WW_DONE) {
        return 0;
    }
    line->n = ww_number(answer, WW_PARAMETERS_N);
    line->p = ww_number(answer, WW_PARAMETERS_P);
    line->b = ww_number(answer, WW_PARAMETERS_B);
    line->r = ww_number(answer, WW_PARAMETERS_R);
    line->k = ww_number(answer, WW_PARAMETERS_K);
    line->q = ww_number(answer, WW_PARAMETERS_Q);
    line->m = ww_number(answer, WW_PARAMETERS_M);
    line->l = ww_number(answer, WW_PARAMETERS_L);
    return 1;
}

/* Goes through more than is permitted, and keeps what the second program permits. */
static size_t fill(void)
{
    uint64_t number;
    size_t count = 0;
    for (number = 0; number < 2 * 6 * 15 * 2 * 2; number++) {
        const struct line one = {{number % 2, number / 2 % 6, number / 48, number / 12 % 2, number / 24 % 2},
                                 0, 0, 0, 0, 0, 0, 0, 0};
        struct line found = one;
        if (work_out(&found)) {
            if (count < LINES) {
                all[count] = found;
            }
            count++;
        }
    }
    return count;
}

const struct line *lines(void)
{
    static int filled;
    if (!filled) {
        size_t count = fill();
        if (count != LINES) {
            fprintf(stderr, "lines: %zu permitted sets of settings, and not %d\n", count, LINES);
            exit(1);
        }
        filled = 1;
    }
    return all;
}

uint64_t line_frame_length(const struct line *line, uint64_t frame)
{
    return second_is_high(line->p, line->r, frame) ? line->b : line->b - 1;
}

uint64_t line_bits_of_s(const struct line *line, uint64_t frame)
{
    return line->b > 12 && line_frame_length(line, frame) < line->b ? line->k - 1 : line->k;
}
