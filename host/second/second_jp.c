/* second_jp.c: the Jp sequence of V.92, read and written (clause 8.6.3, Table 22). */
#include "second.h"
#include "second_inside.h"
#include "second_sequence.h"

#define JP_BITS 72

/* Sixteen bits are carried behind each start bit, and the last sixteen are the CRC. */
static const struct piece jp_pieces[] = {
    {"11111111111111111" "0", 16}, /* the row of the table prints sixteen ones, for its places 0 to 16 */
    {"0", 16},
    {"0", 16},
    {"0000", 0},
};

enum { FRACTION, RESERVED, IDENTIFIER, TRAINING, RENEGOTIATION, LAST_RESERVED, JP_FIELDS };

static const struct field jp_fields[JP_FIELDS] = {
    [FRACTION] = {16, 0, 65535}, /* bits 18 to 33 */
    [RESERVED] = {12, 0, 4095},  /* bits 35 to 46 */
    [IDENTIFIER] = {1, 1, 1},    /* bit 47: 0 is in Jd */
    [TRAINING] = {1, 0, 1},      /* bit 48 */
    [RENEGOTIATION] = {1, 0, 1}, /* bit 49 */
    [LAST_RESERVED] = {1, 0, 1}, /* bit 50 */
};

static const struct sequence jp = {JP_BITS, jp_pieces, jp_fields, JP_FIELDS};

/* The answer: the fraction, both sizes, and in two halves the part of a symbol that the fraction is. */
#define ANSWER 5

uint32_t second_jp_read(const uint8_t *bits, size_t bits_length, uint8_t *answer, size_t answer_length)
{
    uint64_t numbers[JP_FIELDS], answered[ANSWER];
    uint32_t refused;
    if (bits_length != JP_BITS || answer_length != 4 * ANSWER) {
        return LENGTH;
    }
    refused = second_read_sequence(&jp, bits, numbers);
    if (refused == DONE) {
        answered[0] = numbers[FRACTION];
        answered[1] = numbers[TRAINING];
        answered[2] = numbers[RENEGOTIATION];
        second_halves((double)numbers[FRACTION] * 0x1p-16, answered + 3);
        second_put(answer, answered, ANSWER);
    }
    return refused;
}

uint32_t second_jp_write(uint64_t fraction, uint64_t training, uint64_t renegotiation, uint8_t *bits, size_t bits_length)
{
    const uint64_t numbers[JP_FIELDS] = {
        [FRACTION] = fraction, [IDENTIFIER] = 1, [TRAINING] = training, [RENEGOTIATION] = renegotiation,
    };
    if (bits_length != JP_BITS) {
        return LENGTH;
    }
    return second_write_sequence(&jp, numbers, bits);
}
