/*
 * compare_info0.c: what INFO0 is (Table 14), and what is compared of no other sequence: all its bodies, and the CRC by what
 * others know of it.
 *
 * The worked sequences have their answers written out here. Their CRCs were worked out apart from both programs, by a
 * shift register as clause 10.1.2.3.2 has it.
 */
#include <stdio.h>
#include <stdlib.h>

#include "compare.h"
#include "second.h"
#include "sequences.h"

#define BODY 12 /* the first of the fields' bits */
#define BODY_BITS 17
#define ACCEPTED 73728 /* bodies: twelve fields of a bit, six differences, three clocks */

static const struct field fields[WW_INFO0_FIELDS] = {
    [WW_INFO0_SUPPORT_2743] = {12, 1, 0, 1}, [WW_INFO0_SUPPORT_2800] = {13, 1, 0, 1},
    [WW_INFO0_SUPPORT_3429] = {14, 1, 0, 1}, [WW_INFO0_LOW_3000] = {15, 1, 0, 1},
    [WW_INFO0_HIGH_3000] = {16, 1, 0, 1},    [WW_INFO0_LOW_3200] = {17, 1, 0, 1},
    [WW_INFO0_HIGH_3200] = {18, 1, 0, 1},    [WW_INFO0_ALLOWED_3429] = {19, 1, 0, 1},
    [WW_INFO0_REDUCTION] = {20, 1, 0, 1},    [WW_INFO0_DIFFERENCE] = {21, 3, 0, 5},
    [WW_INFO0_CME] = {24, 1, 0, 1},          [WW_INFO0_MARK] = {25, 1, 0, 1},
    [WW_INFO0_CLOCK] = {26, 2, 0, 2},        [WW_INFO0_ACKNOWLEDGED] = {28, 1, 0, 1},
};

static const struct worked worked[] = {
    {"1111" "01110010" "00000000000000000" "0011101000011110" "1111", WW_DONE, {0}},
    {"1111" "01110010" "11111111110111011" "0001100001100001" "1111", WW_DONE, {1, 1, 1, 1, 1, 1, 1, 1, 1, 5, 1, 1, 2, 1}},
    {"1111" "01110010" "00000000000001000" "1011101100010110" "1111", WW_DONE, {0, 0, 0, 0, 0, 0, 0, 0, 0, 0, 0, 1, 0, 0}},
    {"1111" "01110010" "11111111010101000" "0000100100000010" "1111", WW_DONE, {1, 1, 1, 1, 1, 1, 1, 1, 0, 5, 0, 1, 0, 0}},
    {"1111" "01110010" "11111111010100000" "1000100000001010" "1111", WW_DONE, {1, 1, 1, 1, 1, 1, 1, 1, 0, 5, 0, 0, 0, 0}},
    {"1111" "01110010" "00000000011000100" "1010001111010110" "1111", WW_DONE, {0, 0, 0, 0, 0, 0, 0, 0, 0, 3, 0, 0, 1, 0}},
    {"1111" "01110010" "10000000000000000" "0000110100101110" "1111", WW_DONE, {1, 0, 0, 0, 0, 0, 0, 0, 0, 0, 0, 0, 0, 0}},
    {"1111" "01110010" "00000000000000001" "0010101000111111" "1111", WW_DONE, {0, 0, 0, 0, 0, 0, 0, 0, 0, 0, 0, 0, 0, 1}},
    {"1111" "01110010" "01010101000111100" "0011111101110100" "1111", WW_DONE, {0, 1, 0, 1, 0, 1, 0, 1, 0, 4, 1, 1, 1, 0}},
    {"0111" "01110010" "11111111010101000" "0000100100000010" "1111", WW_BAD_SYNC, {0}},
    {"1111" "01110010" "11111111010101000" "0000100100000010" "1110", WW_BAD_SYNC, {0}},
    {"1111" "01001110" "11111111010101000" "0000100100000010" "1111", WW_BAD_SYNC, {0}}, /* the sync from its other end */
    {"1111" "11111111" "11111111111111111" "1111111111111111" "1111", WW_BAD_SYNC, {0}}, /* a line that is marking */
    {"1111" "01110010" "11111111010101000" "0100000010010000" "1111", WW_BAD_CRC, {0}},  /* lowest power first */
    {"1111" "01110010" "11111111010101000" "0011001100011100" "1111", WW_BAD_CRC, {0}},  /* register preset to zeros */
    {"1111" "01110010" "11111111010101000" "1111011011111101" "1111", WW_BAD_CRC, {0}},  /* turned before it is sent */
    {"1111" "01110010" "11111111010101000" "1001101011011010" "1111", WW_BAD_CRC, {0}},  /* sixteen zeros appended */
    {"1111" "01110010" "11111111010101000" "1100110111000011" "1111", WW_BAD_CRC, {0}},  /* last bit the highest power */
    {"1111" "01110010" "11111111010100000" "0000100100000010" "1111", WW_BAD_CRC, {0}},  /* the mark lost on its way */
    {"1111" "01110010" "11111111001101000" "1101000001001110" "1111", WW_BAD_FIELD, {0}}, /* difference 6 */
    {"1111" "01110010" "11111111011101000" "0100000111000110" "1111", WW_BAD_FIELD, {0}}, /* difference 7 */
    {"1111" "01110010" "11111111010101110" "0110100111000100" "1111", WW_BAD_FIELD, {0}}, /* clock 3 */
    {"1111" "01110010" "00000000001100110" "0011011001111110" "1111", WW_BAD_FIELD, {0}}, /* difference 6 and clock 3 */
};

const struct kind info0 = {
    .name = "INFO0",
    .read = INFO0_READ,
    .write = INFO0_WRITE,
    .letters = "1111" "01110010" "................." "cccccccccccccccc" "1111",
    .bits = WW_INFO0_BITS,
    .field = fields,
    .fields = WW_INFO0_FIELDS,
    .fields_bytes = WW_INFO0_BYTES,
    .answer_bytes = WW_INFO0_BYTES,
    .worked = worked,
    .worked_count = sizeof worked / sizeof worked[0],
};

/* This CRC is known to others by what it gives for these nine bytes, highest bit first. */
static void crc_is_the_known_one(void)
{
    static const char digits[] = "123456789";
    uint8_t bits[8 * (sizeof digits - 1)];
    size_t i;
    for (i = 0; i < sizeof bits; i++) {
        bits[i] = (uint8_t)(digits[i / 8] >> (7 - i % 8) & 1);
    }
    if (second_crc(bits, sizeof bits) != 0x29B1) {
        fprintf(stderr, "compare: the second program has another CRC\n");
        exit(1);
    }
}

/* A body is bits 12 to 28. */
static void all_bodies(struct tally *tally)
{
    struct sequence sequence = {&info0, {0}, {0}};
    uint64_t body, accepted = 0;
    size_t i;
    for (body = 0; body < (uint64_t)1 << BODY_BITS; body++) {
        uint32_t due;
        for (i = 0; i < BODY_BITS; i++) {
            sequence.bits[BODY + i] = (uint8_t)(body >> i & 1);
        }
        sequence_seal(&sequence);
        due = sequence_due(&sequence);
        there_and_back(tally, &sequence, due);
        accepted += due == WW_DONE;
    }
    demand(accepted == ACCEPTED, "not as many bodies are accepted as the table permits");
}

void compare_info0(struct tally *tally)
{
    crc_is_the_known_one();
    all_bodies(tally);
}
