/*
 * compare_info1c.c: what INFO1c is (Table 15), and what is compared of no other sequence: all its counts, with their hertz.
 *
 * The worked sequences have their answers written out here. They were made by a script apart from both programs: the CRC by
 * long division of polynomials, with a register as clause 10.1.2.3.2 has it beside it, and the hertz as the double that is
 * nearest to the count's fiftieth among fractions.
 */
#include <stdio.h>
#include <stdlib.h>
#include <string.h>

#include "compare.h"
#include "sequences.h"

#define LOWEST (-512) /* the count that says that the offset could not be measured */
#define HIGHEST 511
#define ROUNDS 4

#define FIELDS_OF_BLOCK(s) \
    [WW_INFO1C_CARRIER(s)] = {25 + 9 * s, 1, 0, 1}, [WW_INFO1C_FILTER(s)] = {26 + 9 * s, 4, 0, 10}, \
    [WW_INFO1C_RATE(s)] = {30 + 9 * s, 4, 0, 14}

static const struct field fields[WW_INFO1C_FIELDS] = {
    [WW_INFO1C_POWER] = {12, 3, 0, 7},
    [WW_INFO1C_EXTRA_POWER] = {15, 3, 0, 7},
    [WW_INFO1C_MD] = {18, 7, 0, 127},
    FIELDS_OF_BLOCK(0),
    FIELDS_OF_BLOCK(1),
    FIELDS_OF_BLOCK(2),
    FIELDS_OF_BLOCK(3),
    FIELDS_OF_BLOCK(4),
    FIELDS_OF_BLOCK(5),
    [WW_INFO1C_COUNT] = {79, 10, LOWEST, HIGHEST},
};

#define BEFORE "1111" "01110010"
#define ZEROS "0000000000000" "000000000" "000000000" "000000000" "000000000" "000000000" "000000000"
#define MIXED "1101000101000" "010001001" "101000101" "000101101" "100010011" "110101011" "001010111" "1101001111"

static const struct worked worked[] = {
    {BEFORE ZEROS "0000000000" "0011111000100011" "1111", WW_DONE, {[WW_INFO1C_READING] = 1}}, /* 0 Hz is a reading */
    {BEFORE ZEROS "0000000001" "0010111000000010" "1111", WW_DONE, {[WW_INFO1C_COUNT] = -512}},
    {BEFORE "1111111111111" "101010111" "101010111" "101010111" "101010111" "101010111" "101010111" "1111111110"
            "1000111110101101" "1111",
     WW_DONE,
     {7, 7, 127, 1, 10, 14, 1, 10, 14, 1, 10, 14, 1, 10, 14, 1, 10, 14, 1, 10, 14, 511, 1, 0xD70A3D71, 0x402470A3}},
    {BEFORE MIXED "0110111100100001" "1111",
     WW_DONE, {3, 1, 10, 0, 1, 9, 1, 2, 10, 0, 4, 11, 1, 8, 12, 1, 5, 13, 0, 10, 14, -53, 1, 0x8F5C28F6, 0xBFF0F5C2}},
    {BEFORE "1000010000001" "100001000" "010010100" "101100010" "011000001" "111101010" "101011100" "1000000001"
            "1011101101011100" "1111",
     WW_DONE, {1, 4, 64, 1, 0, 1, 0, 9, 2, 1, 6, 4, 0, 3, 8, 1, 7, 5, 1, 10, 3, -511, 1, 0xD70A3D71, 0xC02470A3}},
    {BEFORE "0101011100011" "011001110" "000000000" "011101100" "101010110" "100000011" "010000000" "1111111111"
            "1100100010011011" "1111",
     WW_DONE, {2, 5, 99, 0, 3, 7, 0, 0, 0, 0, 7, 3, 1, 10, 6, 1, 0, 12, 0, 1, 0, -1, 1, 0x47AE147B, 0xBF947AE1}},
    {BEFORE "0010101000000" "000000000" "000000000" "000000000" "000000000" "101101011" "000000000" "1000000000"
            "0010110010011000" "1111",
     WW_DONE, {4, 2, 1, 0, 0, 0, 0, 0, 0, 0, 0, 0, 0, 0, 0, 1, 6, 13, 0, 0, 0, 1, 1, 0x47AE147B, 0x3F947AE1}},
    {BEFORE "0111101011001" "110010001" "000010110" "110000100" "001000101" "001010010" "100101101" "0000000001"
            "1100111110000100" "1111",
     WW_DONE, {6, 3, 77, 1, 9, 8, 0, 8, 6, 1, 1, 2, 0, 2, 10, 0, 10, 4, 1, 4, 11, -512, 0, 0, 0}},
    {BEFORE "1010110000010" "010101100" "111001010" "001000110" "100101001" "001100101" "110000011" "1001100000"
            "1001101100010011" "1111",
     WW_DONE, {5, 6, 32, 0, 5, 3, 1, 3, 5, 0, 2, 6, 1, 4, 9, 0, 6, 10, 1, 1, 12, 25, 1, 0, 0x3FE00000}}, /* a half */
    {BEFORE "0001110000100" "101001000" "100100100" "000011100" "010000010" "111001011" "010010111" "0000000010"
            "0101101010000011" "1111",
     WW_DONE, {0, 7, 16, 1, 2, 1, 1, 4, 2, 0, 8, 3, 0, 1, 4, 1, 3, 13, 0, 9, 14, 256, 1, 0x47AE147B, 0x40147AE1}},
    {"1110" "01110010" MIXED "0110111100100001" "1111", WW_BAD_SYNC, {0}},
    {BEFORE MIXED "0110111100100001" "0111", WW_BAD_SYNC, {0}},
    {"1111" "01001110" MIXED "0110111100100001" "1111", WW_BAD_SYNC, {0}}, /* the sync from its other end */
    {BEFORE MIXED "1000010011110110" "1111", WW_BAD_CRC, {0}},             /* lowest power first */
    {BEFORE MIXED "0101000100000010" "1111", WW_BAD_CRC, {0}},             /* register preset to zeros */
    {BEFORE MIXED "1001000011011110" "1111", WW_BAD_CRC, {0}},             /* turned before it is sent */
    {BEFORE MIXED "0010111101010111" "1111", WW_BAD_CRC, {0}},             /* sixteen zeros appended */
    {BEFORE MIXED "1101010010100101" "1111", WW_BAD_CRC, {0}},             /* last bit the highest power */
    {BEFORE MIXED "0011111110000000" "1111", WW_BAD_CRC, {0}},             /* of bits 12 to 87 */
    {BEFORE MIXED "1010011100111110" "1111", WW_BAD_CRC, {0}},             /* of as many bits as INFO0 has */
    {BEFORE "1111111111111" "111111111" "111111111" "111111111" "111111111" "111111111" "111111111" "1111111111"
            "1101011011011000" "1111",
     WW_BAD_FIELD, {0}}, /* filters and rates of 15 */
    {BEFORE "1101000101000" "011011001" "101000101" "000101101" "100010011" "110101011" "001010111" "1101001111"
            "0000101010010011" "1111",
     WW_BAD_FIELD, {0}}, /* filter 11 in the first block */
    {BEFORE "1101000101000" "010001001" "101000101" "000101101" "100010011" "110101011" "001011111" "1101001111"
            "0110100111000111" "1111",
     WW_BAD_FIELD, {0}}, /* rate 15 in the last */
};

/*
 * The hertz that are due, by no division: a count of fiftieths is twice as many hundredths, so it is a decimal with two
 * places, and strtod gives the double that is nearest to it.
 */
static double hertz_of(int32_t count)
{
    const int32_t hundredths = 2 * abs(count);
    char decimal[32];
    snprintf(decimal, sizeof decimal, "%s%d.%02d", count < 0 ? "-" : "", (int)(hundredths / 100), (int)(hundredths % 100));
    return strtod(decimal, NULL);
}

static void put_reading(uint8_t *answer)
{
    const int32_t count = ww_signed_number(answer, WW_INFO1C_COUNT);
    const double hertz = hertz_of(count);
    uint64_t as_bits = 0;
    if (count != LOWEST) {
        memcpy(&as_bits, &hertz, sizeof as_bits);
    }
    ww_put_number(answer, WW_INFO1C_READING, count != LOWEST);
    ww_put_number(answer, WW_INFO1C_READING + 1, as_bits & 0xffffffff);
    ww_put_number(answer, WW_INFO1C_READING + 2, as_bits >> 32);
}

const struct kind info1c = {
    .name = "INFO1c",
    .read = INFO1C_READ,
    .write = INFO1C_WRITE,
    .letters = "1111" "01110010" "............." "......................................................" ".........."
               "cccccccccccccccc" "1111",
    .bits = WW_INFO1C_BITS,
    .field = fields,
    .fields = WW_INFO1C_FIELDS,
    .fields_bytes = WW_INFO1C_BYTES,
    .answer_bytes = WW_INFO1C_REPORT_BYTES,
    .put_behind = put_reading,
    .worked = worked,
    .worked_count = sizeof worked / sizeof worked[0],
};

/* What a host takes out of the report that was just read. */
static void check_report(int32_t count)
{
    const uint8_t *report = compared(TO);
    const double due = count == LOWEST ? 1e300 : hertz_of(count); /* where there is none, what stood there is left */
    double hertz = 1e300;
    demand(ww_signed_number(report, WW_INFO1C_COUNT) == count, "not the count that was sent");
    demand(ww_info1c_hertz(report, &hertz) == (count != LOWEST), "a reading of what was not measured, or none of what was");
    demand(memcmp(&hertz, &due, sizeof due) == 0, "not the hertz of the count");
    demand(count == LOWEST || count % 25 != 0 || hertz * 2 == count / 25, "not exact where the count is a multiple of 25");
}

/* Every count that ten bits can hold, among other fields drawn anew. The report, written, is the sequence again. */
static void all_counts(struct tally *tally)
{
    struct sequence sequence;
    int32_t count;
    for (count = LOWEST; count <= HIGHEST; count++) {
        struct sequence again;
        struct call write;
        random_sequence(&sequence, &info1c);
        sequence_set(&sequence, WW_INFO1C_COUNT, count);
        there_and_back(tally, &sequence, WW_DONE);
        check_report(count);
        again = sequence;
        memcpy(again.answer, compared(TO), WW_INFO1C_REPORT_BYTES);
        write = write_sequence_call(&again);
        compare(tally, &write, WW_DONE);
        demand(memcmp(compared(TO), sequence.bits, WW_INFO1C_BITS) == 0, "the report, written, is another sequence");
    }
}

/* Counts that are written, in their 32 bits: those around the permitted ones, and what fewer bits would take for them. */
static void counts_around(struct tally *tally)
{
    static const int64_t multiples[] = {0, 1 << 10, 1 << 16, 1 << 20, 1 << 24, INT64_C(1) << 31, -(1 << 10), -(1 << 16),
                                        -(1 << 24)};
    struct sequence sequence;
    int64_t near;
    size_t i;
    random_sequence(&sequence, &info1c);
    for (i = 0; i < sizeof multiples / sizeof multiples[0]; i++) {
        for (near = LOWEST - 100; near <= HIGHEST + 100; near++) {
            const struct call write = write_sequence_call(&sequence);
            const uint32_t word = (uint32_t)(multiples[i] + near);
            ww_put_number(sequence.answer, WW_INFO1C_COUNT, word);
            compare(tally, &write, word + 512 < 1024 ? WW_DONE : WW_BAD_FIELD);
        }
    }
}

void compare_info1c(struct tally *tally)
{
    size_t round;
    for (round = 0; round < ROUNDS; round++) {
        all_counts(tally);
    }
    counts_around(tally);
}
