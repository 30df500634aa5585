/*
 * compare_jp.c: what Jp is (V.92, Table 22), and what is compared of no other sequence: every one that can be written, with
 * its part of a symbol; all that may stand in the reserved bits; and numbers that are wider than their fields. The first two
 * are so few that all are tried.
 *
 * The worked sequences have their answers written out here. They were made by a script apart from both programs: the CRC by
 * long division of polynomials, with a register as clause 10.1.2.3.2 has it beside it, and the double out of fractions.
 */
#include <string.h>

#include "compare.h"
#include "sequences.h"

#define FRACTIONS 65536
#define SIZES 4 /* both of them in all ways */
#define CRC 52 /* its first bit */
#define RESERVED_PATTERNS 8192
#define ROUNDS 4

/* The fields that the answer does not show, behind those that it does. */
enum { RESERVED = WW_JP_FIELDS, IDENTIFIER, LAST_RESERVED, ALL_FIELDS };

static const struct field fields[ALL_FIELDS] = {
    [WW_JP_FRACTION] = {18, 16, 0, 65535}, [WW_JP_TRAINING] = {48, 1, 0, 1}, [WW_JP_RENEGOTIATION] = {49, 1, 0, 1},
    [RESERVED] = {35, 12, 0, 4095},        [IDENTIFIER] = {47, 1, 1, 1},     [LAST_RESERVED] = {50, 1, 0, 1},
};

#define BEFORE "11111111111111111" "0"
#define MIXED "1010001100101101" "0" "000000000000" "1" "10" "0" "0"

static const struct worked worked[] = {
    {BEFORE "0000000000000000" "0" "000000000000" "1" "00" "0" "0" "0000010111001000" "0000", WW_DONE, {0}},
    {BEFORE "1111111111111111" "0" "000000000000" "1" "11" "0" "0" "1110000111001110" "0000", WW_DONE,
     {65535, 1, 1, 0, 0x3FEFFFE0}},
    {BEFORE "0000000000000001" "0" "000000000000" "1" "10" "0" "0" "0111001001111100" "0000", WW_DONE,
     {32768, 1, 0, 0, 0x3FE00000}},
    {BEFORE "1000000000000000" "0" "000000000000" "1" "01" "0" "0" "1111100010110010" "0000", WW_DONE,
     {1, 0, 1, 0, 0x3EF00000}},
    {BEFORE MIXED "1111000001110001" "0000", WW_DONE, {46277, 1, 0, 0, 0x3FE698A0}},
    {BEFORE "1011010011000101" "0" "000000000000" "1" "10" "0" "0" "1011001101101011" "0000", WW_DONE,
     {41773, 1, 0, 0, 0x3FE465A0}}, /* 46277 highest weight first: a good sequence of another fraction */
    {BEFORE "1010101010101010" "0" "000000000000" "1" "01" "0" "0" "1101110100001010" "0000", WW_DONE,
     {21845, 0, 1, 0, 0x3FD55540}},
    {BEFORE "0000000000000011" "0" "000000000000" "1" "11" "0" "0" "0011110001011110" "0000", WW_DONE,
     {49152, 1, 1, 0, 0x3FE80000}},
    {BEFORE "1100000000000000" "0" "000000000000" "1" "00" "0" "0" "1011011001101100" "0000", WW_DONE,
     {3, 0, 0, 0, 0x3F080000}},
    {BEFORE "1001110000001100" "0" "000000000000" "1" "01" "0" "0" "1101100101000110" "0000", WW_DONE,
     {12345, 0, 1, 0, 0x3FC81C80}},
    /* reserved bits of 1, under the CRC: read as the same fields with 0 there, and written so */
    {BEFORE "1001110000001100" "0" "000111001101" "1" "01" "0" "0" "0101010000100101" "0000", WW_DONE,
     {12345, 0, 1, 0, 0x3FC81C80}},
    {BEFORE "1010001100101101" "0" "111111111111" "1" "10" "1" "0" "0000110010110000" "0000", WW_DONE,
     {46277, 1, 0, 0, 0x3FE698A0}},
    {BEFORE "1010001100101101" "0" "100000000000" "1" "10" "0" "0" "1110101111101001" "0000", WW_DONE,
     {46277, 1, 0, 0, 0x3FE698A0}},
    {BEFORE "1010001100101101" "0" "000000000001" "1" "10" "0" "0" "1110001001000000" "0000", WW_DONE,
     {46277, 1, 0, 0, 0x3FE698A0}},
    {BEFORE "1010001100101101" "0" "000000000000" "1" "10" "1" "0" "1110000001010000" "0000", WW_DONE,
     {46277, 1, 0, 0, 0x3FE698A0}},
    {"1111111111111111" "0" MIXED "1111000001110001" "0000" "1", WW_BAD_SYNC, {0}}, /* sixteen ones, and the next one */
    {"01111111111111111" "0" MIXED "1111000001110001" "0000", WW_BAD_SYNC, {0}},
    {"11111111111111110" "0" MIXED "1111000001110001" "0000", WW_BAD_SYNC, {0}},
    {"11111111111111111" "1" MIXED "1111000001110001" "0000", WW_BAD_SYNC, {0}},
    {BEFORE "1010001100101101" "1" "000000000000" "1" "10" "0" "0" "1111000001110001" "0000", WW_BAD_SYNC, {0}},
    {BEFORE "1010001100101101" "0" "000000000000" "1" "10" "0" "1" "1111000001110001" "0000", WW_BAD_SYNC, {0}},
    {BEFORE MIXED "1111000001110001" "1111", WW_BAD_SYNC, {0}}, /* the fill of INFO0 */
    {BEFORE MIXED "1111000001110001" "0001", WW_BAD_SYNC, {0}},
    {"11111111111111111" "1" "1111111111111111" "1" "1111111111111111" "1" "1111111111111111" "1111", WW_BAD_SYNC, {0}},
    {"00000000000000000" "0" "0000000000000000" "0" "0000000000000000" "0" "0000000000000000" "0000", WW_BAD_SYNC, {0}},
    {BEFORE MIXED "0000000100001011" "0000", WW_BAD_CRC, {0}}, /* of the start bits too */
    {BEFORE MIXED "1010001001110110" "0000", WW_BAD_CRC, {0}}, /* of bits 18 to 50, the start bit among them too */
    {BEFORE MIXED "1000111000001111" "0000", WW_BAD_CRC, {0}}, /* lowest power first */
    {BEFORE MIXED "0111010010110001" "0000", WW_BAD_CRC, {0}}, /* register preset to zeros */
    {BEFORE MIXED "0000111110001110" "0000", WW_BAD_CRC, {0}}, /* turned before it is sent */
    {BEFORE MIXED "0111110101110111" "0000", WW_BAD_CRC, {0}}, /* sixteen zeros appended */
    {BEFORE MIXED "1111001100001001" "0000", WW_BAD_CRC, {0}}, /* last bit the highest power */
    {BEFORE MIXED "0011011100001011" "0000", WW_BAD_CRC, {0}}, /* without the reserved bits */
    {BEFORE MIXED "1010000011101101" "0000", WW_BAD_CRC, {0}}, /* of the fraction alone */
    {BEFORE MIXED "1011110000001010" "0000", WW_BAD_CRC, {0}}, /* of bits 18 to 47 */
    /* a reserved bit turned on the way, the first and the last, and bit 47: all three are under the CRC */
    {BEFORE "1010001100101101" "0" "100000000000" "1" "10" "0" "0" "1111000001110001" "0000", WW_BAD_CRC, {0}},
    {BEFORE "1010001100101101" "0" "000000000000" "1" "10" "1" "0" "1111000001110001" "0000", WW_BAD_CRC, {0}},
    {BEFORE "1010001100101101" "0" "000000000000" "0" "10" "0" "0" "1111000001110001" "0000", WW_BAD_CRC, {0}},
    /* bit 47 of 0 with its own CRC. The first is a Jd by Table 21: all data rates, and a look-ahead of 1 */
    {BEFORE "1111111111111111" "0" "111111000000" "0" "01" "0" "0" "0111011011101110" "0000", WW_BAD_FIELD, {0}},
    {BEFORE "1010001100101101" "0" "000000000000" "0" "10" "0" "0" "0111000101111001" "0000", WW_BAD_FIELD, {0}},
    {BEFORE "0000000000000000" "0" "000000000000" "0" "00" "0" "0" "1000010011000000" "0000", WW_BAD_FIELD, {0}},
};

/*
 * The part that is due, by no division, as the upper half of a double: the lower one is 0. The highest bit of the fraction,
 * of weight 2^top, gives the exponent, top - 16, and those below it stand at the top of the fifty-two behind that.
 */
static uint32_t upper_half_of_part(uint32_t fraction)
{
    uint32_t top = 15;
    if (fraction == 0) {
        return 0;
    }
    while (fraction >> top == 0) {
        top--;
    }
    return (1023 + top - 16) << 20 | (fraction - ((uint32_t)1 << top)) << (20 - top);
}

static void put_part(uint8_t *answer)
{
    ww_put_number(answer, WW_JP_PART, 0);
    ww_put_number(answer, WW_JP_PART + 1, upper_half_of_part(ww_number(answer, WW_JP_FRACTION)));
}

const struct kind jp = {
    .name = "Jp",
    .read = JP_READ,
    .write = JP_WRITE,
    .letters = "11111111111111111" "0" "................" "0" "............" "." ".." "." "0" "cccccccccccccccc" "0000",
    .bits = WW_JP_BITS,
    .field = fields,
    .fields = WW_JP_FIELDS,
    .hidden = ALL_FIELDS - WW_JP_FIELDS,
    .fields_bytes = 4 * WW_JP_FIELDS,
    .answer_bytes = WW_JP_BYTES,
    .put_behind = put_part,
    .worked = worked,
    .worked_count = sizeof worked / sizeof worked[0],
};

/* A Jp as it can be written: its reserved bits are 0. */
static struct sequence plain(uint32_t fraction, uint32_t training, uint32_t renegotiation)
{
    struct sequence sequence;
    edge_sequence(&sequence, &jp, 0);
    sequence_set(&sequence, WW_JP_FRACTION, fraction);
    sequence_set(&sequence, WW_JP_TRAINING, training);
    sequence_set(&sequence, WW_JP_RENEGOTIATION, renegotiation);
    return sequence;
}

/* What a host takes out of the answer that was just read. */
static void check_answer(uint32_t fraction, uint32_t training, uint32_t renegotiation)
{
    const uint8_t *answer = given();
    const double part = ww_jp_part(answer);
    demand(ww_number(answer, WW_JP_FRACTION) == fraction, "not the fraction that was sent");
    demand(ww_number(answer, WW_JP_TRAINING) == training, "not the size for training that was sent");
    demand(ww_number(answer, WW_JP_RENEGOTIATION) == renegotiation, "not the size for rate renegotiations that was sent");
    demand(0 <= part && part < 1 && part * FRACTIONS == fraction, "the part, multiplied, is not exactly the fraction");
}

/* Every sequence that the writer can give. */
static void all_that_can_be_written(struct tally *tally)
{
    uint32_t fraction, sizes;
    for (fraction = 0; fraction < FRACTIONS; fraction++) {
        for (sizes = 0; sizes < SIZES; sizes++) {
            const struct sequence sequence = plain(fraction, sizes / 2, sizes % 2);
            there_and_back(tally, &sequence, WW_DONE);
            check_answer(fraction, sizes / 2, sizes % 2);
        }
    }
}

/*
 * A pattern in the reserved bits, with its CRC: read as if they were 0, and written again the same bits exactly where they
 * are; with bit 47 of 0 it is no Jp. The CRC that goes with zeros shows any pattern but zeros: it is a burst of at most 16.
 */
static void try_reserved(struct tally *tally, const struct sequence *zeros, uint32_t pattern)
{
    struct sequence sequence = *zeros, again = *zeros;
    const struct call read = read_sequence_call(&sequence);
    struct call write;
    sequence_set(&sequence, RESERVED, pattern % 4096);
    sequence_set(&sequence, LAST_RESERVED, pattern / 4096);
    compare(tally, &read, WW_DONE);
    demand(memcmp(given(), zeros->answer, WW_JP_BYTES) == 0, "the answer depends on the reserved bits");
    memcpy(again.answer, given(), WW_JP_BYTES);
    write = write_sequence_call(&again);
    compare(tally, &write, WW_DONE);
    demand(memcmp(given(), zeros->bits, WW_JP_BITS) == 0, "what was read is not written with reserved bits of 0");
    demand((memcmp(given(), sequence.bits, WW_JP_BITS) == 0) == (pattern == 0), "the same bits again, or others, wrongly");
    sequence_set(&sequence, IDENTIFIER, 0);
    compare(tally, &read, WW_BAD_FIELD);
    sequence_set(&sequence, IDENTIFIER, 1);
    memcpy(sequence.bits + CRC, zeros->bits + CRC, 16);
    compare(tally, &read, pattern == 0 ? WW_DONE : WW_BAD_CRC);
}

/* Each pattern with other sizes in each round, and with fractions that differ throughout. */
static void all_reserved(struct tally *tally)
{
    uint32_t round, pattern;
    for (round = 0; round < ROUNDS; round++) {
        for (pattern = 0; pattern < RESERVED_PATTERNS; pattern++) {
            const struct sequence zeros = plain(8 * pattern + 2 * round + pattern % 2, round / 2, round % 2);
            try_reserved(tally, &zeros, pattern);
        }
    }
}

/* Every fraction, with one bit more in one of the three numbers, in two or in all: one that a narrower type would lose. */
static void wide_numbers(struct tally *tally)
{
    uint64_t i;
    size_t place;
    for (i = 0; i < FRACTIONS; i++) {
        const uint64_t permitted[WW_JP_FIELDS] = {i, i / 7 % 2, i / 14 % 2};
        const uint64_t wider = 1 + i % 7; /* which of them: a bit each */
        struct call write = {JP_WRITE, {0}, {room(WW_JP_BITS)}};
        for (place = 0; place < WW_JP_FIELDS; place++) {
            const uint64_t from = fields[place].bits;
            const uint64_t bit = (uint64_t)1 << (from + i / 28 % (64 - from));
            write.number[place] = permitted[place] | (wider >> place & 1 ? bit : 0);
        }
        compare(tally, &write, WW_BAD_FIELD);
    }
}

/* Numbers around the limits of each field, and what fewer bits would take for them. */
static void numbers_around(struct tally *tally)
{
    static const uint64_t multiples[] = {0, 1 << 8, 1 << 16, 1 << 24, UINT64_C(1) << 31, UINT64_C(1) << 32,
                                         UINT64_C(1) << 48, UINT64_C(1) << 63};
    uint64_t near;
    size_t i, place;
    for (i = 0; i < sizeof multiples / sizeof multiples[0]; i++) {
        for (place = 0; place < WW_JP_FIELDS; place++) {
            const uint64_t highest = (uint64_t)fields[place].highest;
            for (near = 0; near < 200; near++) {
                struct call write = {JP_WRITE, {near * 327, near % 2, near / 2 % 2}, {room(WW_JP_BITS)}};
                write.number[place] = multiples[i] + near - 100; /* below 0 it is far above the highest */
                compare(tally, &write, write.number[place] <= highest ? WW_DONE : WW_BAD_FIELD);
                write.number[place] += highest;
                compare(tally, &write, write.number[place] <= highest ? WW_DONE : WW_BAD_FIELD);
            }
        }
    }
}

void compare_jp(struct tally *tally)
{
    all_that_can_be_written(tally);
    all_reserved(tally);
    wide_numbers(tally);
    numbers_around(tally);
}
