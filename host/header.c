/*
 * header.c: the functions that include/workerwax.h has itself, which no library proves: what they give, on both sides of
 * their limits, and that they touch the bytes of their place and no others.
 *
 * It is C and C++ at once, and tools/host-tests compiles it as both.
 */
#include <inttypes.h>
#include <stdio.h>
#include <stdlib.h>
#include <string.h>

#include "workerwax.h"

#define NUMBERS 25
#define PLACE 21
#define CANARY 0xA5
#define NEITHER 0x7fffffff /* what is put for a number that 32 bits can't hold */

static uint64_t checks;

static void check(int fact, const char *what, int64_t of)
{
    checks++;
    if (!fact) {
        fprintf(stderr, "header: %s: %" PRId64 "\n", what, of);
        exit(1);
    }
}

/* Bytes with a number among them: that number, and canaries around it. */
static int is_alone(const uint8_t *bytes)
{
    size_t i;
    for (i = 0; i < 4 * NUMBERS; i++) {
        if (i / 4 != PLACE && bytes[i] != CANARY) {
            return 0;
        }
    }
    return 1;
}

static void put(uint64_t number, uint32_t due)
{
    uint8_t bytes[4 * NUMBERS];
    memset(bytes, CANARY, sizeof bytes);
    ww_put_number(bytes, PLACE, number);
    check(ww_number(bytes, PLACE) == due && is_alone(bytes), "ww_put_number", (int64_t)number);
}

static void put_signed(int64_t number, int64_t due)
{
    uint8_t bytes[4 * NUMBERS];
    memset(bytes, CANARY, sizeof bytes);
    ww_put_signed_number(bytes, PLACE, number);
    check(ww_signed_number(bytes, PLACE) == due && is_alone(bytes), "ww_put_signed_number", number);
}

static void numbers_are_put(void)
{
    size_t bit;
    put(0, 0);
    put(NEITHER, NEITHER);
    put(UINT64_MAX, NEITHER); /* -1, where somebody passes it: it is out of range before and afterwards */
    put(UINT64_MAX - 511, NEITHER);
    for (bit = 0; bit < 64; bit++) {
        const uint64_t weight = (uint64_t)1 << bit;
        put(weight, bit < 32 ? (uint32_t)weight : NEITHER);
        put(weight - 1, bit <= 32 ? (uint32_t)(weight - 1) : NEITHER);
        put(weight + 1, bit < 32 ? (uint32_t)(weight + 1) : NEITHER);
    }
}

static void signed_numbers_are_put(void)
{
    int64_t number;
    size_t bit;
    for (number = -70000; number <= 70000; number++) {
        put_signed(number, number);
    }
    for (bit = 0; bit < 63; bit++) {
        const int64_t weight = (int64_t)1 << bit;
        put_signed(weight - 1, bit <= 31 ? weight - 1 : NEITHER);
        put_signed(weight, bit < 31 ? weight : NEITHER);
        put_signed(-weight, bit <= 31 ? -weight : NEITHER);
        put_signed(-weight - 1, bit < 31 ? -weight - 1 : NEITHER);
    }
    put_signed(INT64_MIN, NEITHER);
    put_signed(INT64_MAX, NEITHER);
}

/* Two's complement with the low byte first, by bytes that are written out. */
static void signed_numbers_have_their_bytes(void)
{
    static const uint8_t due[4][4] = {{0xCB, 255, 255, 255}, {0, 0xFE, 255, 255}, {255, 1, 0, 0}, {0, 0, 0, 0x80}};
    static const int64_t numbers[4] = {-53, -512, 511, -0x7fffffff - 1};
    uint8_t bytes[4];
    size_t i;
    for (i = 0; i < 4; i++) {
        ww_put_signed_number(bytes, 0, numbers[i]);
        check(memcmp(bytes, due[i], 4) == 0, "the bytes of a signed number", numbers[i]);
        check(ww_signed_number(due[i], 0) == numbers[i], "ww_signed_number", numbers[i]);
    }
}

/* A double by bytes that are written out, at every place: it goes by its own eight, whatever stands around them. */
static void doubles_are_taken_out(void)
{
    static const uint8_t bytes[5][8] = {{0xF6, 0x28, 0x5C, 0x8F, 0xC2, 0xF5, 0xF0, 0xBF},
                                        {0x71, 0x3D, 0x0A, 0xD7, 0xA3, 0x70, 0x24, 0x40},
                                        {0, 0, 0, 0, 0, 0, 0, 0x80},
                                        {1, 0, 0, 0, 0, 0, 0xF0, 0x3F},
                                        {0xFF, 0xFF, 0xFF, 0xFF, 0xFF, 0xFF, 0xEF, 0x3F}};
    static const double due[5] = {-1.06, 10.22, -0.0, 1.0000000000000002, 0.9999999999999999};
    uint8_t answer[4 * NUMBERS];
    size_t i, place;
    for (i = 0; i < 5; i++) {
        for (place = 0; place + 2 <= NUMBERS; place++) {
            double low, high;
            memset(answer, 0, sizeof answer);
            memcpy(answer + 4 * place, bytes[i], 8);
            low = ww_double(answer, place);
            memset(answer, 255, sizeof answer);
            memcpy(answer + 4 * place, bytes[i], 8);
            high = ww_double(answer, place);
            check(memcmp(&low, &due[i], 8) == 0 && memcmp(&high, &due[i], 8) == 0, "ww_double", (int64_t)i);
        }
    }
}

/* Answers of ww_jp_read, byte by byte: the numbers and the part that a host takes out of them. */
static void parts_are_taken_out(void)
{
    static const uint8_t answers[5][WW_JP_BYTES] = {
        {0, 0, 0, 0, 0, 0, 0, 0, 0, 0, 0, 0, 0, 0, 0, 0, 0, 0, 0, 0},
        {1, 0, 0, 0, 0, 0, 0, 0, 1, 0, 0, 0, 0, 0, 0, 0, 0, 0, 0xF0, 0x3E},
        {0, 0x80, 0, 0, 1, 0, 0, 0, 0, 0, 0, 0, 0, 0, 0, 0, 0, 0, 0xE0, 0x3F},
        {0xC5, 0xB4, 0, 0, 1, 0, 0, 0, 0, 0, 0, 0, 0, 0, 0, 0, 0xA0, 0x98, 0xE6, 0x3F},
        {0xFF, 0xFF, 0, 0, 1, 0, 0, 0, 1, 0, 0, 0, 0, 0, 0, 0, 0xE0, 0xFF, 0xEF, 0x3F}};
    static const uint32_t fraction[5] = {0, 1, 32768, 46277, 65535};
    static const uint32_t training[5] = {0, 0, 1, 1, 1}, renegotiation[5] = {0, 1, 0, 0, 1};
    static const double part[5] = {0.0, 0.0000152587890625, 0.5, 0.7061309814453125, 0.9999847412109375};
    size_t i;
    for (i = 0; i < 5; i++) {
        const double taken = ww_jp_part(answers[i]);
        check(memcmp(&taken, &part[i], 8) == 0, "ww_jp_part", fraction[i]);
        check(ww_number(answers[i], WW_JP_FRACTION) == fraction[i], "the place of Jp's fraction", fraction[i]);
        check(ww_number(answers[i], WW_JP_TRAINING) == training[i] &&
              ww_number(answers[i], WW_JP_RENEGOTIATION) == renegotiation[i], "the places of Jp's sizes", fraction[i]);
    }
}

/* Where there is a reading its eight bytes are the double, and where there is none the double is left as it was. */
static void hertz_are_taken_out(void)
{
    static const uint8_t bytes[3][8] = {{0xF6, 0x28, 0x5C, 0x8F, 0xC2, 0xF5, 0xF0, 0xBF}, /* -1.06 */
                                        {0x71, 0x3D, 0x0A, 0xD7, 0xA3, 0x70, 0x24, 0x40}, /* 10.22 */
                                        {0, 0, 0, 0, 0, 0, 0, 0}};
    static const double due[3] = {-1.06, 10.22, 0.0};
    static const uint64_t none[] = {0, 2, 255, 256, 257, 0x01000000, 0x7fffffff, 0xffffffff};
    uint8_t report[WW_INFO1C_REPORT_BYTES];
    size_t i, k;
    memset(report, CANARY, sizeof report);
    for (i = 0; i < 3; i++) {
        double hertz = 77.0;
        memcpy(report + WW_INFO1C_BYTES + 4, bytes[i], 8);
        ww_put_number(report, WW_INFO1C_READING, 1);
        check(ww_info1c_hertz(report, &hertz) == 1 && memcmp(&hertz, &due[i], 8) == 0, "ww_info1c_hertz of reading",
              (int64_t)i);
        for (k = 0; k < sizeof none / sizeof none[0]; k++) {
            hertz = 77.0;
            ww_put_number(report, WW_INFO1C_READING, none[k]);
            check(ww_info1c_hertz(report, &hertz) == 0 && hertz == 77.0, "ww_info1c_hertz of no reading", (int64_t)none[k]);
        }
    }
}

/* A length has a macro, and a getter for who can't read it. */
static void getters_are_the_macros(void)
{
    check(ww_parameters_bytes() == WW_PARAMETERS_BYTES && ww_start_bytes() == WW_START_BYTES, "a getter", 0);
    check(ww_write_bytes() == WW_WRITE_BYTES && ww_read_bytes() == WW_READ_BYTES, "a getter", 1);
    check(ww_rings_bytes() == WW_RINGS_BYTES && ww_rank_bytes() == WW_RANK_BYTES, "a getter", 2);
    check(ww_label_bytes() == WW_LABEL_BYTES && ww_max_bits() == WW_MAX_BITS, "a getter", 3);
    check(ww_max_labels_bytes() == WW_MAX_LABELS_BYTES, "a getter", 4);
    check(ww_info0_bits() == WW_INFO0_BITS && ww_info0_bytes() == WW_INFO0_BYTES, "a getter", 5);
    check(ww_info1c_bits() == WW_INFO1C_BITS && ww_info1c_bytes() == WW_INFO1C_BYTES, "a getter", 6);
    check(ww_info1c_report_bytes() == WW_INFO1C_REPORT_BYTES, "a getter", 7);
    check(ww_jp_bits() == WW_JP_BITS && ww_jp_bytes() == WW_JP_BYTES, "a getter", 8);
    check(WW_INFO0_BYTES == 4 * WW_INFO0_FIELDS && WW_INFO1C_BYTES == 4 * WW_INFO1C_FIELDS, "the places and a length", 0);
    check(WW_INFO1C_RATE(5) + 1 == WW_INFO1C_COUNT && WW_INFO1C_REPORT_BYTES == 4 * (WW_INFO1C_READING + 3),
          "the places and a length", 1);
    check(WW_JP_RENEGOTIATION + 1 == WW_JP_FIELDS && WW_JP_PART == WW_JP_FIELDS && WW_JP_BYTES == 4 * (WW_JP_PART + 2),
          "the places and a length", 2);
}

int main(void)
{
    numbers_are_put();
    signed_numbers_are_put();
    signed_numbers_have_their_bytes();
    doubles_are_taken_out();
    parts_are_taken_out();
    hertz_are_taken_out();
    getters_are_the_macros();
    printf("%8" PRIu64 "  facts of the header's own functions\n", checks);
    return 0;
}
