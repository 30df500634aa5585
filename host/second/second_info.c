/* second_info.c: the INFO0 and INFO1c sequences, read and written (clause 10.1.2.3, Tables 14 and 15). */
#include <string.h>

#include "second.h"
#include "second_inside.h"
#include "second_sequence.h"

#define COUNT_OF(fields) (sizeof fields / sizeof fields[0])

/* Both have the same around their fields: fill and sync before them, CRC and fill behind them. */
#define FRAMED(bits_of_fields) {{"1111" "01110010", (bits_of_fields) + 16}, {"1111", 0}}
#define BITS(bits_of_fields) (12 + (bits_of_fields) + 16 + 4)

/* Table 14: bits 12 to 28. */
#define INFO0_BITS BITS(17)

static const struct piece info0_pieces[] = FRAMED(17);

static const struct field info0_fields[] = {
    {1, 0, 1}, {1, 0, 1}, {1, 0, 1},                       /* symbol rates 2743, 2800, 3429 */
    {1, 0, 1}, {1, 0, 1}, {1, 0, 1}, {1, 0, 1}, {1, 0, 1}, /* carriers at 3000 and 3200, low and high; 3429 allowed */
    {1, 0, 1},                                             /* power reduction */
    {3, 0, 5},                                             /* difference in steps of symbol rate, 2400 to 3429 */
    {1, 0, 1},                                             /* CME modem */
    {1, 0, 1},                                             /* 1664 points: the mark */
    {2, 0, 2},                                             /* clock; 3 is reserved */
    {1, 0, 1},                                             /* acknowledgement */
};

static const struct sequence info0 = {INFO0_BITS, info0_pieces, info0_fields, COUNT_OF(info0_fields)};

/* Table 15: bits 12 to 88. */
#define INFO1C_BITS BITS(77)

static const struct piece info1c_pieces[] = FRAMED(77);

#define FIELDS_OF_BLOCK {1, 0, 1}, {4, 0, 10}, {4, 0, 14} /* carrier, filter, data rate; 15 is no rate */

static const struct field info1c_fields[] = {
    {3, 0, 7}, {3, 0, 7},                              /* power reduction, and how much more */
    {7, 0, 127},                                       /* MD */
    FIELDS_OF_BLOCK, FIELDS_OF_BLOCK, FIELDS_OF_BLOCK, /* 2400, 2743, 2800 */
    FIELDS_OF_BLOCK, FIELDS_OF_BLOCK, FIELDS_OF_BLOCK, /* 3000, 3200, 3429 */
    {10, -512, 511},                                   /* offset */
};

static const struct sequence info1c = {INFO1C_BITS, info1c_pieces, info1c_fields, COUNT_OF(info1c_fields)};

/* The report: the fields, whether there is a reading, and the reading in two halves. */
#define REPORT (COUNT_OF(info1c_fields) + 3)

/* The count that says that the offset could not be measured, as it stands among the numbers. */
#define NOT_MEASURED (0x100000000 - 512)

uint32_t second_info0_read(const uint8_t *bits, size_t bits_length, uint8_t *fields, size_t fields_length)
{
    uint64_t numbers[COUNT_OF(info0_fields)];
    uint32_t refused;
    if (bits_length != INFO0_BITS || fields_length != 4 * COUNT_OF(info0_fields)) {
        return LENGTH;
    }
    refused = second_read_sequence(&info0, bits, numbers);
    if (refused == DONE) {
        second_put(fields, numbers, COUNT_OF(info0_fields));
    }
    return refused;
}

uint32_t second_info0_write(const uint8_t *fields, size_t fields_length, uint8_t *bits, size_t bits_length)
{
    uint64_t numbers[COUNT_OF(info0_fields)];
    if (fields_length != 4 * COUNT_OF(info0_fields) || bits_length != INFO0_BITS) {
        return LENGTH;
    }
    second_get(fields, numbers, COUNT_OF(info0_fields));
    return second_write_sequence(&info0, numbers, bits);
}

/* The three numbers behind the fields: 1 and the two halves of the hertz, the lower one first, or nothing but zeros. */
static void put_reading(uint64_t count, uint64_t reading[3])
{
    const int64_t counted = count < 0x80000000 ? (int64_t)count : (int64_t)count - 0x100000000;
    memset(reading, 0, 3 * sizeof reading[0]);
    if (count != NOT_MEASURED) {
        reading[0] = 1;
        second_halves((double)counted / 50.0, reading + 1);
    }
}

uint32_t second_info1c_read(const uint8_t *bits, size_t bits_length, uint8_t *report, size_t report_length)
{
    uint64_t numbers[REPORT];
    uint32_t refused;
    if (bits_length != INFO1C_BITS || report_length != 4 * REPORT) {
        return LENGTH;
    }
    refused = second_read_sequence(&info1c, bits, numbers);
    if (refused == DONE) {
        put_reading(numbers[info1c.count - 1], numbers + info1c.count);
        second_put(report, numbers, REPORT);
    }
    return refused;
}

uint32_t second_info1c_write(const uint8_t *fields, size_t fields_length, uint8_t *bits, size_t bits_length)
{
    uint64_t numbers[COUNT_OF(info1c_fields)];
    if (fields_length != 4 * COUNT_OF(info1c_fields) || bits_length != INFO1C_BITS) {
        return LENGTH;
    }
    second_get(fields, numbers, COUNT_OF(info1c_fields));
    return second_write_sequence(&info1c, numbers, bits);
}
