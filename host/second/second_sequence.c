/*
 * second_sequence.c: see second_sequence.h. The CRC is that of clause 10.1.2.3.2.
 *
 * The clause works the CRC out in a register. Here the bits are the polynomial that they stand for, and the CRC is what is
 * left of it modulo x^16 + x^12 + x^5 + 1: each power that is there has a rest of its own, and the rests are added.
 */
#include "second_sequence.h"

#include <string.h>

#include "second.h"
#include "second_bits.h"
#include "second_inside.h"

#define CRC_BITS 16

/*
 * The first bit sent has the highest power. The last has power 16: below it is the place of the rest. A register that is
 * preset to ones does what one of zeros does with the sixteen highest powers turned, so they are turned here.
 */
uint64_t second_crc(const uint8_t *bits, size_t count)
{
    uint64_t crc = 0, rest_of_power = 1;
    size_t power;
    for (power = 0; power < count + CRC_BITS; power++) {
        int there = power >= CRC_BITS && bits[count + CRC_BITS - 1 - power] == 1;
        int turned = power >= count;
        if (there != turned) {
            crc ^= rest_of_power;
        }
        rest_of_power *= 2;
        if (rest_of_power > 0xffff) {
            rest_of_power ^= 0x11021;
        }
    }
    return crc;
}

/* Takes the bits that are carried, and gives how many they are. `wrong` is 0 where all others are as they must be. */
static size_t take_carried(const struct sequence *sequence, const uint8_t *bits, uint8_t *carried, uint8_t *wrong)
{
    const uint8_t *end = bits + sequence->bits;
    const struct piece *piece;
    size_t i, count = 0;
    *wrong = 0;
    for (piece = sequence->pieces; bits < end; piece++) {
        for (i = 0; piece->fixed[i] != '\0'; i++) {
            *wrong |= *bits++ ^ (uint8_t)(piece->fixed[i] - '0');
        }
        memcpy(carried + count, bits, piece->carried);
        bits += piece->carried;
        count += piece->carried;
    }
    return count;
}

/* The inverse. */
static void give_carried(const struct sequence *sequence, const uint8_t *carried, uint8_t *bits)
{
    const uint8_t *end = bits + sequence->bits;
    const struct piece *piece;
    size_t i;
    for (piece = sequence->pieces; bits < end; piece++) {
        for (i = 0; piece->fixed[i] != '\0'; i++) {
            *bits++ = (uint8_t)(piece->fixed[i] - '0');
        }
        memcpy(bits, carried, piece->carried);
        bits += piece->carried;
        carried += piece->carried;
    }
}

/* How far a number is above the lowest of its field, both as numbers of so many bits. */
static uint64_t above_lowest(const struct field *field, uint64_t number, unsigned bits)
{
    return (number - (uint64_t)(int64_t)field->lowest) & (((uint64_t)1 << bits) - 1);
}

static int is_permitted(const struct field *field, uint64_t number)
{
    return number <= 0xffffffff && above_lowest(field, number, 32) <= (uint64_t)((int64_t)field->highest - field->lowest);
}

/* The number that the bits of a field stand for, in its 32 bits. */
static uint64_t take_number(const struct field *field, const uint8_t **bits)
{
    const uint64_t above = above_lowest(field, take(bits, field->bits), field->bits);
    return (above + (uint64_t)(int64_t)field->lowest) & 0xffffffff;
}

uint32_t second_read_sequence(const struct sequence *sequence, const uint8_t *bits, uint64_t *numbers)
{
    uint8_t carried[MOST_SEQUENCE_BITS];
    const uint8_t *from = carried;
    uint8_t wrong;
    size_t i, count;
    if (!are_bits(bits, sequence->bits)) {
        return BIT;
    }
    count = take_carried(sequence, bits, carried, &wrong);
    if (wrong != 0) {
        return SYNC;
    }
    if (second_crc(carried, count) != 0) { /* bits with their own rest behind them leave no rest */
        return CRC;
    }
    for (i = 0; i < sequence->count; i++) {
        numbers[i] = take_number(&sequence->fields[i], &from);
        if (!is_permitted(&sequence->fields[i], numbers[i])) {
            return FIELD;
        }
    }
    return DONE;
}

uint32_t second_write_sequence(const struct sequence *sequence, const uint64_t *numbers, uint8_t *bits)
{
    uint8_t carried[MOST_SEQUENCE_BITS], *to = carried;
    uint64_t crc;
    size_t i;
    for (i = 0; i < sequence->count; i++) {
        if (!is_permitted(&sequence->fields[i], numbers[i])) {
            return FIELD;
        }
        give(&to, numbers[i], sequence->fields[i].bits);
    }
    crc = second_crc(carried, (size_t)(to - carried));
    for (i = CRC_BITS; i > 0; i--) {
        give(&to, crc >> (i - 1), 1); /* highest power first */
    }
    give_carried(sequence, carried, bits);
    return DONE;
}
