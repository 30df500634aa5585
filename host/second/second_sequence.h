/*
 * second_sequence.h: a sequence of bits that carries numbers between fixed bits and before a CRC, read and written for the
 * files of the second program that say what one sequence is.
 */
#ifndef SECOND_SEQUENCE_H
#define SECOND_SEQUENCE_H

#include <stddef.h>
#include <stdint.h>

#define MOST_SEQUENCE_BITS 128

/*
 * A field: how many bits it has, lowest weight first, its lowest number and its highest. The number that its bits stand for
 * is the first from the lowest on that has them as its low bits: so one whose lowest is negative is in two's complement,
 * and a bit that must be 1 stands for 1 or for 2, which is above its highest. What is reserved is a field that may be all
 * that its bits can hold.
 */
struct field {
    unsigned bits;
    int lowest, highest;
};

/* A piece: bits that always stand there, as a text, and behind them bits that are carried. */
struct piece {
    const char *fixed;
    size_t carried;
};

/* A sequence. The bits carried are those of the fields, one field after the other, and then the CRC of them all. */
struct sequence {
    size_t bits;
    const struct piece *pieces; /* up to the last bit */
    const struct field *fields;
    size_t count; /* of the fields */
};

/*
 * The numbers have 32 bits each, negative ones in two's complement. The caller tests the lengths. Refused with BIT, SYNC,
 * CRC or FIELD; or DONE, and all numbers are there.
 */
uint32_t second_read_sequence(const struct sequence *sequence, const uint8_t *bits, uint64_t *numbers);

/*
 * The inverse. Refused with FIELD, for a number that 32 bits can't hold too, and no bit is written; or DONE, and all bits
 * are there.
 */
uint32_t second_write_sequence(const struct sequence *sequence, const uint64_t *numbers, uint8_t *bits);

#endif
