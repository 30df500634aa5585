/* second_bits.h: rows of bits, one to a byte, for the files of the second program that take them apart or put them together. */
#ifndef SECOND_BITS_H
#define SECOND_BITS_H

#include <stddef.h>
#include <stdint.h>

/* Whether each byte is 0 or 1. */
static inline int are_bits(const uint8_t *bits, size_t count)
{
    uint8_t seen = 0;
    size_t i;
    for (i = 0; i < count; i++) {
        seen |= bits[i];
    }
    return seen <= 1;
}

/* Takes a number of `count` bits, lowest weight first. */
static inline uint64_t take(const uint8_t **bits, uint64_t count)
{
    uint64_t i, number = 0;
    for (i = 0; i < count; i++) {
        number |= (uint64_t)*(*bits)++ << i;
    }
    return number;
}

/* Puts one there in the same way. */
static inline void give(uint8_t **bits, uint64_t number, uint64_t count)
{
    uint64_t i;
    for (i = 0; i < count; i++) {
        *(*bits)++ = (uint8_t)(number >> i & 1);
    }
}

#endif
