/*
 * second.h: the second program. It does what include/workerwax.h says, and shares no line with the library.
 *
 * It was written from V.34, V.92 and the project's papers alone, in plain C, to be compared with the proved library over
 * many inputs. Where there was a choice it takes another way than the paper's words suggest: counts by convolution, the
 * switching by a quotient, the scrambler over the history of its outputs, the CRC as a sum with no register. It also is
 * the plain C that the library is measured against, so it holds its counts in tables.
 *
 * second_init must be called once, before any other. The calls then have the signatures and meanings of the ww_ ones.
 */
#ifndef SECOND_H
#define SECOND_H

#include <stddef.h>
#include <stdint.h>

void second_init(void);

uint32_t second_parameters(uint64_t role, uint64_t s, uint64_t n, uint64_t shaping, uint64_t mark,
                           uint8_t *answer, size_t answer_length);
uint32_t second_map(uint64_t k, uint64_t m, uint64_t number, uint8_t *rings, size_t rings_length);
uint32_t second_rank(uint64_t k, uint64_t m, const uint8_t *rings, size_t rings_length,
                     uint8_t *answer, size_t answer_length);
uint32_t second_start(uint64_t role, uint64_t s, uint64_t n, uint64_t shaping, uint64_t mark, uint64_t reg, uint64_t z,
                      uint8_t *answer, size_t answer_length);
uint32_t second_short_start(uint64_t role, uint64_t s, uint64_t n, uint64_t mark, uint8_t *answer, size_t answer_length);
uint32_t second_write(uint64_t role, uint64_t s, uint64_t n, uint64_t shaping, uint64_t mark, uint64_t reg, uint64_t z,
                      const uint8_t *bits, size_t bits_length, uint8_t *labels, size_t labels_length,
                      uint8_t *answer, size_t answer_length);
uint32_t second_read(uint64_t role, uint64_t s, uint64_t n, uint64_t shaping, uint64_t mark, uint64_t reg, uint64_t z,
                     const uint8_t *labels, size_t labels_length, uint8_t *bits, size_t bits_length,
                     uint8_t *answer, size_t answer_length);
uint32_t second_info0_read(const uint8_t *bits, size_t bits_length, uint8_t *fields, size_t fields_length);
uint32_t second_info0_write(const uint8_t *fields, size_t fields_length, uint8_t *bits, size_t bits_length);
uint32_t second_info1c_read(const uint8_t *bits, size_t bits_length, uint8_t *report, size_t report_length);
uint32_t second_info1c_write(const uint8_t *fields, size_t fields_length, uint8_t *bits, size_t bits_length);
uint32_t second_jp_read(const uint8_t *bits, size_t bits_length, uint8_t *answer, size_t answer_length);
uint32_t second_jp_write(uint64_t fraction, uint64_t training, uint64_t renegotiation, uint8_t *bits, size_t bits_length);

/*
 * Below the calls, for tests that need what no call gives. They test nothing: m is 1 to 18, a number is below
 * m^8, a ring is below m, the settings are permitted ones, a bit is 0 or 1.
 */
#define SECOND_MAX_RINGS 18

void second_rings_of(uint64_t m, uint64_t number, uint8_t rings[8]);
uint64_t second_number_of(uint64_t m, const uint8_t rings[8]);
uint64_t second_lighter(uint64_t m, uint64_t weight); /* z8: sets of a total below weight, which is at most 8(m - 1) + 1 */
int second_is_high(uint64_t p, uint64_t r, uint64_t frame); /* whether a mapping frame of a data frame has b bits */
uint64_t second_crc(const uint8_t *bits, size_t count); /* the CRC of any number of bits; x^k of the rest has weight 2^k */

#endif
