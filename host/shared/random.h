/* random.h: numbers that look random and are the same in every run: splitmix64, from a fixed seed. */
#ifndef RANDOM_H
#define RANDOM_H

#include <stddef.h>
#include <stdint.h>

void random_seed(uint64_t seed);
uint64_t random_number(void);
uint64_t random_below(uint64_t limit); /* limit is not 0 */
void random_bits(uint8_t *bits, size_t count); /* each 0 or 1 */

#endif
