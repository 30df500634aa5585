/* random.c: see random.h. */
#include "random.h"

static uint64_t state;

void random_seed(uint64_t seed)
{
    state = seed;
}

uint64_t random_number(void)
{
    uint64_t x = state += 0x9E3779B97F4A7C15u;
    x = (x ^ x >> 30) * 0xBF58476D1CE4E5B9u;
    x = (x ^ x >> 27) * 0x94D049BB133111EBu;
    return x ^ x >> 31;
}

uint64_t random_below(uint64_t limit)
{
    return random_number() % limit;
}

void random_bits(uint8_t *bits, size_t count)
{
    size_t i;
    for (i = 0; i < count; i++) {
        bits[i] = (uint8_t)(random_number() >> 63);
    }
}
