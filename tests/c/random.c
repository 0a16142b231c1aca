#include "random.h"

static uint64_t state = 1;

void random_seed(uint64_t seed)
{
    state = seed;
}

/* SplitMix64. */
uint32_t random_bits(void)
{
    uint64_t z = state += 0x9E3779B97F4A7C15u;

    z = (z ^ z >> 30) * 0xBF58476D1CE4E5B9u;
    z = (z ^ z >> 27) * 0x94D049BB133111EBu;
    return (uint32_t)((z ^ z >> 31) >> 32);
}

uint32_t random_below(uint32_t limit)
{
    return (uint32_t)((uint64_t)random_bits() * limit >> 32);
}

int one_in(uint32_t times)
{
    return random_below(times) == 0;
}
