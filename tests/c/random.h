/* Pseudo-random numbers, the same ones for the same seed. */
#ifndef RANDOM_H
#define RANDOM_H

#include <stdint.h>

void random_seed(uint64_t seed);
uint32_t random_bits(void);

/* At most limit - 1; limit is at least 1. */
uint32_t random_below(uint32_t limit);

/* 1 once in so many times. */
int one_in(uint32_t times);

#endif
