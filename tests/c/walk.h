/* The transactions of a list, one at a time. */
#ifndef WALK_H
#define WALK_H

#include <stddef.h>
#include <stdint.h>

#include "world.h"

/* A number of two bytes, low byte first. */
uint32_t get_two(const uint8_t *at);

/* Finds each transaction of a list of good sizes by the library, and checks its place against the lengths, which are read here from the
 * front on; and that there is no other. Answers n. */
uint32_t walk(const uint8_t *list, size_t size);

/* Feeds the transactions to the chip in lists of one each, as the library finds them. */
void feed_one_by_one(struct world *world, const uint8_t *list);

#endif
