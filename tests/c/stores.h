/* What an update stores, read from its list. */
#ifndef STORES_H
#define STORES_H

#include <stdint.h>

/* The record's chip image takes the data bytes of its list at the addresses in the heads. Answers how many addresses these are, each
 * counted once. */
uint32_t take_list(uint8_t *record, const uint8_t *list);

/* Whether a write of the list, for a chip on this bus, has one of so many addresses from one on. */
int list_names(const uint8_t *list, uint32_t bus, uint32_t address, uint32_t count);

#endif
