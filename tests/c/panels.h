/* Four records and the chips that they stand for, all on one I2C bus: place k has pins k. */
#ifndef PANELS_H
#define PANELS_H

#include "world.h"

enum { PLACES = 4, ALL_PRESENT = 15 };

struct panels {
    struct world at[PLACES];
};

/* Opens the record of a member at each place and gives its chip power. */
void panels_open(struct panels *panels, const uint32_t members[PLACES]);

/* Four records of the LP5860 whose chips are wanted on, with data mode 0 and one dim lamp: an update of each has three writes of
 * three bytes. */
void panels_waiting(struct panels *panels);

/* The records, back to back. */
void panels_lend(const struct panels *panels, uint8_t *records);

struct call round_call(const uint8_t *records, uint32_t present, uint32_t limit, size_t buffer_size);

/* A round over the records as they stand; what it leaves is kept. */
struct outcome panels_round(struct panels *panels, uint32_t present, uint32_t limit, size_t buffer_size);

#endif
