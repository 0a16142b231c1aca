/* The fewest bus bytes that an update can take, and the fewest writes with as many bytes, found without the paper's rule on neighbours. */
#ifndef FEWEST_H
#define FEWEST_H

#include <stdint.h>

struct cost {
    uint32_t bytes, writes;
};

/* Of a locked record no list may write to 003h or 004h. */
struct cost fewest(uint32_t member, int locked, const uint8_t *settings, const uint8_t *image);

#endif
