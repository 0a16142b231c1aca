#include "fewest.h"

#include "lp586x.h"
#include "reference.h"

/* Bytes count first. */
enum { BYTE = 1 << 10, WRITE = 1, IMPOSSIBLE = 1 << 28 };

static uint32_t lesser(uint32_t a, uint32_t b)
{
    return a < b ? a : b;
}

/* "rivals in the byte comparison keep off locked addresses as well" */
static int may_be_sent(uint32_t member, int locked, uint32_t address)
{
    return reference_writable(member, address) && !(locked && (address == 0x003 || address == 0x004));
}

/* Address by address from 001h: the least cost so far if this address is sent, and if it is not. A hole is never sent, a differing
 * address always; the first address of a write costs its two head bytes too. */
static uint32_t fewest_from_001h(uint32_t member, int locked, const uint8_t *settings, const uint8_t *image)
{
    uint32_t sent = IMPOSSIBLE, left = 0;

    for (uint32_t address = 0x001; address < LP586X_REGISTERS; address++) {
        uint32_t if_sent = lesser(sent + BYTE, left + 3 * BYTE + WRITE), if_left = lesser(sent, left);

        sent = may_be_sent(member, locked, address) ? if_sent : IMPOSSIBLE;
        left = settings[address] == image[address] ? if_left : IMPOSSIBLE;
    }
    return lesser(sent, left);
}

struct cost fewest(uint32_t member, int locked, const uint8_t *settings, const uint8_t *image)
{
    int on = settings[0] & 1;
    uint32_t cost = on != (image[0] & 1) ? 3 * BYTE + WRITE : 0;

    if (on)
        cost += fewest_from_001h(member, locked, settings, image);
    return (struct cost){cost / BYTE, cost % BYTE};
}
