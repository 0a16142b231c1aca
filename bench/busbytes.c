/* Bus bytes of a cue: what lp586x_update answers, beside three other ways to bring the chip to the same settings. Prints the rows of a
 * table.
 *   whole map: the old driver, all writable registers at every cue, each stretch of adjacent ones as a write
 *   one by one: a write for each changed register
 *   adjacent: changed registers that are adjacent share a write, as a cache of a register map does
 * A chip in standby hears the enabling write alone, so after a power loss each of them sends it first.
 */
#include <stdio.h>

#include "../tests/c/reference.h"
#include "cases.h"
#include "cues.h"
#include "lp586x.h"

/* ---- The other ways */

/* A write for each longest stretch of chosen addresses; with limit 1, for each address. */
static struct cost stretches(const uint8_t *chosen, uint32_t limit)
{
    struct cost cost = {0, 0};
    uint32_t length = 0;

    for (uint32_t address = 0; address < LP586X_REGISTERS; address++) {
        length = chosen[address] && length < limit ? length + 1 : chosen[address];
        cost.bytes += chosen[address];
        if (length == 1) {
            cost.writes++;
            cost.bytes += 2;
        }
    }
    return cost;
}

static struct cost other_way(const struct panel *panel, int whole_map, uint32_t limit)
{
    const uint8_t *settings = panel->record + SETTINGS, *image = settings + LP586X_REGISTERS;
    uint8_t chosen[LP586X_REGISTERS];
    int enable = settings[0] != image[0];
    struct cost cost;

    for (uint32_t address = 0; address < LP586X_REGISTERS; address++)
        chosen[address] = whole_map ? (uint8_t)reference_writable(panel->member, address) : settings[address] != image[address];
    if (enable)
        chosen[0] = 0;
    cost = stretches(chosen, limit);
    if (enable)
        cost = (struct cost){cost.bytes + 3, cost.writes + 1};
    return cost;
}

/* ---- The table */

static void row(uint32_t member, uint32_t bus, int wide, const struct cue *cue)
{
    static struct panel panel;
    struct cost whole, single, adjacent, ours;

    panel_start(&panel, member, bus, 0, wide);
    cue->change(&panel);
    whole = other_way(&panel, 1, LP586X_REGISTERS);
    single = other_way(&panel, 0, 1);
    adjacent = other_way(&panel, 0, LP586X_REGISTERS);
    ours = panel_update(&panel);
    printf("| %s | %d | %u (%u) | %u (%u) | %u (%u) | **%u (%u)** |\n", member == 0 ? cue->on_lp5860 : cue->on_lp5867, wide ? 16 : 8,
           whole.bytes, whole.writes, single.bytes, single.writes, adjacent.bytes, adjacent.writes, ours.bytes, ours.writes);
}

static void table(const char *name, uint32_t member, uint32_t bus)
{
    printf("\n%s:\n\n", name);
    printf("| cue | bits | whole map | one by one | adjacent | lp586x_update |\n");
    printf("|---|---|---|---|---|---|\n");
    for (int i = 0; i < CUES; i++)
        for (int wide = 0; wide < 2; wide++)
            row(member, bus, wide, &cues[i]);
}

int main(void)
{
    reference_prepare();
    table("LP5860 on I2C, 198 lamps", 0, 0);
    table("LP5867 on SPI, 42 lamps", 3, 1);
    return 0;
}
