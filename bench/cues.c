#include "cues.h"

#include <stdio.h>
#include <stdlib.h>
#include <string.h>

#include "cases.h"

void fail(const char *message)
{
    fprintf(stderr, "bench: %s\n", message);
    exit(1);
}

/* ---- The panel */

static void set_lamp(struct panel *panel, uint32_t dot, uint32_t level)
{
    must(lp586x_lamp(panel->record, sizeof panel->record, dot / 18, dot % 18, level));
}

/* A level that the panel does not start with; both bytes of 16 bits change. */
static void change_lamp(struct panel *panel, uint32_t dot)
{
    if (has_dot(panel->member, dot))
        set_lamp(panel, dot, (panel->wide ? 0x8080 : 0x80) + dot % 64);
}

struct cost panel_update(struct panel *panel)
{
    uint8_t list[LP586X_UPDATE_SIZE];
    struct cost cost;
    uint32_t stored, needed;

    must(lp586x_update(panel->record, sizeof panel->record, list, sizeof list, &cost.writes, &cost.bytes, &stored, &needed));
    must(lp586x_chip_feed(panel->chip, sizeof panel->chip, list, 4 + 2 * cost.writes + cost.bytes));
    if (memcmp(panel->chip + CHIP_REGISTERS, panel->record + SETTINGS, LP586X_REGISTERS) != 0)
        fail("the chip does not hold the settings");
    return cost;
}

void panel_start(struct panel *panel, uint32_t member, uint32_t bus, uint32_t pins, int wide)
{
    panel->member = member;
    panel->wide = wide;
    must(lp586x_open(panel->record, sizeof panel->record, member, bus, pins));
    must(lp586x_chip_at_reset(panel->chip, sizeof panel->chip, member, bus, pins));
    must(lp586x_register(panel->record, sizeof panel->record, 0x000, 0x01));
    must(lp586x_register(panel->record, sizeof panel->record, 0x001, wide ? 0x5E : 0x58));
    for (uint32_t dot = 0; dot < LP586X_DOTS; dot++)
        if (has_dot(member, dot))
            set_lamp(panel, dot, wide ? 0x2010 : 0x10);
    panel_update(panel);
}

/* ---- Cues */

static void one_lamp(struct panel *panel)
{
    change_lamp(panel, 3 * 18 + 8);
}

static void one_line(struct panel *panel)
{
    for (uint32_t sink = 0; sink < 18; sink++)
        change_lamp(panel, 2 * 18 + sink);
}

/* A quarter of the lamps. */
static void scattered(struct panel *panel)
{
    uint32_t state = 5860, wanted = panel->member == 0 ? 50 : 12, changed = 0;
    uint8_t done[LP586X_DOTS] = {0};

    while (changed < wanted) {
        uint32_t dot;

        state = state * 1664525u + 1013904223u;
        dot = (state >> 16) % LP586X_DOTS;
        if (done[dot] || !has_dot(panel->member, dot))
            continue;
        done[dot] = 1;
        changed++;
        change_lamp(panel, dot);
    }
}

static void whole_panel(struct panel *panel)
{
    for (uint32_t dot = 0; dot < LP586X_DOTS; dot++)
        change_lamp(panel, dot);
}

static void power_dip(struct panel *panel)
{
    must(lp586x_power_lost(panel->record, sizeof panel->record));
    must(lp586x_chip_power_lost(panel->chip, sizeof panel->chip));
}

static void nothing(struct panel *panel)
{
    (void)panel;
}

static void even_lamps(struct panel *panel)
{
    for (uint32_t dot = 0; dot < LP586X_DOTS; dot += 2)
        change_lamp(panel, dot);
}

static void odd_lamps(struct panel *panel)
{
    for (uint32_t dot = 1; dot < LP586X_DOTS; dot += 2)
        change_lamp(panel, dot);
}

const struct cue cues[CUES] = {
    [ONE_LAMP] = {"one lamp", "one lamp", one_lamp},
    [ONE_LINE] = {"a line of 18 lamps", "a line of 6 lamps", one_line},
    [SCATTERED] = {"50 scattered lamps", "12 scattered lamps", scattered},
    [ALL_LAMPS] = {"all lamps", "all lamps", whole_panel},
    [POWER_LOSS] = {"after a power loss, all lit", "after a power loss, all lit", power_dip},
    [NOTHING] = {"nothing changed", "nothing changed", nothing},
    [EVEN_LAMPS] = {"every even lamp", "every even lamp", even_lamps},
    [ODD_LAMPS] = {"every odd lamp", "every odd lamp", odd_lamps},
};
