/* A panel with its chip, and the cues that change it. */
#ifndef CUES_H
#define CUES_H

#include <stdint.h>

#include "lp586x.h"

struct panel {
    uint32_t member;
    int wide; /* 16 bits */
    uint8_t record[LP586X_RECORD_SIZE];
    uint8_t chip[LP586X_CHIP_SIZE];
};

struct cost {
    uint32_t bytes, writes;
};

/* All lamps lit, and the chip up to date. */
void panel_start(struct panel *panel, uint32_t member, uint32_t bus, uint32_t pins, int wide);

/* An update, whose list goes to the chip model; the chip must then hold the settings. */
struct cost panel_update(struct panel *panel);

struct cue {
    const char *on_lp5860, *on_lp5867;
    void (*change)(struct panel *panel);
};

enum { ONE_LAMP, ONE_LINE, SCATTERED, ALL_LAMPS, POWER_LOSS, NOTHING, EVEN_LAMPS, ODD_LAMPS, CUES };

extern const struct cue cues[CUES];

/* Ends the program. */
void fail(const char *message);

#endif
