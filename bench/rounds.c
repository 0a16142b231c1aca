/* The rounds that a cue on each of four LP5860 takes, beside the least that its bytes allow. Prints the rows of a table. */
#include <stdio.h>
#include <string.h>

#include "../tests/c/reference.h"
#include "cases.h"
#include "cues.h"
#include "lp586x.h"

static const uint32_t limits[] = {12, 64, 256, 1024};

enum { LIMITS = sizeof limits / sizeof *limits };

/* The cue has changed every panel. Answers the bytes that their updates would take together. */
static uint32_t start(struct panel *panels, const struct cue *cue, int wide)
{
    uint32_t bytes = 0;

    for (uint32_t place = 0; place < PLACES; place++) {
        struct panel copy;

        panel_start(&panels[place], LP586X_LP5860, LP586X_I2C, place, wide);
        cue->change(&panels[place]);
        copy = panels[place];
        bytes += panel_update(&copy).bytes;
    }
    return bytes;
}

/* One round, which every chip hears. Answers its t. */
static uint32_t take_round(struct panel *panels, uint8_t *records, uint32_t limit)
{
    uint8_t list[LP586X_ROUND_SIZE];
    uint32_t n, t;

    must(lp586x_round(records, LP586X_RECORDS_SIZE, 15, limit, list, sizeof list, &n, &t));
    for (uint32_t place = 0; place < PLACES; place++)
        must(lp586x_chip_feed(panels[place].chip, sizeof panels[place].chip, list, 4 + 2 * n + t));
    return t;
}

/* Rounds until no write is pending: the next one would have an empty list. */
static uint32_t rounds_needed(struct panel *panels, uint32_t limit)
{
    uint8_t records[LP586X_RECORDS_SIZE];
    uint32_t rounds = 0;

    for (uint32_t place = 0; place < PLACES; place++)
        memcpy(records + place * LP586X_RECORD_SIZE, panels[place].record, LP586X_RECORD_SIZE);
    while (take_round(panels, records, limit) > 0)
        rounds++;
    for (uint32_t place = 0; place < PLACES; place++)
        if (memcmp(panels[place].chip + CHIP_REGISTERS, panels[place].record + SETTINGS, LP586X_REGISTERS) != 0)
            fail("a chip does not hold the settings");
    return rounds;
}

static void row(const struct cue *cue, int wide)
{
    static struct panel panels[PLACES];

    printf("| %s | %d | %u |", cue->on_lp5860, wide ? 16 : 8, start(panels, cue, wide));
    for (int i = 0; i < LIMITS; i++) {
        uint32_t bytes = start(panels, cue, wide);

        printf(" %u (%u) |", rounds_needed(panels, limits[i]), (bytes + limits[i] - 1) / limits[i]);
    }
    printf("\n");
}

int main(void)
{
    static const int shown[] = {ONE_LAMP, ONE_LINE, ALL_LAMPS};

    reference_prepare();
    printf("\n| cue on each of the four | bits | bytes pending | B = 12 | B = 64 | B = 256 | B = 1,024 |\n");
    printf("|---|---|---|---|---|---|---|\n");
    for (size_t i = 0; i < sizeof shown / sizeof *shown; i++)
        for (int wide = 0; wide < 2; wide++)
            row(&cues[shown[i]], wide);
    return 0;
}
