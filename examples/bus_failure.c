/* A bus that fails in the middle of a list, on the chip model: what mends the chip, and what leaves a lamp stale.
 *
 * A record takes the chip to have heard every list. Where it has not, one of these puts both right:
 *   - the same list again, from its first transaction on, before the next list is made; writes may be repeated;
 *   - where no byte of data was sent: the copy of the record from before the call;
 *   - whatever was heard: lp586x_reset, its list sent until the bus has taken it, then an update. The panel is dark in between.
 * The program fails where something is not so.
 */
#include <stdio.h>
#include <stdlib.h>
#include <string.h>

#include "lp586x.h"

/* Where the settings begin in a record, and the registers in a chip: the images stand last in either. */
enum { SETTINGS = LP586X_RECORD_SIZE - 2 * LP586X_REGISTERS, CHIP_REGISTERS = LP586X_CHIP_SIZE - LP586X_REGISTERS };

struct panel {
    uint8_t record[LP586X_RECORD_SIZE], copy[LP586X_RECORD_SIZE], chip[LP586X_CHIP_SIZE], list[LP586X_UPDATE_SIZE];
    uint32_t n, t;
};

static void must(uint32_t answer)
{
    if (answer != LP586X_OK) {
        fprintf(stderr, "bus_failure: refused with %u\n", answer);
        exit(1);
    }
}

static void lamp(struct panel *panel, uint32_t line, uint32_t sink, uint32_t level)
{
    must(lp586x_lamp(panel->record, sizeof panel->record, line, sink, level));
}

static void make_list(struct panel *panel)
{
    uint32_t stored, needed;

    memcpy(panel->copy, panel->record, sizeof panel->copy);
    must(lp586x_update(panel->record, sizeof panel->record, panel->list, sizeof panel->list, &panel->n, &panel->t, &stored, &needed));
}

static void send_list(struct panel *panel)
{
    must(lp586x_chip_feed(panel->chip, sizeof panel->chip, panel->list, 4 + 2 * panel->n + panel->t));
}

/* The bus takes the first transactions of the list and of the next one its head and some bytes of data, then fails. */
static void send_some(struct panel *panel, uint32_t transactions, uint32_t bytes)
{
    uint8_t heard[LP586X_UPDATE_SIZE] = {0};
    uint32_t n = transactions + (bytes > 0), t = 0, offset, length;

    for (uint32_t i = 0; i < n; i++) {
        must(lp586x_transaction(panel->list, 4 + 2 * panel->n + panel->t, i, &offset, &length));
        if (i == transactions)
            length = 2 + bytes;
        heard[4 + 2 * i] = (uint8_t)length;
        heard[5 + 2 * i] = (uint8_t)(length >> 8);
        memcpy(heard + 4 + 2 * n + t, panel->list + offset, length);
        t += length;
    }
    heard[0] = (uint8_t)n;
    heard[2] = (uint8_t)t;
    heard[3] = (uint8_t)(t >> 8);
    must(lp586x_chip_feed(panel->chip, sizeof panel->chip, heard, 4 + 2 * n + t));
}

/* ---- What may be done then */

static void update(struct panel *panel)
{
    make_list(panel);
    send_list(panel);
}

static void power_lost_update(struct panel *panel)
{
    must(lp586x_power_lost(panel->record, sizeof panel->record));
    update(panel);
}

static void copy_update(struct panel *panel)
{
    memcpy(panel->record, panel->copy, sizeof panel->record);
    update(panel);
}

/* As above, but the show has gone on: the lamp that was to go out is to stay lit. */
static void copy_other_cue(struct panel *panel)
{
    memcpy(panel->record, panel->copy, sizeof panel->record);
    lamp(panel, 0, 2, 255);
    update(panel);
}

static void reset_update(struct panel *panel)
{
    must(lp586x_reset(panel->record, sizeof panel->record, panel->list, sizeof panel->list, &panel->n, &panel->t));
    send_list(panel);
    update(panel);
}

enum verdict { NOT_TRIED, STALE, AS_SET };

static const struct way {
    const char *words;
    void (*mend)(struct panel *panel);
    enum verdict nothing_sent, some_sent;
} ways[] = {
    {"a second update", update, STALE, STALE},
    {"lp586x_power_lost, update", power_lost_update, STALE, STALE},
    {"the same list again", send_list, AS_SET, AS_SET},
    {"copy put back, update", copy_update, AS_SET, NOT_TRIED},
    {"copy put back, another cue, update", copy_other_cue, AS_SET, STALE},
    {"lp586x_reset, update", reset_update, AS_SET, AS_SET},
};

/* ---- The trial */

/* Prints the registers in which the chip is not as set. All 908 are compared; those that nobody can write are alike in any case. */
static enum verdict verdict(const struct panel *panel)
{
    enum verdict verdict = AS_SET;

    for (uint32_t address = 0; address < LP586X_REGISTERS; address++)
        if (panel->chip[CHIP_REGISTERS + address] != panel->record[SETTINGS + address]) {
            printf(verdict == AS_SET ? "stale: %03Xh" : " %03Xh", address);
            verdict = STALE;
        }
    printf(verdict == AS_SET ? "as set\n" : "\n");
    return verdict;
}

static void try_ways(const struct panel *start, uint32_t transactions, uint32_t bytes)
{
    int some = transactions + bytes > 0;

    printf("transactions sent: %u, bytes of data of the next: %u\n", transactions, bytes);
    for (size_t i = 0; i < sizeof ways / sizeof *ways; i++) {
        struct panel panel = *start;
        enum verdict expected = some ? ways[i].some_sent : ways[i].nothing_sent;

        if (expected == NOT_TRIED)
            continue;
        send_some(&panel, transactions, bytes);
        ways[i].mend(&panel);
        printf("  %-36s", ways[i].words);
        if (verdict(&panel) != expected)
            exit(1);
    }
}

/* Two lamps are lit. A cue puts them out and lights two others, in three transactions: 202h; 215h and 216h; 272h. */
static void trial(uint32_t bus)
{
    static struct panel panel;

    must(lp586x_open(panel.record, sizeof panel.record, LP586X_LP5860, bus, 0));
    must(lp586x_chip_at_reset(panel.chip, sizeof panel.chip, LP586X_LP5860, bus, 0));
    must(lp586x_register(panel.record, sizeof panel.record, 0x000, 0x01));
    must(lp586x_register(panel.record, sizeof panel.record, 0x001, 0x58));
    lamp(&panel, 0, 2, 255);
    lamp(&panel, 6, 6, 255);
    update(&panel);

    lamp(&panel, 0, 2, 0);
    lamp(&panel, 6, 6, 0);
    lamp(&panel, 1, 3, 255);
    lamp(&panel, 1, 4, 255);
    make_list(&panel);
    if (panel.n != 3)
        exit(1);
    try_ways(&panel, 0, 0);
    try_ways(&panel, 1, 0);
    try_ways(&panel, 1, 1);
    try_ways(&panel, 2, 0);
}

int main(void)
{
    printf("I2C\n");
    trial(LP586X_I2C);
    printf("SPI\n");
    trial(LP586X_SPI);
    return 0;
}
