/* Every row of the five data sheets' summary tables, against the calls of the library.
 *
 * A line of the file: member, address, type (RW, R, W), default (or --), mask of the bits printed as reserved, then plain, or what the
 * address carries and for which dots, LINE.SINK or -: group, switch, open, short with the dot of each bit, current with its dot,
 * pwm with the dot of its 8 bits, of the low byte and of the high byte of its 16 bits.
 */
#include <stdio.h>
#include <stdlib.h>
#include <string.h>

#include "check.h"
#include "groups.h"
#include "reference.h"
#include "world.h"

enum { MEMBERS = 5, WORDS = 16 };

struct row {
    uint32_t member, address;
    const char *words[WORDS]; /* from the type on; missing ones are "-" */
};

enum { TYPE, DEFAULT, RESERVED, CARRIES, FIRST_DOT };

static struct world worlds[MEMBERS], lit[MEMBERS];
static unsigned rows_read, dots_not_there, listed_not_writable;

static void read_row(struct row *row, char *line)
{
    char *word = strtok(line, " \n");

    row->member = (uint32_t)strtoul(word, NULL, 10);
    row->address = (uint32_t)strtoul(strtok(NULL, " \n"), NULL, 16);
    for (int i = 0; i < WORDS; i++) {
        word = strtok(NULL, " \n");
        row->words[i] = word ? word : "-";
    }
}

/* The dot that a word names; 0 for "-". */
static int named_dot(const char *word, uint32_t *line, uint32_t *sink)
{
    return sscanf(word, "%u.%u", line, sink) == 2;
}

/* The row's dot must exist. Three rows name dots that their chip has not. */
static int dot_is_there(const struct row *row, uint32_t line, uint32_t sink)
{
    if (reference_dot(row->member, line, sink))
        return 1;
    dots_not_there++;
    check(world_set(&worlds[row->member], LAMP, line, sink, 0) == 6, "a dot that is not there");
    return 0;
}

/* A setting on a copy of the opened record changes exactly these bits of the row's address. */
static void expect_bits(const struct row *row, struct world world, enum kind kind, uint32_t line, uint32_t sink, uint32_t value,
                        uint8_t bits)
{
    uint8_t old[LP586X_RECORD_SIZE];

    memcpy(old, world.record, sizeof old);
    check(world_set(&world, kind, line, sink, value) == 0, "dot %u.%u is refused", line, sink);
    old[SETTINGS + row->address] ^= bits;
    check(memcmp(old, world.record, sizeof old) == 0, "dot %u.%u has its bits elsewhere", line, sink);
}

static struct world in_mode(const struct row *row, uint32_t mode)
{
    struct world world = worlds[row->member];

    world_mode(&world, mode);
    return world;
}

static void check_pwm(const struct row *row)
{
    uint32_t line, sink;

    if (named_dot(row->words[FIRST_DOT], &line, &sink) && dot_is_there(row, line, sink)) {
        expect_bits(row, in_mode(row, 0), LAMP, line, sink, 0xA6, 0xA6);
        expect_bits(row, in_mode(row, 1), LAMP, line, sink, 0xA6, 0xA6);
    }
    if (named_dot(row->words[FIRST_DOT + 1], &line, &sink) && dot_is_there(row, line, sink)) {
        expect_bits(row, in_mode(row, 2), LAMP, line, sink, 0x00A6, 0xA6);
        expect_bits(row, in_mode(row, 3), LAMP, line, sink, 0x00A6, 0xA6);
    }
    if (named_dot(row->words[FIRST_DOT + 2], &line, &sink) && dot_is_there(row, line, sink)) {
        expect_bits(row, in_mode(row, 2), LAMP, line, sink, 0xA600, 0xA6);
        expect_bits(row, in_mode(row, 3), LAMP, line, sink, 0xA600, 0xA6);
    }
}

/* Groups reset to 0 and switches to 1. Group 1 is the lower of a dot's two bits, group 2 the upper. */
static void check_settings_bits(const struct row *row)
{
    int groups = strcmp(row->words[CARRIES], "group") == 0;
    uint32_t line, sink, there = 1;

    for (uint32_t bit = 0; bit < 8; bit++) {
        if (!named_dot(row->words[FIRST_DOT + bit], &line, &sink))
            continue;
        /* All eight bits of such a row are for dots of one line. */
        if (bit == 0)
            there = (uint32_t)dot_is_there(row, line, sink);
        if (there && groups)
            expect_bits(row, worlds[row->member], GROUP, line, sink, 1 + bit % 2, (uint8_t)(1 << bit));
        else if (there)
            expect_bits(row, worlds[row->member], SWITCH, line, sink, 0, (uint8_t)(1 << bit));
    }
}

/* The bit set alone, and no other reading than its dot's: at full level the lamps with clear bits are sound. */
static void check_fault_bits(const struct row *row)
{
    uint8_t reading = strcmp(row->words[CARRIES], "open") == 0 ? 1 : 2;
    uint32_t line, sink;

    for (uint32_t bit = 0; bit < 8; bit++) {
        uint8_t bytes[LP586X_FAULT_BYTES] = {0};
        struct call call = faults_call(&lit[row->member], bytes, sizeof bytes, LP586X_DOTS);
        struct outcome outcome;

        bytes[row->address - 0x064] = (uint8_t)(1 << bit);
        outcome = both(&call);
        if (!named_dot(row->words[FIRST_DOT + bit], &line, &sink))
            continue;
        for (uint32_t dot = 0; dot < LP586X_DOTS; dot++)
            if (outcome.buffer[dot] != 4)
                check(outcome.buffer[dot] == (dot == 18 * line + sink ? reading : 0), "bit %u, dot %u", bit, dot);
    }
}

/* Currents carry one dot; the LP5867's rows for absent sinks carry none. */
static void check_current(const struct row *row)
{
    uint32_t line, sink;

    if (named_dot(row->words[FIRST_DOT], &line, &sink) && dot_is_there(row, line, sink))
        check(row->address == 0x100 + 18 * line + sink, "the current of dot %u.%u", line, sink);
}

static void check_default(const struct row *row)
{
    const struct world *world = &worlds[row->member];
    uint32_t printed;

    if (strcmp(row->words[DEFAULT], "--") == 0)
        return;
    printed = (uint32_t)strtoul(row->words[DEFAULT], NULL, 16);
    check(world->record[SETTINGS + row->address] == printed, "settings start at %02X", world->record[SETTINGS + row->address]);
    check(world->record[IMAGE + row->address] == printed, "the chip image starts at %02X", world->record[IMAGE + row->address]);
    check(world->chip[CHIP_REGISTERS + row->address] == printed, "the chip has %02X", world->chip[CHIP_REGISTERS + row->address]);
}

/* A bit printed as reserved is refused, and on a writable address any other is taken. */
static void check_reserved(const struct row *row)
{
    struct world *world = &worlds[row->member];
    uint32_t printed = (uint32_t)strtoul(row->words[RESERVED], NULL, 16);
    int listed = strcmp(row->words[TYPE], "RW") == 0 && printed != 0xFF;
    int held = reference_writable(row->member, row->address);

    check(listed || !held, "writable, but of type %s, reserved %s", row->words[TYPE], row->words[RESERVED]);
    listed_not_writable += listed && !held;
    for (uint32_t bit = 0; bit < 8; bit++) {
        struct call call =
            record_call(world, REGISTER, row->address, world->record[SETTINGS + row->address] ^ 1u << bit, 0);
        uint32_t answer = both(&call).answer;
        uint32_t expected = !held ? 4 : printed >> bit & 1 ? 5 : 0;

        check(answer == expected, "bit %u: register answers %u, not %u", bit, answer, expected);
    }
}

static void check_row(const struct row *row)
{
    static char place[40];
    const char *carries = row->words[CARRIES];

    snprintf(place, sizeof place, "member %u, %03X", row->member, row->address);
    context(place);
    check_default(row);
    check_reserved(row);
    if (strcmp(carries, "pwm") == 0)
        check_pwm(row);
    else if (strcmp(carries, "group") == 0 || strcmp(carries, "switch") == 0)
        check_settings_bits(row);
    else if (strcmp(carries, "open") == 0 || strcmp(carries, "short") == 0)
        check_fault_bits(row);
    else if (strcmp(carries, "current") == 0)
        check_current(row);
}

void group_rows(const char *path)
{
    FILE *file = fopen(path, "r");
    char line[400], note[100];
    struct row row;

    group("data sheet rows");
    if (!file) {
        perror(path);
        exit(1);
    }
    for (uint32_t member = 0; member < MEMBERS; member++) {
        world_open(&worlds[member], member, 0, 0);
        world_lit(&lit[member], member, 3, 65535);
    }
    while (fgets(line, sizeof line, file)) {
        read_row(&row, line);
        rows_read++;
        check_row(&row);
    }
    fclose(file);
    context("");
    check(rows_read == 2189, "%u rows", rows_read);
    check(dots_not_there == 3, "%u rows name dots that their chip has not", dots_not_there);
    check(listed_not_writable == 3, "%u rows are for writable bits that are not taken", listed_not_writable);
    snprintf(note, sizeof note, "%u rows, %u of them for dots that their chip has not", rows_read, dots_not_there);
    group_done(note);
}
