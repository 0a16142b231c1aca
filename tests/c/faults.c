/* Faults: each bit of the 67 bytes for each member, data mode and level of its lamps; what the answer says of 064h; and that the
 * chip image's levels and data mode count, not those of the settings. */
#include <stdio.h>
#include <string.h>

#include "check.h"
#include "groups.h"
#include "random.h"
#include "reference.h"
#include "world.h"

enum { MEMBERS = 5, MODES = 4, LINES = 11, SINKS = 18, PWM = 0x200, LEVELS = 4, FIRST_BRIGHT = 2 };

/* Of 8 bits and of 16. The chip looks for faults from the third on. */
static const uint32_t levels[2][LEVELS] = {{0, 24, 25, 255}, {0, 6399, 6400, 65535}};

static struct outcome faults_of(const struct world *world, const uint8_t *bytes)
{
    struct call call = faults_call(world, bytes, LP586X_FAULT_BYTES, LP586X_DOTS);

    return both(&call);
}

/* ---- All lamps alike */

/* The readings where every bit is clear: of the member's dots this one. */
static void all_clear(uint8_t *readings, const struct world *world, uint8_t reading)
{
    for (uint32_t dot = 0; dot < LP586X_DOTS; dot++)
        readings[dot] = reference_dot(world->record[0], dot / SINKS, dot % SINKS) ? reading : 4;
}

/* One bit alone, with the four values of 064h's two bits. The other dots read as with no bit at all. */
static void one_bit(const struct world *world, uint32_t bit, uint8_t clear)
{
    uint32_t at = bit % 264, line = at / 24, sink = at % 24;
    int open = bit < 264, there = reference_dot(world->record[0], line, sink);
    uint8_t readings[LP586X_DOTS];

    all_clear(readings, world, clear);
    if (there)
        readings[SINKS * line + sink] = open ? 1 : 2;
    for (uint8_t state = 0; state < 4; state++) {
        uint8_t bytes[LP586X_FAULT_BYTES] = {state};
        struct outcome outcome;

        bytes[1 + bit / 8] = (uint8_t)(1 << bit % 8);
        outcome = faults_of(world, bytes);
        check(outcome.n == (uint32_t)((state >> 1) == (open && there)), "bit %u: opens_agree %u", bit, outcome.n);
        check(outcome.t == (uint32_t)((state & 1) == (!open && there)), "bit %u: shorts_agree %u", bit, outcome.t);
        check(memcmp(outcome.buffer, readings, sizeof readings) == 0, "bit %u: other readings", bit);
    }
}

/* The chip image has the data mode and the level. The settings have the other width, and bright lamps for dim ones. */
static void one_level(uint32_t member, uint32_t mode, int level)
{
    const uint32_t *of_width = levels[mode / 2];
    int bright = level >= FIRST_BRIGHT;
    struct world world;
    char place[60];

    snprintf(place, sizeof place, "member %u, data mode %u, level %u", member, mode, of_width[level]);
    context(place);
    world_lit(&world, member, mode, of_width[level]);
    world_mode(&world, mode ^ 2);
    world_lamps(&world, bright ? 0 : levels[1 - mode / 2][LEVELS - 1]);
    for (uint32_t bit = 0; bit < 528; bit++)
        one_bit(&world, bit, bright ? 0 : 5);
    context("");
}

/* ---- A level is the chip's once it was sent */

static void expect_clear(const struct world *world, uint8_t reading, const char *when)
{
    static const uint8_t none[LP586X_FAULT_BYTES];
    uint8_t readings[LP586X_DOTS];

    all_clear(readings, world, reading);
    check(memcmp(faults_of(world, none).buffer, readings, sizeof readings) == 0, "member %u, %s", world->record[0], when);
}

static void as_sent(uint32_t member)
{
    struct world world;

    world_lit(&world, member, 3, 6399);
    expect_clear(&world, 5, "dim lamps");
    world_lamps(&world, 6400);
    expect_clear(&world, 5, "before the update");
    world_sync(&world);
    expect_clear(&world, 0, "after the update");
    world_list(&world, RESET, LP586X_COMMAND_SIZE);
    expect_clear(&world, 5, "after a reset");
    world_sync(&world);
    expect_clear(&world, 0, "after a reset and an update");
    world_set(&world, POWER_LOST, 0, 0, 0);
    expect_clear(&world, 5, "after a power loss");
}

/* ---- Any images */

/* Anything in the writable bits: the data mode, switches, groups and currents too. Half of the bytes of levels are those of 24,
 * 25, 6,399 and 6,400. */
static void any_registers(uint32_t member, uint8_t *registers)
{
    static const uint8_t near[] = {0x00, 0x18, 0x19, 0xFF};

    for (uint32_t address = 0; address < LP586X_REGISTERS; address++) {
        uint8_t reserved = reference_reserved(member, address);
        uint8_t value = address >= PWM && one_in(2) ? near[random_below(4)] : (uint8_t)random_bits();

        registers[address] = (uint8_t)((registers[address] & reserved) | (value & ~reserved));
    }
}

static int is_tested(const uint8_t *image, uint32_t dot)
{
    if (image[0x001] / 2 % 4 < 2)
        return image[PWM + dot] >= 25;
    return image[PWM + 2 * dot] + 256 * image[PWM + 2 * dot + 1] >= 6400;
}

/* The definition once more, dot by dot. */
static void check_readings(const struct world *world, const uint8_t *bytes)
{
    struct outcome outcome = faults_of(world, bytes);

    for (uint32_t line = 0; line < LINES; line++) {
        for (uint32_t sink = 0; sink < SINKS; sink++) {
            uint32_t dot = SINKS * line + sink;
            uint32_t open = bytes[0x065 - 0x064 + 3 * line + sink / 8] >> sink % 8 & 1;
            uint32_t closed = bytes[0x086 - 0x064 + 3 * line + sink / 8] >> sink % 8 & 1;
            uint32_t reading = open || closed || is_tested(world->record + IMAGE, dot) ? open + 2 * closed : 5;

            if (!reference_dot(world->record[0], line, sink))
                reading = 4;
            check(outcome.buffer[dot] == reading, "member %u, dot %u.%u: reads %u, not %u", world->record[0], line, sink,
                  outcome.buffer[dot], reading);
        }
    }
}

static void any_images(uint32_t member)
{
    uint8_t bytes[LP586X_FAULT_BYTES];
    struct world world;

    world_open(&world, member, LP586X_I2C, 0);
    for (int times = 0; times < 50; times++) {
        any_registers(member, world.record + SETTINGS);
        any_registers(member, world.record + IMAGE);
        memset(bytes, 0x00, sizeof bytes);
        check_readings(&world, bytes);
        memset(bytes, 0xFF, sizeof bytes);
        check_readings(&world, bytes);
        for (size_t i = 0; i < sizeof bytes; i++)
            bytes[i] = (uint8_t)random_bits();
        check_readings(&world, bytes);
    }
}

void group_faults(void)
{
    group("faults");
    for (uint32_t member = 0; member < MEMBERS; member++) {
        for (uint32_t mode = 0; mode < MODES; mode++)
            for (int level = 0; level < LEVELS; level++)
                one_level(member, mode, level);
        as_sent(member);
        any_images(member);
    }
    group_done("");
}
