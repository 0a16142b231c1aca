/* Document 01's bench examples, all of them, and the slips of the old driver's authors. */
#include <string.h>

#include "check.h"
#include "groups.h"
#include "reference.h"
#include "world.h"

static void expect_list(const struct outcome *outcome, const uint8_t *bytes, size_t size)
{
    check(outcome->answer == 0, "refused with %u", outcome->answer);
    check(outcome->n == (uint32_t)(bytes[0] + 256 * bytes[1]), "n is %u", outcome->n);
    check(outcome->t == (uint32_t)(bytes[2] + 256 * bytes[3]), "t is %u", outcome->t);
    check(size == 4 + 2 * outcome->n + outcome->t, "the example's size is %zu", size);
    check(memcmp(outcome->buffer, bytes, size) == 0, "other list bytes");
}

#define EXPECT_LIST(outcome, ...) \
    expect_list(outcome, (const uint8_t[]){__VA_ARGS__}, sizeof(const uint8_t[]){__VA_ARGS__})

static void must_set(struct world *world, enum kind kind, uint32_t first, uint32_t second, uint32_t third)
{
    uint32_t answer = world_set(world, kind, first, second, third);

    check(answer == 0, "setting %d (%X, %X, %X) is refused with %u", kind, first, second, third, answer);
}

/* The settings changed at these addresses and at no others. */
static void expect_changed(const struct world *world, const struct world *old, const uint32_t *addresses, int count)
{
    for (uint32_t address = 0; address < LP586X_REGISTERS; address++) {
        int named = 0;

        for (int i = 0; i < count; i++)
            named |= addresses[i] == address;
        check((world->record[SETTINGS + address] != old->record[SETTINGS + address]) == named, "settings at %03X", address);
    }
}

/* Chip on, data mode 0, nothing to send. */
static void start_on(struct world *world, uint32_t member)
{
    world_open(world, member, LP586X_I2C, 0);
    must_set(world, REGISTER, 0x000, 0x01, 0);
    must_set(world, REGISTER, 0x001, 0x58, 0);
    world_sync(world);
}

static void reset_value_of_001h(void)
{
    struct world world;

    context("5Eh at 001h: 11 lines, mode 3");
    for (uint32_t member = LP586X_LP5860; member <= LP586X_LP5868T; member++) {
        world_open(&world, member, LP586X_I2C, 0);
        check(world.record[SETTINGS + 1] == 0x5E, "member %u has %02X", member, world.record[SETTINGS + 1]);
    }
    check((0x5E >> 3 & 15) == 11 && (0x5E >> 1 & 3) == 3, "5Eh");
}

static void first_update(uint32_t bus, struct outcome *outcome, struct world *world)
{
    world_open(world, LP586X_LP5860, bus, 0);
    must_set(world, REGISTER, 0x000, 0x01, 0);
    must_set(world, REGISTER, 0x001, 0x58, 0);
    must_set(world, LAMP, 0, 2, 0x40);
    *outcome = world_list(world, UPDATE, LP586X_UPDATE_SIZE);
}

static void first_updates(void)
{
    struct world world;
    struct outcome outcome;

    context("000h = 01h, 001h = 58h, Lamp (0, 2, 40h), Update");
    first_update(LP586X_I2C, &outcome, &world);
    EXPECT_LIST(&outcome, 0x03, 0x00, 0x09, 0x00, 0x03, 0x00, 0x03, 0x00, 0x03, 0x00, 0x80, 0x00, 0x01, 0x80, 0x01, 0x58, 0x84,
                0x02, 0x40);
    check(outcome.stored == 3, "stored is %u", outcome.stored);
    outcome = world_list(&world, UPDATE, LP586X_UPDATE_SIZE);
    EXPECT_LIST(&outcome, 0x00, 0x00, 0x00, 0x00);
    check(outcome.stored == 0, "stored is %u", outcome.stored);

    context("SPI transactions of the same");
    first_update(LP586X_SPI, &outcome, &world);
    EXPECT_LIST(&outcome, 0x03, 0x00, 0x09, 0x00, 0x03, 0x00, 0x03, 0x00, 0x03, 0x00, 0x00, 0x20, 0x01, 0x00, 0x60, 0x58, 0x80,
                0xA0, 0x40);
}

static void joined_writes(void)
{
    struct world world;
    struct outcome outcome;

    context("chip on, only 202h and 205h differ");
    start_on(&world, LP586X_LP5860);
    must_set(&world, REGISTER, 0x202, 0x11, 0);
    must_set(&world, REGISTER, 0x205, 0x22, 0);
    outcome = world_list(&world, UPDATE, LP586X_UPDATE_SIZE);
    EXPECT_LIST(&outcome, 0x01, 0x00, 0x06, 0x00, 0x06, 0x00, 0x84, 0x02, 0x11, 0x00, 0x00, 0x22);
    check(outcome.stored == 4, "stored is %u", outcome.stored);

    context("chip on, only 202h and 206h differ");
    start_on(&world, LP586X_LP5860);
    must_set(&world, REGISTER, 0x202, 0x11, 0);
    must_set(&world, REGISTER, 0x206, 0x22, 0);
    outcome = world_list(&world, UPDATE, LP586X_UPDATE_SIZE);
    EXPECT_LIST(&outcome, 0x02, 0x00, 0x06, 0x00, 0x03, 0x00, 0x03, 0x00, 0x84, 0x02, 0x11, 0x84, 0x06, 0x22);
    check(outcome.stored == 2, "stored is %u", outcome.stored);
}

static void places_of_dots(void)
{
    struct world world, old;

    context("line 4, sink 1: 16 bits at 292h, 293h");
    world_open(&world, LP586X_LP5860, LP586X_I2C, 0);
    old = world;
    must_set(&world, LAMP, 4, 1, 0x1234);
    expect_changed(&world, &old, (const uint32_t[]){0x292, 0x293}, 2);
    check(world.record[SETTINGS + 0x292] == 0x34 && world.record[SETTINGS + 0x293] == 0x12, "low byte first");

    context("line 8, sink 2: 8 bits at 292h");
    must_set(&world, REGISTER, 0x001, 0x5A, 0);
    old = world;
    must_set(&world, LAMP, 8, 2, 0x56);
    expect_changed(&world, &old, (const uint32_t[]){0x292}, 1);
}

static void lp5867_columns(void)
{
    struct world world, old;

    context("LP5867 line 2, sink 8: current at 12Ch");
    world_open(&world, LP586X_LP5867, LP586X_I2C, 0);
    old = world;
    must_set(&world, REGISTER, 0x12C, 0x01, 0);
    expect_changed(&world, &old, (const uint32_t[]){0x12C}, 1);
    check(world_set(&world, REGISTER, 0x12B, 0x80, 0) == 4, "12Bh is for sink 7");
    check(world_set(&world, REGISTER, 0x126, 0x80, 0) == 4, "126h is for sink 2");
    check(world_set(&world, LAMP, 2, 2, 1) == 6, "sink 2");
    check(world_set(&world, LAMP, 2, 5, 1) == 6, "sinks are not numbered 0 to 5");

    context("226h of the LP5867 is writable, 228h a hole");
    check(world_set(&world, REGISTER, 0x226, 1, 0) == 0, "226h");
    check(world_set(&world, REGISTER, 0x228, 0, 0) == 4, "228h");
}

static void levels_by_mode(void)
{
    struct world world;

    context("levels by data mode");
    world_open(&world, LP586X_LP5860, LP586X_I2C, 0);
    check(world_set(&world, LAMP, 0, 0, 65535) == 0, "65,535 in mode 3");
    check(world_set(&world, LAMP, 0, 0, 65536) == 7, "65,536 in mode 3");
    must_set(&world, REGISTER, 0x001, 0x5A, 0);
    check(world_set(&world, LAMP, 0, 0, 255) == 0, "255 in mode 1");
    check(world_set(&world, LAMP, 0, 0, 256) == 7, "256 in mode 1");
}

static void commands(void)
{
    struct world world;
    struct outcome outcome;

    context("the fixed bytes of Reset and Clear");
    for (uint32_t pins = 0; pins < 4; pins++) {
        uint8_t head = (uint8_t)(0x80 + 8 * pins);

        world_open(&world, LP586X_LP5864, LP586X_I2C, pins);
        outcome = world_list(&world, RESET, 9);
        EXPECT_LIST(&outcome, 1, 0, 3, 0, 3, 0, head, 0xA9, 0xFF);
        outcome = world_list(&world, CLEAR, 10);
        EXPECT_LIST(&outcome, 1, 0, 4, 0, 4, 0, head, 0xA7, 0x0F, 0x0F);
    }
    world_open(&world, LP586X_LP5864, LP586X_SPI, 0);
    outcome = world_list(&world, RESET, 20);
    EXPECT_LIST(&outcome, 1, 0, 3, 0, 3, 0, 0x2A, 0x60, 0xFF);
    outcome = world_list(&world, CLEAR, 20);
    EXPECT_LIST(&outcome, 1, 0, 4, 0, 4, 0, 0x29, 0xE0, 0x0F, 0x0F);
}

/* "Settings off, chip on: one write of 00h to 000h. Both off: nothing. Other settings wait." */
static void chip_off(void)
{
    struct world world;
    struct outcome outcome;

    context("settings off");
    world_open(&world, LP586X_LP5860, LP586X_I2C, 2);
    must_set(&world, LAMP, 0, 0, 7);
    outcome = world_list(&world, UPDATE, 4);
    EXPECT_LIST(&outcome, 0, 0, 0, 0);
    must_set(&world, REGISTER, 0x000, 0x01, 0);
    world_sync(&world);
    must_set(&world, REGISTER, 0x000, 0x00, 0);
    must_set(&world, LAMP, 0, 0, 8);
    outcome = world_list(&world, UPDATE, 9);
    EXPECT_LIST(&outcome, 1, 0, 3, 0, 3, 0, 0x90, 0x00, 0x00);
    check(outcome.stored == 1, "stored is %u", outcome.stored);
    must_set(&world, REGISTER, 0x000, 0x01, 0);
    outcome = world_list(&world, UPDATE, 14);
    EXPECT_LIST(&outcome, 2, 0, 6, 0, 3, 0, 3, 0, 0x90, 0x00, 0x01, 0x94, 0x00, 0x08);
}

static void settings_survive(void)
{
    struct world world, old;
    struct outcome outcome;

    context("the settings are kept at a reset and a power loss");
    start_on(&world, LP586X_LP5860);
    must_set(&world, LAMP, 10, 17, 9);
    world_sync(&world);
    old = world;
    world_list(&world, RESET, 9);
    expect_changed(&world, &old, NULL, 0);
    outcome = world_list(&world, UPDATE, LP586X_UPDATE_SIZE);
    EXPECT_LIST(&outcome, 3, 0, 9, 0, 3, 0, 3, 0, 3, 0, 0x80, 0x00, 0x01, 0x80, 0x01, 0x58, 0x84, 0xC5, 0x09);
    must_set(&world, POWER_LOST, 0, 0, 0);
    expect_changed(&world, &old, NULL, 0);
    outcome = world_list(&world, UPDATE, LP586X_UPDATE_SIZE);
    check(outcome.n == 3 && outcome.t == 9, "n is %u, t is %u", outcome.n, outcome.t);
}

/* A power loss between two updates: the second sends what the chip has lost, and the settings made meanwhile. */
static void power_dip(uint32_t member, uint32_t bus)
{
    struct world world;
    struct outcome outcome;

    world_open(&world, member, bus, 0);
    must_set(&world, REGISTER, 0x000, 0x01, 0);
    must_set(&world, REGISTER, 0x001, 0x58, 0);
    must_set(&world, GROUP, 0, 1, 2);
    must_set(&world, LAMP, 0, 0, 7);
    world_sync(&world);
    must_set(&world, SWITCH, 0, 0, 0);
    must_set(&world, LAMP, 0, 1, 8);
    must_set(&world, POWER_LOST, 0, 0, 0);
    check(world_chip_power_lost(&world) == 0, "the chip's power loss is refused");
    outcome = world_sync(&world);
    check(outcome.n == 5 && outcome.t == 16, "member %u: n is %u, t is %u", member, outcome.n, outcome.t);
    check(memcmp(world.chip + CHIP_REGISTERS, world.record + SETTINGS, LP586X_REGISTERS) == 0,
          "member %u: the chip does not hold the settings", member);
    check(world_sync(&world).n == 0, "member %u: something is sent twice", member);
}

static void power_dips(void)
{
    context("a power loss between two updates");
    for (uint32_t member = LP586X_LP5860; member <= LP586X_LP5868T; member++) {
        power_dip(member, LP586X_I2C);
        power_dip(member, LP586X_SPI);
    }
}

/* The hole 00Dh lies between two writable group bytes of the LP5867, 1C6h-1FFh between two stretches of the LP5860. */
static void holes_are_not_sent(void)
{
    struct world world;
    struct outcome outcome;

    context("no write goes over a hole");
    start_on(&world, LP586X_LP5867);
    must_set(&world, GROUP, 0, 0, 1);
    must_set(&world, GROUP, 0, 8, 1);
    outcome = world_list(&world, UPDATE, LP586X_UPDATE_SIZE);
    EXPECT_LIST(&outcome, 2, 0, 6, 0, 3, 0, 3, 0, 0x80, 0x0C, 0x01, 0x80, 0x0E, 0x01);
    start_on(&world, LP586X_LP5860);
    must_set(&world, REGISTER, 0x1C5, 1, 0);
    must_set(&world, REGISTER, 0x200, 2, 0);
    outcome = world_list(&world, UPDATE, LP586X_UPDATE_SIZE);
    EXPECT_LIST(&outcome, 2, 0, 6, 0, 3, 0, 3, 0, 0x82, 0xC5, 0x01, 0x84, 0x00, 0x02);
}

/* A value for each register that is not its reset value. */
static void change_all(struct world *world, uint32_t member)
{
    world_open(world, member, LP586X_I2C, 0);
    for (uint32_t address = 0; address < LP586X_REGISTERS; address++)
        for (uint32_t bit = 0; bit < 8; bit++)
            if (world_set(world, REGISTER, address, world->record[IMAGE + address] ^ 1u << bit, 0) == 0)
                break;
}

static uint32_t writable_registers(uint32_t member)
{
    uint32_t count = 0;

    for (uint32_t address = 0; address < LP586X_REGISTERS; address++)
        count += (uint32_t)reference_writable(member, address);
    return count;
}

/* All writable registers, each stored once. */
static void largest_updates(void)
{
    static const uint32_t largest[] = {702, 84, 270, 302, 518};
    struct world world;
    struct outcome outcome;

    context("t is never above 702");
    for (uint32_t member = LP586X_LP5860; member <= LP586X_LP5868T; member++) {
        change_all(&world, member);
        outcome = world_sync(&world);
        check(outcome.t == largest[member], "member %u: t is %u", member, outcome.t);
        check(outcome.stored == writable_registers(member), "member %u: stored is %u", member, outcome.stored);
    }
}

/* Every fourth address of a stretch differs, and all behind the last of these: the longest list, 885 bytes. */
static void differ_by_fours(struct world *world, uint32_t from, uint32_t to)
{
    for (uint32_t address = from; address <= to; address++)
        if ((address - from) % 4 == 0 || address > to - (to - from) % 4)
            must_set(world, REGISTER, address, world->record[IMAGE + address] ^ 1, 0);
}

static void longest_list(void)
{
    struct world world;
    struct outcome outcome;

    context("the longest list");
    world_open(&world, LP586X_LP5860, LP586X_I2C, 0);
    must_set(&world, REGISTER, 0x000, 0x01, 0);
    differ_by_fours(&world, 0x001, 0x063);
    differ_by_fours(&world, 0x100, 0x1C5);
    differ_by_fours(&world, 0x200, 0x38B);
    outcome = world_list(&world, UPDATE, 884);
    check(outcome.answer == 10 && outcome.needed == 885, "answer %u, needed %u", outcome.answer, outcome.needed);
    outcome = world_list(&world, UPDATE, 885);
    check(outcome.answer == 0 && outcome.n == 175 && outcome.t == 531, "n is %u, t is %u", outcome.n, outcome.t);
    check(outcome.stored == 181, "stored is %u", outcome.stored);
}

void group_examples(void)
{
    group("bench examples");
    reset_value_of_001h();
    first_updates();
    joined_writes();
    places_of_dots();
    lp5867_columns();
    levels_by_mode();
    commands();
    chip_off();
    settings_survive();
    power_dips();
    holes_are_not_sent();
    largest_updates();
    longest_list();
    group_done("");
}
