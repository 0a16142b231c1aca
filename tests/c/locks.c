/* Document 02's lock over 003h and 004h: lists by hand, every cue around the two beside the same cue of a free record, what releases a
 * lock and what does not. */
#include <string.h>

#include "check.h"
#include "fewest.h"
#include "groups.h"
#include "reference.h"
#include "world.h"

enum { MEMBERS = 5, TRIM_3 = 0x08, TRIM_4 = 0x4B, TOP_CUE = 0x008 };

static void must_set(struct world *world, enum kind kind, uint32_t first, uint32_t second, uint32_t third)
{
    uint32_t answer = world_set(world, kind, first, second, third);

    check(answer == 0, "setting %d (%X, %X, %X) is refused with %u", kind, first, second, third, answer);
}

static void expect_list(struct world *world, const uint8_t *list, size_t size)
{
    struct outcome outcome = world_list(world, UPDATE, size);

    check(outcome.answer == 0, "an update is refused with %u", outcome.answer);
    check(outcome.answer == 0 && memcmp(outcome.buffer, list, size) == 0, "another list");
}

#define EXPECT_LIST(world, ...) expect_list(world, (const uint8_t[]){__VA_ARGS__}, sizeof(const uint8_t[]){__VA_ARGS__})

/* What the record and the chip have at 003h and 004h is what they were trimmed to, and the marks are these. */
static void expect_trimmed(const struct world *world, uint8_t marks)
{
    static const uint8_t trim[] = {TRIM_3, TRIM_4};

    check(world->record[MARKS] == marks, "marks are %u", world->record[MARKS]);
    check(memcmp(world->record + SETTINGS + 0x003, trim, 2) == 0, "other settings");
    check(memcmp(world->record + IMAGE + 0x003, trim, 2) == 0, "another image");
    check(memcmp(world->chip + CHIP_REGISTERS + 0x003, trim, 2) == 0, "another chip");
}

/* ---- Lists by hand */

/* The bridge over 003h and 004h costs as many bytes as a second head. */
static void bridge(uint32_t bus)
{
    struct world locked, unlocked;

    context("only 002h and 005h differ");
    world_locked(&locked, LP586X_LP5860, bus, 0);
    must_set(&locked, REGISTER, 0x002, 0x01, 0);
    must_set(&locked, REGISTER, 0x005, 0x80, 0);
    unlocked = locked;
    unlocked.record[MARKS] = FREE;
    if (bus == LP586X_I2C) {
        EXPECT_LIST(&unlocked, 1, 0, 6, 0, 6, 0, 0x80, 0x02, 0x01, TRIM_3, TRIM_4, 0x80);
        EXPECT_LIST(&locked, 2, 0, 6, 0, 3, 0, 3, 0, 0x80, 0x02, 0x01, 0x80, 0x05, 0x80);
    } else {
        EXPECT_LIST(&unlocked, 1, 0, 6, 0, 6, 0, 0x00, 0xA0, 0x01, TRIM_3, TRIM_4, 0x80);
        EXPECT_LIST(&locked, 2, 0, 6, 0, 3, 0, 3, 0, 0x00, 0xA0, 0x01, 0x01, 0x60, 0x80);
    }
    expect_trimmed(&locked, LOCKED);
}

/* Bridges elsewhere are as before. */
static void other_bridges(void)
{
    struct world world;

    context("bridges that a lock has nothing to do with");
    world_locked(&world, LP586X_LP5860, LP586X_I2C, 2);
    must_set(&world, REGISTER, 0x001, 0x58, 0);
    must_set(&world, REGISTER, 0x005, 0x80, 0);
    must_set(&world, REGISTER, 0x008, 0x70, 0);
    must_set(&world, REGISTER, 0x202, 0x11, 0);
    must_set(&world, REGISTER, 0x205, 0x22, 0);
    EXPECT_LIST(&world, 3, 0, 15, 0, 3, 0, 6, 0, 6, 0, 0x90, 0x01, 0x58, 0x90, 0x05, 0x80, 0xFF, 0xFF, 0x70, 0x94, 0x02, 0x11, 0x00,
                0x00, 0x22);
}

/* Every fourth address of a stretch differs, and all behind the last of these. */
static void differ_by_fours(struct world *world, uint32_t from, uint32_t to)
{
    for (uint32_t address = from; address <= to; address++)
        if ((address - from) % 4 == 0 || address > to - (to - from) % 4)
            must_set(world, REGISTER, address, world->record[IMAGE + address] ^ 1, 0);
}

/* As many bytes as a list of a locked record can have, one more than of a free one: 001h and 002h, and then by fours from 005h on. */
static void longest_list(void)
{
    struct world world;
    struct outcome outcome;

    context("the longest list of a locked record");
    world_locked(&world, LP586X_LP5860, LP586X_I2C, 0);
    must_set(&world, REGISTER, 0x000, 0x00, 0);
    world_sync(&world);
    must_set(&world, REGISTER, 0x000, 0x01, 0);
    differ_by_fours(&world, 0x001, 0x002);
    differ_by_fours(&world, 0x005, 0x063);
    differ_by_fours(&world, 0x100, 0x1C5);
    differ_by_fours(&world, 0x200, 0x38B);
    outcome = world_list(&world, UPDATE, 885);
    check(outcome.answer == 10 && outcome.needed == 886, "answer %u, needed %u", outcome.answer, outcome.needed);
    outcome = world_list(&world, UPDATE, 886);
    check(outcome.answer == 0 && outcome.n == 175 && outcome.t == 532, "n is %u, t is %u", outcome.n, outcome.t);
}

/* ---- Every cue from 001h to 008h */

/* The registers of the bits change, bit 0 for 001h; 003h and 004h do not. */
static void cue(struct world *world, uint32_t bits)
{
    for (uint32_t address = 0x001; address <= TOP_CUE; address++)
        if (bits >> (address - 1) & 1)
            world->record[SETTINGS + address] ^= 0x04;
}

/* Locked as few bytes as can be, and the chip holds the settings; unlocked as many bytes and at most one write fewer. */
static void beside_unlocked(const struct world *start, uint32_t bits)
{
    const int across = (bits & 0x12) == 0x12; /* 002h and 005h */
    struct world locked = *start, unlocked = *start;
    struct outcome outcome, other;
    struct cost cost;

    cue(&locked, bits);
    cue(&unlocked, bits);
    unlocked.record[MARKS] = FREE;
    cost = fewest(start->record[0], 1, locked.record + SETTINGS, locked.record + IMAGE);
    outcome = world_sync(&locked);
    other = world_sync(&unlocked);
    check(outcome.n == cost.writes && outcome.t == cost.bytes, "cue %02X: n is %u, t is %u", bits, outcome.n, outcome.t);
    check(outcome.t == other.t && outcome.n == other.n + across, "cue %02X: n is %u, t is %u, unlocked %u and %u", bits, outcome.n,
          outcome.t, other.n, other.t);
    expect_trimmed(&locked, LOCKED);
    check(memcmp(locked.chip + CHIP_REGISTERS, locked.record + SETTINGS, LP586X_REGISTERS) == 0,
          "cue %02X: the chip does not hold the settings", bits);
    check(memcmp(locked.chip, unlocked.chip, sizeof locked.chip) == 0, "cue %02X: another chip than unlocked", bits);
}

static void every_cue(uint32_t member, uint32_t bus)
{
    struct world start;

    context("every cue around 003h and 004h");
    world_locked(&start, member, bus, 0);
    for (uint32_t bits = 0; bits < 1u << TOP_CUE; bits++)
        if ((bits & 0x0C) == 0)
            beside_unlocked(&start, bits);
}

/* ---- Releases */

static void expect_held(struct world *world)
{
    check(world_set(world, REGISTER, 0x003, 0x04, 0) == LP586X_LOCKED, "003h is not locked");
    check(world_set(world, REGISTER, 0x004, 0x45, 0) == LP586X_LOCKED, "004h is not locked");
    check(world_set(world, LOCK, 0, 0, 0) == LP586X_NOT_LOCKABLE, "a locked record is locked");
}

/* Both registers are sent again, are locked again, and before that may be changed. */
static void expect_released(struct world *world)
{
    check(world->record[MARKS] == FREE, "marks are %u", world->record[MARKS]);
    check(world_set(world, LOCK, 0, 0, 0) == LP586X_NOT_LOCKABLE, "a chip that is off is locked");
    must_set(world, REGISTER, 0x003, 0x04, 0);
    must_set(world, REGISTER, 0x003, TRIM_3, 0);
    world_sync(world);
    expect_trimmed(world, FREE);
    must_set(world, REGISTER, 0x004, 0x45, 0);
    check(world_set(world, LOCK, 0, 0, 0) == LP586X_NOT_LOCKABLE, "a record that differs at 004h is locked");
    must_set(world, REGISTER, 0x004, TRIM_4, 0);
    must_set(world, LOCK, 0, 0, 0);
    expect_trimmed(world, LOCKED);
    expect_held(world);
}

static void by_reset(uint32_t member, uint32_t bus)
{
    uint8_t list[LP586X_COMMAND_SIZE];
    struct world world;
    struct outcome outcome;

    context("a reset releases, a refused one does not");
    world_locked(&world, member, bus, 0);
    for (size_t size = 0; size < sizeof list; size++)
        check(world_list(&world, RESET, size).answer == 10, "a reset with %zu bytes is not refused", size);
    expect_trimmed(&world, LOCKED);
    expect_held(&world);
    outcome = world_list(&world, RESET, sizeof list);
    check(outcome.answer == 0, "a reset is refused with %u", outcome.answer);
    memcpy(list, outcome.buffer, sizeof list);
    check(world_feed(&world, list, sizeof list) == 0, "the chip refuses a reset");
    expect_released(&world);
}

static void by_power_loss(uint32_t member, uint32_t bus)
{
    struct world world;

    context("a power loss releases");
    world_locked(&world, member, bus, 0);
    must_set(&world, POWER_LOST, 0, 0, 0);
    check(world_chip_power_lost(&world) == 0, "the chip's power loss is refused");
    expect_released(&world);
}

static void by_open(uint32_t member, uint32_t bus)
{
    struct world world;

    context("a new record is not locked");
    world_locked(&world, member, bus, 0);
    must_set(&world, OPEN, member, bus, 0);
    check(world.record[MARKS] == FREE, "marks are %u", world.record[MARKS]);
    must_set(&world, REGISTER, 0x003, 0x04, 0);
}

/* Every other call, and a chip that is turned off and on. */
static void by_nothing_else(uint32_t member, uint32_t bus)
{
    static const uint8_t scene[] = {1, 0, 0, 7, 0}, faults[LP586X_FAULT_BYTES];
    struct call reading;
    struct world world;

    context("no other call releases");
    world_locked(&world, member, bus, 0);
    must_set(&world, REGISTER, 0x002, 0x04, 0);
    must_set(&world, LAMP, 0, 0, 9);
    must_set(&world, GROUP, 0, 1, 2);
    must_set(&world, SWITCH, 0, 0, 0);
    check(world_scene(&world, scene, sizeof scene) == 0, "a scene is refused");
    check(world_list(&world, UPDATE, 4).answer == 10, "a short update is not refused");
    check(world_list(&world, CLEAR, LP586X_CLEAR_SIZE).answer == 0, "a clear is refused");
    reading = faults_call(&world, faults, sizeof faults, LP586X_DOTS);
    check(both(&reading).answer == 0, "fault reading is refused");
    world_sync(&world);
    expect_trimmed(&world, LOCKED);
    must_set(&world, REGISTER, 0x000, 0x00, 0);
    world_sync(&world);
    expect_held(&world);
    must_set(&world, REGISTER, 0x000, 0x01, 0);
    world_sync(&world);
    expect_trimmed(&world, LOCKED);
    expect_held(&world);
}

void group_locks(void)
{
    group("locks");
    bridge(LP586X_I2C);
    bridge(LP586X_SPI);
    other_bridges();
    longest_list();
    for (uint32_t member = 0; member < MEMBERS; member++)
        for (uint32_t bus = LP586X_I2C; bus <= LP586X_SPI; bus++) {
            every_cue(member, bus);
            by_reset(member, bus);
            by_power_loss(member, bus);
            by_open(member, bus);
            by_nothing_else(member, bus);
        }
    group_done("");
}
