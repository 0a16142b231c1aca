/* The whole register map, one address and one dot at a time: what Register takes, what is sound, where a dot's bits lie, what an
 * update sends for one changed register on each bus. */
#include <string.h>

#include "check.h"
#include "groups.h"
#include "reference.h"
#include "world.h"

enum { MEMBERS = 5 };

/* Register at each address, with each single bit changed from the reset value, and at addresses behind the map. */
void group_registers(void)
{
    group("every register");
    for (uint32_t member = 0; member < MEMBERS; member++) {
        struct world world;

        world_open(&world, member, 0, 0);
        for (uint32_t address = 0; address < 0x410; address++) {
            uint32_t reset = address < LP586X_REGISTERS ? world.record[SETTINGS + address] : 0;

            for (uint32_t change = 1; change <= 0x100; change <<= 1) {
                struct call call = record_call(&world, REGISTER, address, reset ^ change, 0);

                both(&call);
            }
        }
    }
    group_done("");
}

/* One bit at a time is changed in a record or a chip, and the call must refuse it with 14 exactly where the bit is reserved, or where the
 * record is locked and the bit stands at 003h or 004h. */
static void flip_each_bit(struct call call, uint32_t member, size_t registers, int faults_are_free)
{
    static uint8_t state[LP586X_RECORD_SIZE];
    int locked = call.state_size == LP586X_RECORD_SIZE && call.state[MARKS] == LOCKED;

    memcpy(state, call.state, call.state_size);
    call.state = state;
    for (uint32_t address = 0; address < LP586X_REGISTERS; address++) {
        int free = faults_are_free && address >= 0x064 && address <= 0x0A6, held = locked && is_trim(address);

        for (uint32_t bit = 0; bit < 8; bit++) {
            int reserved = reference_reserved(member, address) >> bit & 1;

            state[registers + address] ^= (uint8_t)(1 << bit);
            check(both(&call).answer == ((reserved && !free) || held ? 14 : 0), "member %u, %03X, bit %u", member, address, bit);
            state[registers + address] ^= (uint8_t)(1 << bit);
        }
    }
}

void group_soundness(void)
{
    static const uint8_t nothing[LP586X_FAULT_BYTES];

    group("soundness, bit by bit");
    for (uint32_t member = 0; member < MEMBERS; member++) {
        struct world world;
        struct call faults = faults_call(&world, nothing, sizeof nothing, LP586X_DOTS);

        world_open(&world, member, 0, 0);
        flip_each_bit(faults, member, SETTINGS, 0);
        flip_each_bit(faults, member, IMAGE, 0);
        flip_each_bit(record_call(&world, GROUP, 0, 0, 0), member, SETTINGS, 0);
        flip_each_bit(record_call(&world, POWER_LOST, 0, 0, 0), member, IMAGE, 0);
        flip_each_bit(feed_call(&world, nothing, 4), member, CHIP_REGISTERS, 1);
        world_locked(&world, member, 1, 0);
        flip_each_bit(faults, member, SETTINGS, 0);
        flip_each_bit(faults, member, IMAGE, 0);
        flip_each_bit(record_call(&world, GROUP, 0, 0, 0), member, IMAGE, 0);
        flip_each_bit(record_call(&world, POWER_LOST, 0, 0, 0), member, SETTINGS, 0);
    }
    group_done("");
}

/* Every line and sink, two of each past the last, in each data mode. */
static void each_dot(struct world *world)
{
    static const uint32_t levels[] = {0, 1, 255, 256, 0x1234, 65535, 65536};

    for (uint32_t line = 0; line < 13; line++) {
        for (uint32_t sink = 0; sink < 20; sink++) {
            for (int i = 0; i < 7; i++)
                both(&(struct call){.kind = LAMP,
                                    .numbers = {line, sink, levels[i]},
                                    .state = world->record,
                                    .state_size = sizeof world->record});
            for (uint32_t value = 0; value < 5; value++) {
                struct call group_of = record_call(world, GROUP, line, sink, value);
                struct call switch_of = record_call(world, SWITCH, line, sink, value);

                both(&group_of);
                both(&switch_of);
            }
        }
    }
}

/* Bits of the neighbours that are 1, so that a call that clears them shows. */
static void groups_of_three(struct world *world)
{
    for (uint32_t line = 0; line < 11; line++)
        for (uint32_t sink = 0; sink < 18; sink++)
            world_set(world, GROUP, line, sink, 3);
}

void group_dots(void)
{
    group("every dot");
    for (uint32_t member = 0; member < MEMBERS; member++) {
        struct world world;

        world_open(&world, member, 0, 0);
        for (uint32_t mode = 0; mode < 4; mode++) {
            world_mode(&world, mode);
            if (mode == 2)
                groups_of_three(&world);
            each_dot(&world);
        }
    }
    group_done("");
}

/* One changed register, for each bus, pins and address: a list of one write that the chip takes. */
static void one_write(uint32_t member, uint32_t bus, uint32_t pins)
{
    struct world world;

    world_open(&world, member, bus, pins);
    world_set(&world, REGISTER, 0x000, 0x01, 0);
    world_sync(&world);
    for (uint32_t address = 0x001; address < LP586X_REGISTERS; address++) {
        uint8_t free = (uint8_t)~reference_reserved(member, address);
        uint8_t value = world.record[SETTINGS + address] ^ free;
        struct outcome outcome;

        if (!reference_writable(member, address))
            continue;
        check(world_set(&world, REGISTER, address, value, 0) == 0, "register %03X", address);
        outcome = world_sync(&world);
        check(outcome.n == 1 && outcome.t == 3, "%03X: n is %u, t is %u", address, outcome.n, outcome.t);
        check(world.chip[CHIP_REGISTERS + address] == value, "the chip has %02X at %03X",
              world.chip[CHIP_REGISTERS + address], address);
    }
}

void group_heads(void)
{
    group("every head");
    for (uint32_t member = 0; member < MEMBERS; member++) {
        for (uint32_t pins = 0; pins < 4; pins++)
            one_write(member, 0, pins);
        one_write(member, 1, 0);
    }
    group_done("");
}
