#include "world.h"

#include <string.h>

#include "check.h"
#include "random.h"
#include "reference.h"

int is_trim(uint32_t address)
{
    return address == 0x003 || address == 0x004;
}

struct call record_call(const struct world *world, enum kind kind, uint32_t first, uint32_t second, uint32_t third)
{
    return (struct call){
        .kind = kind, .numbers = {first, second, third}, .state = world->record, .state_size = sizeof world->record};
}

struct call list_call_of(const struct world *world, enum kind kind, size_t buffer_size)
{
    struct call call = record_call(world, kind, 0, 0, 0);

    call.buffer_size = buffer_size;
    return call;
}

static struct call with_input(struct call call, const uint8_t *input, size_t input_size)
{
    call.input = input;
    call.input_size = input_size;
    return call;
}

struct call scene_call(const struct world *world, const uint8_t *scene, size_t scene_size)
{
    return with_input(record_call(world, SCENE, 0, 0, 0), scene, scene_size);
}

static struct call chip_call(const struct world *world, enum kind kind)
{
    return (struct call){.kind = kind, .state = world->chip, .state_size = sizeof world->chip};
}

struct call feed_call(const struct world *world, const uint8_t *list, size_t list_size)
{
    return with_input(chip_call(world, FEED), list, list_size);
}

struct call transaction_call(const uint8_t *list, size_t list_size, uint32_t index)
{
    return (struct call){.kind = TRANSACTION, .numbers = {index}, .input = list, .input_size = list_size};
}

struct call faults_call(const struct world *world, const uint8_t *bytes, size_t bytes_size, size_t result_size)
{
    return with_input(list_call_of(world, FAULTS, result_size), bytes, bytes_size);
}

static struct outcome keep_record(struct world *world, struct call call)
{
    struct outcome outcome = both(&call);

    memcpy(world->record, outcome.state, sizeof world->record);
    return outcome;
}

static uint32_t keep_chip(struct world *world, struct call call)
{
    struct outcome outcome = both(&call);

    memcpy(world->chip, outcome.state, sizeof world->chip);
    return outcome.answer;
}

void world_open(struct world *world, uint32_t member, uint32_t bus, uint32_t pins)
{
    struct call chip = chip_call(world, CHIP_AT_RESET);

    memset(world, 0xEE, sizeof *world);
    check(world_set(world, OPEN, member, bus, pins) == 0, "open (%u, %u, %u) is refused", member, bus, pins);
    memcpy(chip.numbers, (uint32_t[3]){member, bus, pins}, sizeof chip.numbers);
    check(keep_chip(world, chip) == 0, "chip_at_reset (%u, %u, %u) is refused", member, bus, pins);
}

void world_mode(struct world *world, uint32_t mode)
{
    check(world_set(world, REGISTER, 0x001, 0x58 | mode << 1, 0) == 0, "data mode %u is refused", mode);
}

void world_lamps(struct world *world, uint32_t level)
{
    for (uint32_t dot = 0; dot < LP586X_DOTS; dot++)
        if (reference_dot(world->record[0], dot / 18, dot % 18))
            check(world_set(world, LAMP, dot / 18, dot % 18, level) == 0, "dot %u: level %u is refused", dot, level);
}

void world_lit(struct world *world, uint32_t member, uint32_t mode, uint32_t level)
{
    world_open(world, member, LP586X_I2C, 0);
    check(world_set(world, REGISTER, 0x000, 0x01, 0) == 0, "chip enable is refused");
    world_mode(world, mode);
    world_lamps(world, level);
    world_sync(world);
}

uint32_t world_set(struct world *world, enum kind kind, uint32_t first, uint32_t second, uint32_t third)
{
    return keep_record(world, record_call(world, kind, first, second, third)).answer;
}

uint32_t world_scene(struct world *world, const uint8_t *scene, size_t scene_size)
{
    return keep_record(world, scene_call(world, scene, scene_size)).answer;
}

struct outcome world_list(struct world *world, enum kind kind, size_t buffer_size)
{
    return keep_record(world, list_call_of(world, kind, buffer_size));
}

uint32_t world_feed(struct world *world, const uint8_t *list, size_t list_size)
{
    return keep_chip(world, feed_call(world, list, list_size));
}

uint32_t world_chip_power_lost(struct world *world)
{
    return keep_chip(world, chip_call(world, CHIP_POWER_LOST));
}

void world_any_faults(struct world *world)
{
    for (uint32_t i = 0; i < LP586X_FAULT_BYTES; i++)
        world->chip[CHIP_REGISTERS + 0x064 + i] = (uint8_t)random_bits();
}

void scatter(uint32_t member, uint8_t *image, uint32_t times)
{
    for (uint32_t address = 0; address < LP586X_REGISTERS; address++)
        if (one_in(times)) {
            uint8_t reserved = reference_reserved(member, address);

            image[address] = (uint8_t)((image[address] & reserved) | (random_bits() & ~reserved));
        }
}

struct outcome world_sync(struct world *world)
{
    static uint8_t list[LP586X_UPDATE_SIZE];
    struct outcome update = world_list(world, UPDATE, sizeof list);

    check(update.answer == 0, "an update with a buffer of %zu bytes is refused with %u", sizeof list, update.answer);
    if (update.answer != 0)
        return update;
    memcpy(list, update.buffer, sizeof list);
    update.buffer = list;
    check(world_feed(world, list, 4 + 2 * update.n + update.t) == 0, "the chip refuses an update's list");
    return update;
}

/* 08h and 4Bh have the reserved bits of every member at their reset values. */
void world_locked(struct world *world, uint32_t member, uint32_t bus, uint32_t pins)
{
    world_open(world, member, bus, pins);
    check(world_set(world, REGISTER, 0x000, 0x01, 0) == 0, "chip enable is refused");
    check(world_set(world, REGISTER, 0x003, 0x08, 0) == 0, "003h is refused");
    check(world_set(world, REGISTER, 0x004, 0x4B, 0) == 0, "004h is refused");
    world_sync(world);
    check(world_set(world, LOCK, 0, 0, 0) == 0, "locking is refused");
}

void trims_from_image(uint8_t *record)
{
    memcpy(record + SETTINGS + 0x003, record + IMAGE + 0x003, 2);
}
