/* Every refusal of every call, in the order of the papers: an input that breaks two conditions gets the earlier number. */
#include <string.h>

#include "check.h"
#include "groups.h"
#include "panels.h"
#include "reference.h"
#include "world.h"

#define HUGE_NUMBER 0xFFFFFFFFu

static struct outcome expect(uint32_t number, struct call call)
{
    struct outcome outcome = both(&call);

    check(outcome.answer == number, "%s: answers %u, not %u", call_text(&call), outcome.answer, number);
    return outcome;
}

/* A copy of the record, the records or the chip with another byte at one place. */
static struct call with_byte(struct call call, size_t at, uint8_t byte)
{
    static uint8_t state[LP586X_RECORDS_SIZE];

    memcpy(state, call.state, call.state_size);
    state[at] = byte;
    call.state = state;
    return call;
}

/* A record or chip that is not sound: the first byte says a member that does not exist. */
static struct call unsound(struct call call)
{
    return with_byte(call, 0, 5);
}

static struct call sized(struct call call, size_t size)
{
    static uint8_t state[1 << 17];

    memset(state, 0, sizeof state);
    memcpy(state, call.state, call.state_size);
    call.state = state;
    call.state_size = size;
    return call;
}

static void expect_open(uint32_t number, enum kind kind, const struct world *world, uint32_t member, uint32_t bus, uint32_t pins)
{
    struct call call = record_call(world, kind, member, bus, pins);

    if (kind == CHIP_AT_RESET) {
        call.state = world->chip;
        call.state_size = sizeof world->chip;
    }
    expect(number, call);
    expect(LP586X_UNSOUND, sized(call, call.state_size - 1));
    expect(LP586X_UNSOUND, sized(call, call.state_size + 1));
    expect(LP586X_UNSOUND, sized(call, 0));
}

/* Open and chip_at_reset: 14 (size), 1, 2, 3. */
static void opens(enum kind kind)
{
    struct world world;

    memset(&world, 0x77, sizeof world);
    for (uint32_t member = 0; member < 5; member++) {
        for (uint32_t pins = 0; pins < 4; pins++) {
            expect_open(LP586X_OK, kind, &world, member, 0, pins);
            expect_open(pins == 0 ? LP586X_OK : LP586X_NO_PINS, kind, &world, member, 1, pins);
        }
        expect_open(LP586X_NO_PINS, kind, &world, member, 0, 4);
        expect_open(LP586X_NO_PINS, kind, &world, member, 0, HUGE_NUMBER);
        expect_open(LP586X_NO_PINS, kind, &world, member, 0, 256);
        expect_open(LP586X_NO_PINS, kind, &world, member, 1, 256);
        expect_open(LP586X_NO_BUS, kind, &world, member, 2, 0);
        expect_open(LP586X_NO_BUS, kind, &world, member, 256, 4);
        expect_open(LP586X_NO_BUS, kind, &world, member, HUGE_NUMBER, HUGE_NUMBER);
    }
    expect_open(LP586X_NO_MEMBER, kind, &world, 5, 0, 0);
    expect_open(LP586X_NO_MEMBER, kind, &world, 256, 0, 0);
    expect_open(LP586X_NO_MEMBER, kind, &world, 65536, 2, 4);
    expect_open(LP586X_NO_MEMBER, kind, &world, HUGE_NUMBER, HUGE_NUMBER, HUGE_NUMBER);
}

/* Register: 14, 4, 5. */
static void registers(const struct world *world)
{
    expect(LP586X_UNSOUND, unsound(record_call(world, REGISTER, 0x064, 256, 0)));
    expect(LP586X_UNSOUND, unsound(record_call(world, REGISTER, 0x000, 1, 0)));
    expect(LP586X_NOT_WRITABLE, record_call(world, REGISTER, 0x064, 256, 0));
    expect(LP586X_NOT_WRITABLE, record_call(world, REGISTER, 0x0A9, 0xFF, 0));
    expect(LP586X_NOT_WRITABLE, record_call(world, REGISTER, 0x38C, 0, 0));
    expect(LP586X_NOT_WRITABLE, record_call(world, REGISTER, 0x10000, 0, 0));
    expect(LP586X_NOT_WRITABLE, record_call(world, REGISTER, HUGE_NUMBER, HUGE_NUMBER, 0));
    expect(LP586X_RESERVED_BIT, record_call(world, REGISTER, 0x000, 2, 0));
    expect(LP586X_RESERVED_BIT, record_call(world, REGISTER, 0x000, 256, 0));
    expect(LP586X_RESERVED_BIT, record_call(world, REGISTER, 0x005, 256, 0));
    expect(LP586X_RESERVED_BIT, record_call(world, REGISTER, 0x005, HUGE_NUMBER, 0));
    expect(LP586X_OK, record_call(world, REGISTER, 0x005, 255, 0));
}

/* Register of a locked record: 14, 4, 17, 5. At 003h and 004h it is 17 whatever the value, one with wrong reserved bits too. */
static void locked_registers(uint32_t member)
{
    struct world world, unlocked;

    world_locked(&world, member, LP586X_I2C, 1);
    unlocked = world;
    unlocked.record[MARKS] = FREE;
    for (uint32_t address = 0x003; address <= 0x004; address++) {
        uint32_t held = world.record[SETTINGS + address], reserved = reference_reserved(member, address);

        expect(LP586X_UNSOUND, unsound(record_call(&world, REGISTER, address, held, 0)));
        expect(LP586X_OK, record_call(&unlocked, REGISTER, address, held, 0));
        expect(LP586X_LOCKED, record_call(&world, REGISTER, address, held, 0));
        for (uint32_t bit = 1; bit < 256; bit <<= 1) {
            expect(reserved & bit ? LP586X_RESERVED_BIT : LP586X_OK, record_call(&unlocked, REGISTER, address, held ^ bit, 0));
            expect(LP586X_LOCKED, record_call(&world, REGISTER, address, held ^ bit, 0));
        }
        expect(LP586X_RESERVED_BIT, record_call(&unlocked, REGISTER, address, 256, 0));
        expect(LP586X_LOCKED, record_call(&world, REGISTER, address, 256, 0));
        expect(LP586X_LOCKED, record_call(&world, REGISTER, address, HUGE_NUMBER, 0));
        expect(LP586X_NOT_WRITABLE, record_call(&world, REGISTER, 0x10000 + address, held, 0));
    }
    expect(LP586X_UNSOUND, unsound(record_call(&world, REGISTER, 0x003, 256, 0)));
    registers(&world);
    for (uint32_t address = 0; address < LP586X_REGISTERS; address++)
        if (!is_trim(address))
            expect(reference_writable(member, address) ? LP586X_OK : LP586X_NOT_WRITABLE,
                   record_call(&world, REGISTER, address, world.record[SETTINGS + address], 0));
}

/* Lock: 14, 18. */
static void locks(uint32_t member)
{
    struct world on, locked;
    struct call call = record_call(&on, LOCK, 0, 0, 0);

    world_locked(&locked, member, LP586X_I2C, 2);
    on = locked;
    on.record[MARKS] = FREE;
    expect(LP586X_OK, call);
    expect(LP586X_UNSOUND, unsound(call));
    expect(LP586X_NOT_LOCKABLE, record_call(&locked, LOCK, 0, 0, 0));
    expect(LP586X_UNSOUND, unsound(record_call(&locked, LOCK, 0, 0, 0)));
    /* The chip image is off; what the settings say of 000h is no matter. */
    expect(LP586X_NOT_LOCKABLE, with_byte(call, IMAGE, 0));
    expect(LP586X_OK, with_byte(call, SETTINGS, 0));
    locked.record[IMAGE] = 0;
    expect(LP586X_NOT_LOCKABLE, record_call(&locked, LOCK, 0, 0, 0));
    /* Bit 2 of 001h to 005h is reserved on no member. */
    for (uint32_t address = 0x001; address <= 0x005; address++) {
        const uint32_t number = is_trim(address) ? LP586X_NOT_LOCKABLE : LP586X_OK;

        expect(number, with_byte(call, SETTINGS + address, on.record[SETTINGS + address] ^ 0x04));
        expect(number, with_byte(call, IMAGE + address, on.record[IMAGE + address] ^ 0x04));
    }
    world_open(&on, member, LP586X_I2C, 2);
    expect(LP586X_NOT_LOCKABLE, call);
    check(LP586X_LOCKED == 17 && LP586X_NOT_LOCKABLE == 18, "the header has other refusals");
}

/* Every call that is lent a record and tests it, with arguments that the record as it stands would take. */
static void expect_all_unsound(const struct world *world)
{
    static const uint8_t nothing[LP586X_FAULT_BYTES];
    uint8_t records[LP586X_RECORDS_SIZE] = {0};
    const uint32_t place = world->record[2];

    expect(LP586X_UNSOUND, record_call(world, REGISTER, 0x000, 1, 0));
    expect(LP586X_UNSOUND, record_call(world, REGISTER, 0x003, world->record[SETTINGS + 0x003], 0));
    expect(LP586X_UNSOUND, record_call(world, LAMP, 0, 0, 1));
    expect(LP586X_UNSOUND, record_call(world, GROUP, 0, 0, 1));
    expect(LP586X_UNSOUND, record_call(world, SWITCH, 0, 0, 0));
    expect(LP586X_UNSOUND, scene_call(world, nothing, 2));
    expect(LP586X_UNSOUND, record_call(world, POWER_LOST, 0, 0, 0));
    expect(LP586X_UNSOUND, record_call(world, LOCK, 0, 0, 0));
    expect(LP586X_UNSOUND, list_call_of(world, UPDATE, LP586X_UPDATE_SIZE));
    expect(LP586X_UNSOUND, list_call_of(world, RESET, LP586X_COMMAND_SIZE));
    expect(LP586X_UNSOUND, list_call_of(world, CLEAR, LP586X_CLEAR_SIZE));
    expect(LP586X_UNSOUND, faults_call(world, nothing, sizeof nothing, LP586X_DOTS));
    memcpy(records + place * LP586X_RECORD_SIZE, world->record, LP586X_RECORD_SIZE);
    expect(LP586X_UNSOUND, round_call(records, 1u << place, 64, LP586X_ROUND_SIZE));
    expect(LP586X_OK, round_call(records, 0, 64, LP586X_ROUND_SIZE));
}

/* Marks of 2 to 255, and a locked record whose images differ at 003h or 004h. One that is off is sound, and so is one that differs
 * elsewhere. */
static void unsound_marks(uint32_t member)
{
    struct world world, changed;

    world_locked(&world, member, LP586X_I2C, 3);
    for (uint32_t marks = 2; marks < 256; marks++) {
        changed = world;
        changed.record[MARKS] = (uint8_t)marks;
        expect_all_unsound(&changed);
        expect(LP586X_OK, record_call(&changed, OPEN, member, LP586X_I2C, 3));
    }
    for (size_t image = SETTINGS; image <= IMAGE; image += IMAGE - SETTINGS)
        for (uint32_t address = 0x003; address <= 0x004; address++)
            for (uint32_t bit = 1; bit < 256; bit <<= 1) {
                changed = world;
                changed.record[image + address] ^= (uint8_t)bit;
                expect_all_unsound(&changed);
                changed.record[MARKS] = FREE;
                expect(reference_reserved(member, address) & bit ? LP586X_UNSOUND : LP586X_OK,
                       record_call(&changed, GROUP, 0, 0, 0));
            }
    changed = world;
    changed.record[IMAGE] = 0;
    changed.record[SETTINGS + 0x002] ^= 0x04;
    changed.record[IMAGE + 0x005] ^= 0x04;
    expect(LP586X_OK, record_call(&changed, GROUP, 0, 0, 0));
}

/* Lamp: 14, 6, 7. Group and Switch: 14, 6, 8. */
static void dots(const struct world *world, enum kind kind, uint32_t top, uint32_t last)
{
    expect(LP586X_UNSOUND, unsound(record_call(world, kind, 11, 18, HUGE_NUMBER)));
    expect(LP586X_UNSOUND, unsound(record_call(world, kind, 0, 0, 0)));
    expect(LP586X_NO_DOT, record_call(world, kind, 11, 0, HUGE_NUMBER));
    expect(LP586X_NO_DOT, record_call(world, kind, 0, 18, HUGE_NUMBER));
    expect(LP586X_NO_DOT, record_call(world, kind, HUGE_NUMBER, 0, 0));
    expect(LP586X_NO_DOT, record_call(world, kind, 0, HUGE_NUMBER, 0));
    expect(LP586X_NO_DOT, record_call(world, kind, 256, 0, 0));
    expect(LP586X_NO_DOT, record_call(world, kind, 0, 256, 0));
    /* 18 x line + sink would come out at 0. */
    expect(LP586X_NO_DOT, record_call(world, kind, 0x80000000u, 0, 0));
    expect(last, record_call(world, kind, 0, 0, top + 1));
    expect(last, record_call(world, kind, 0, 0, HUGE_NUMBER));
    expect(last, record_call(world, kind, 0, 0, 0x10000));
    expect(LP586X_OK, record_call(world, kind, 0, 0, top));
}

/* n entries of the same dot and level. */
static size_t fill_scene(uint8_t *scene, uint32_t n, uint32_t dot, uint32_t level)
{
    scene[0] = (uint8_t)n;
    scene[1] = (uint8_t)(n >> 8);
    for (uint32_t i = 0; i < n; i++) {
        scene[2 + i] = (uint8_t)dot;
        scene[2 + n + 2 * i] = (uint8_t)level;
        scene[3 + n + 2 * i] = (uint8_t)(level >> 8);
    }
    return 2 + 3 * (size_t)n;
}

/* Scene: 14, 9, 6, 7. Data mode 0. */
static void scenes(const struct world *world)
{
    static uint8_t scene[200000];
    size_t size = fill_scene(scene, 3, 198, 256);

    expect(LP586X_UNSOUND, unsound(scene_call(world, scene, 0)));
    expect(LP586X_SCENE_LENGTH, scene_call(world, scene, 0));
    expect(LP586X_SCENE_LENGTH, scene_call(world, scene, 1));
    expect(LP586X_SCENE_LENGTH, scene_call(world, scene, 2));
    expect(LP586X_SCENE_LENGTH, scene_call(world, scene, size - 1));
    expect(LP586X_SCENE_LENGTH, scene_call(world, scene, size + 1));
    expect(LP586X_SCENE_LENGTH, scene_call(world, scene, 4));
    expect(LP586X_NO_DOT, scene_call(world, scene, size));
    fill_scene(scene, 3, 0, 256);
    expect(LP586X_LEVEL_TOO_HIGH, scene_call(world, scene, size));
    scene[4] = 198; /* the last dot, behind a level that is too high */
    expect(LP586X_NO_DOT, scene_call(world, scene, size));
    fill_scene(scene, 3, 0, 255);
    scene[2 + 3 + 5] = 1; /* the last level */
    expect(LP586X_LEVEL_TOO_HIGH, scene_call(world, scene, size));
    fill_scene(scene, 3, 197, 255);
    expect(LP586X_OK, scene_call(world, scene, size));
    expect(LP586X_OK, scene_call(world, scene, fill_scene(scene, 0, 0, 0)));
    expect(LP586X_SCENE_LENGTH, scene_call(world, scene, 3));
    expect(LP586X_OK, scene_call(world, scene, fill_scene(scene, 65535, 1, 254)));
    expect(LP586X_SCENE_LENGTH, scene_call(world, scene, 196606));
    expect(LP586X_SCENE_LENGTH, scene_call(world, scene, 196608));
    expect(LP586X_SCENE_LENGTH, scene_call(world, scene, (2 + 3 * 65535) % 65536));
    scene[2 + 65534] = 255;
    expect(LP586X_NO_DOT, scene_call(world, scene, 196607));
}

/* Update, Reset and Clear: 14, 10. */
static void lists(const struct world *world)
{
    struct outcome outcome;

    for (enum kind kind = UPDATE; kind <= CLEAR; kind++) {
        expect(LP586X_UNSOUND, unsound(list_call_of(world, kind, 0)));
        expect(LP586X_UNSOUND, unsound(list_call_of(world, kind, LP586X_UPDATE_SIZE)));
        expect(LP586X_BUFFER_SHORT, list_call_of(world, kind, 0));
        expect(LP586X_BUFFER_SHORT, list_call_of(world, kind, 3));
        expect(LP586X_BUFFER_SHORT, list_call_of(world, kind, 8));
        expect(LP586X_OK, list_call_of(world, kind, 65536 + 3));
    }
    /* Only Update's refusal carries a value. */
    outcome = expect(LP586X_BUFFER_SHORT, list_call_of(world, UPDATE, 13));
    check(outcome.needed == 14 && outcome.n == OUT_UNTOUCHED && outcome.t == OUT_UNTOUCHED && outcome.stored == OUT_UNTOUCHED,
          "needed is %u", outcome.needed);
    outcome = expect(LP586X_UNSOUND, unsound(list_call_of(world, UPDATE, 14)));
    check(outcome.needed == OUT_UNTOUCHED && outcome.n == OUT_UNTOUCHED && outcome.t == OUT_UNTOUCHED && outcome.stored == OUT_UNTOUCHED,
          "something is stored");
    outcome = expect(LP586X_OK, list_call_of(world, UPDATE, 14));
    check(outcome.needed == OUT_UNTOUCHED && outcome.n == 2 && outcome.t == 6 && outcome.stored == 2, "n is %u, t is %u, stored is %u",
          outcome.n, outcome.t, outcome.stored);
    expect(LP586X_OK, list_call_of(world, RESET, 9));
    outcome = expect(LP586X_BUFFER_SHORT, list_call_of(world, CLEAR, 9));
    check(outcome.needed == OUT_UNTOUCHED && outcome.n == OUT_UNTOUCHED && outcome.t == OUT_UNTOUCHED, "something is stored");
    outcome = expect(LP586X_OK, list_call_of(world, CLEAR, 10));
    check(outcome.needed == OUT_UNTOUCHED && outcome.n == 1 && outcome.t == 4, "n is %u, t is %u", outcome.n, outcome.t);
}

/* One wrong byte in a record with pins 3, which SPI does not have, or a wrong size: 14, and not 1 where the member is none. */
static void faults_of_unsound(struct call call)
{
    static const struct {
        size_t at;
        uint8_t byte;
    } changes[] = {
        {0, 5}, {0, 255}, {1, 2}, {1, 255}, {1, LP586X_SPI}, {2, 4}, {2, 255}, {MARKS, 2}, {MARKS, 255},
        {SETTINGS + 0x000, 0x02}, {SETTINGS + 0x064, 0x01}, {SETTINGS + 0x0A9, 0xFF}, {SETTINGS + 0x1FF, 0x80},
        {IMAGE + 0x000, 0x02}, {IMAGE + 0x064, 0x01}, {IMAGE + 0x0A9, 0xFF}, {IMAGE + 0x1FF, 0x80},
    };
    static const size_t sizes[] = {0, 1, 3, LP586X_CHIP_SIZE, LP586X_RECORD_SIZE - 1, LP586X_RECORD_SIZE + 1,
                                   LP586X_RECORD_SIZE + 256, LP586X_RECORD_SIZE + 65536};

    for (size_t i = 0; i < sizeof changes / sizeof *changes; i++)
        expect(LP586X_UNSOUND, with_byte(call, changes[i].at, changes[i].byte));
    for (size_t i = 0; i < sizeof sizes / sizeof *sizes; i++)
        expect(LP586X_UNSOUND, sized(call, sizes[i]));
}

/* Faults: 14, 13, 10. */
static void faults(uint32_t member)
{
    static const uint8_t bytes[1 << 17];
    struct world world;

    world_open(&world, member, LP586X_I2C, 3);
    faults_of_unsound(faults_call(&world, bytes, 67, 198));
    faults_of_unsound(faults_call(&world, bytes, 67, 197));
    faults_of_unsound(faults_call(&world, bytes, 66, 198));
    faults_of_unsound(faults_call(&world, bytes, 0, 0));
    expect(LP586X_FAULT_LENGTH, faults_call(&world, bytes, 66, 197));
    expect(LP586X_FAULT_LENGTH, faults_call(&world, bytes, 68, 197));
    expect(LP586X_FAULT_LENGTH, faults_call(&world, bytes, 0, 0));
    expect(LP586X_FAULT_LENGTH, faults_call(&world, bytes, 67 + 65536, 198));
    expect(LP586X_FAULT_LENGTH, faults_call(&world, bytes, 67 + 256, 198));
    expect(LP586X_BUFFER_SHORT, faults_call(&world, bytes, 67, 197));
    expect(LP586X_BUFFER_SHORT, faults_call(&world, bytes, 67, 0));
    expect(LP586X_OK, faults_call(&world, bytes, 67, 198));
    expect(LP586X_OK, faults_call(&world, bytes, 67, 65536 + 197));
}

/* Feed: 14, 11. */
static void feeds(const struct world *world)
{
    static const uint8_t good[] = {1, 0, 3, 0, 3, 0, 0x80, 0x00, 0x01, 0x55};
    static const uint8_t not_t[] = {1, 0, 4, 0, 3, 0, 0x80, 0x00, 0x01, 0x55};
    static const uint8_t short_length[] = {2, 0, 5, 0, 3, 0, 2, 0, 0x80, 0x00, 0x01, 0x80, 0x00};
    static const uint8_t zero_length[] = {2, 0, 3, 0, 3, 0, 0, 0, 0x80, 0x00, 0x01};
    static const uint8_t long_length[] = {2, 0, 6, 0, 3, 0, 4, 0, 0x80, 0x00, 0x01, 0x80, 0x00, 0x00};
    static const uint8_t wraps[] = {2, 0, 6, 0, 3, 0, 3, 1, 0x80, 0x00, 0x01, 0x80, 0x00, 0x00};
    static const uint8_t many[] = {0xFF, 0xFF, 0x06, 0x00, 0, 0, 0, 0};
    static const uint8_t none[] = {0, 0, 0, 0, 0};
    static const uint8_t no_transactions[] = {0, 0, 3, 0, 0x80, 0x00, 0x01};

    expect(LP586X_UNSOUND, unsound(feed_call(world, good, 0)));
    expect(LP586X_UNSOUND, unsound(feed_call(world, good, 9)));
    for (size_t size = 0; size <= sizeof good; size++)
        expect(size == 9 ? LP586X_OK : LP586X_LIST_SIZES, feed_call(world, good, size));
    for (size_t size = 0; size <= sizeof none; size++)
        expect(size == 4 ? LP586X_OK : LP586X_LIST_SIZES, feed_call(world, none, size));
    expect(LP586X_LIST_SIZES, feed_call(world, not_t, sizeof not_t));
    expect(LP586X_LIST_SIZES, feed_call(world, short_length, sizeof short_length));
    expect(LP586X_LIST_SIZES, feed_call(world, zero_length, sizeof zero_length));
    expect(LP586X_LIST_SIZES, feed_call(world, long_length, sizeof long_length));
    expect(LP586X_LIST_SIZES, feed_call(world, wraps, sizeof wraps));
    expect(LP586X_LIST_SIZES, feed_call(world, many, sizeof many));
    expect(LP586X_LIST_SIZES, feed_call(world, no_transactions, sizeof no_transactions));
}

/* Both bytes of n count: 300 and 256 are not 44 and 0, whose sizes would add up. */
static void feeds_by_n(const struct world *world)
{
    static uint8_t list[4 + 44 * (2 + 3)] = {300 % 256, 300 / 256, 44 * 3, 0};
    static const uint8_t none[] = {0, 1, 0, 0};

    for (size_t i = 0; i < 44; i++)
        list[4 + 2 * i] = 3;
    expect(LP586X_LIST_SIZES, feed_call(world, list, sizeof list));
    expect(LP586X_LIST_SIZES, feed_call(world, none, sizeof none));
}

/* Lengths are added in full: 65,535 + 7 is not 6, whether the size is that for 6 bytes or for 65,542. */
static void feeds_by_sum(const struct world *world)
{
    static uint8_t list[4 + 4 + 65535 + 7] = {2, 0, 6, 0, 0xFF, 0xFF, 7, 0};
    static uint8_t swapped[sizeof list] = {2, 0, 6, 0, 7, 0, 0xFF, 0xFF};
    static uint8_t longest[4 + 2 + 65535 + 1] = {1, 0, 0xFF, 0xFF, 0xFF, 0xFF, 0x80, 0x00, 0x01};

    expect(LP586X_LIST_SIZES, feed_call(world, list, 4 + 4 + 6));
    expect(LP586X_LIST_SIZES, feed_call(world, list, sizeof list));
    expect(LP586X_LIST_SIZES, feed_call(world, swapped, 4 + 4 + 6));
    expect(LP586X_LIST_SIZES, feed_call(world, swapped, sizeof swapped));
    expect(LP586X_OK, feed_call(world, longest, sizeof longest - 1));
    expect(LP586X_LIST_SIZES, feed_call(world, longest, sizeof longest));
}

/* What is wrong at one place counts where it is present. */
static void rounds_at(const uint8_t *records, uint32_t place)
{
    const uint32_t others = ALL_PRESENT ^ 1u << place;
    const size_t at = place * LP586X_RECORD_SIZE;
    struct call all = round_call(records, ALL_PRESENT, 64, LP586X_ROUND_SIZE), none = round_call(records, others, 64, 64);
    uint8_t on_spi[LP586X_RECORDS_SIZE];

    expect(LP586X_UNSOUND, with_byte(all, at, 5));
    expect(LP586X_OK, with_byte(none, at, 5));
    expect(LP586X_OK, with_byte(all, at + MARKS, LOCKED));
    expect(LP586X_UNSOUND, with_byte(all, at + MARKS, 2));
    expect(LP586X_OK, with_byte(none, at + MARKS, 2));
    expect(LP586X_UNSOUND, with_byte(all, at + SETTINGS + 0x064, 1));
    expect(LP586X_UNSOUND, with_byte(all, at + IMAGE + 0x064, 1));
    expect(LP586X_OK, with_byte(none, at + IMAGE + 0x064, 1));
    for (uint32_t pins = 0; pins < PLACES; pins++) {
        expect(pins == place ? LP586X_OK : LP586X_WRONG_PLACE, with_byte(all, at + 2, (uint8_t)pins));
        expect(LP586X_OK, with_byte(none, at + 2, (uint8_t)pins));
    }
    memcpy(on_spi, records, sizeof on_spi);
    memcpy(on_spi + at + 1, (const uint8_t[2]){LP586X_SPI, 0}, 2);
    expect(LP586X_WRONG_PLACE, round_call(on_spi, ALL_PRESENT, 64, LP586X_ROUND_SIZE));
    expect(LP586X_WRONG_PLACE, round_call(on_spi, 1u << place, 12, 0));
    expect(LP586X_OK, round_call(on_spi, others, 64, LP586X_ROUND_SIZE));
    /* Each stands in front of those below. */
    expect(LP586X_UNSOUND, with_byte(round_call(on_spi, ALL_PRESENT, 11, 0), at, 5));
    expect(LP586X_ROUND_LIMIT, round_call(on_spi, ALL_PRESENT, 11, 0));
    expect(LP586X_WRONG_PLACE, round_call(on_spi, ALL_PRESENT, 12, 0));
    expect(LP586X_BUFFER_SHORT, round_call(on_spi, others, 12, 0));
}

/* Round: 14, 15, 16, 10. All twelve writes of panels_waiting, of three bytes each, fit into 36. */
static void rounds(void)
{
    static const uint32_t above[] = {16, 17, 31, 256, 65536, 0x80000000u, HUGE_NUMBER};
    static const uint32_t outside[] = {0, 1, 11, 4097, 65535, 65536 + 64, 0x80000000u, HUGE_NUMBER};
    uint8_t records[LP586X_RECORDS_SIZE];
    struct panels panels;
    struct outcome outcome;

    panels_waiting(&panels);
    panels_lend(&panels, records);
    for (uint32_t place = 0; place < PLACES; place++)
        rounds_at(records, place);
    for (size_t i = 0; i < sizeof above / sizeof *above; i++)
        expect(LP586X_UNSOUND, round_call(records, above[i], i % 2 ? 64 : 11, i % 3 ? LP586X_ROUND_SIZE : 0));
    for (size_t i = 0; i < sizeof outside / sizeof *outside; i++)
        expect(LP586X_ROUND_LIMIT, round_call(records, ALL_PRESENT, outside[i], i % 2 ? LP586X_ROUND_SIZE : 0));
    expect(LP586X_OK, round_call(records, ALL_PRESENT, 12, LP586X_ROUND_SIZE));
    expect(LP586X_OK, round_call(records, ALL_PRESENT, 4096, LP586X_ROUND_SIZE));
    expect(LP586X_OK, round_call(records, 0, 12, 4));
    expect(LP586X_BUFFER_SHORT, round_call(records, 0, 12, 3));
    outcome = expect(LP586X_BUFFER_SHORT, round_call(records, ALL_PRESENT, 36, 63));
    check(outcome.n == OUT_UNTOUCHED && outcome.t == OUT_UNTOUCHED && outcome.needed == OUT_UNTOUCHED, "something is stored");
    outcome = expect(LP586X_OK, round_call(records, ALL_PRESENT, 36, 64));
    check(outcome.n == 12 && outcome.t == 36, "n is %u, t is %u", outcome.n, outcome.t);
    check(LP586X_ROUND_LIMIT == 15 && LP586X_WRONG_PLACE == 16, "the header has other refusals");
}

void group_refusals(void)
{
    struct world world;

    group("refusals");
    opens(OPEN);
    opens(CHIP_AT_RESET);
    for (uint32_t member = LP586X_LP5860; member <= LP586X_LP5868T; member++) {
        world_open(&world, member, LP586X_I2C, 0);
        registers(&world);
        dots(&world, LAMP, 65535, LP586X_LEVEL_TOO_HIGH);
        dots(&world, GROUP, 3, LP586X_NO_GROUP_OR_STATE);
        dots(&world, SWITCH, 1, LP586X_NO_GROUP_OR_STATE);
        expect(LP586X_UNSOUND, unsound(record_call(&world, POWER_LOST, 0, 0, 0)));
        expect(LP586X_OK, record_call(&world, POWER_LOST, 0, 0, 0));
        feeds(&world);
        feeds_by_n(&world);
        feeds_by_sum(&world);
        faults(member);
        locked_registers(member);
        locks(member);
        unsound_marks(member);
    }
    world_open(&world, LP586X_LP5860, LP586X_I2C, 0);
    world_set(&world, REGISTER, 0x000, 0x01, 0);
    world_set(&world, REGISTER, 0x001, 0x58, 0);
    dots(&world, LAMP, 255, LP586X_LEVEL_TOO_HIGH);
    scenes(&world);
    lists(&world);
    rounds();
    group_done("");
}
