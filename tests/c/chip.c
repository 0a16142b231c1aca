/* The chip model, sentence by sentence of document 01. */
#include <string.h>

#include "check.h"
#include "groups.h"
#include "world.h"

static uint8_t list[4096];
static size_t list_size;

/* ---- A list, transaction by transaction */

static void list_start(void)
{
    memset(list, 0, 4);
    list_size = 4;
}

static void put_two(size_t at, size_t value)
{
    list[at] = (uint8_t)value;
    list[at + 1] = (uint8_t)(value >> 8);
}

/* Puts the transaction's length behind the other lengths, and its bytes at the end. */
static void add(const uint8_t *bytes, size_t size)
{
    size_t n = list[0] + 256u * list[1], t = list[2] + 256u * list[3];

    memmove(list + 6 + 2 * n, list + 4 + 2 * n, t);
    put_two(4 + 2 * n, size);
    memcpy(list + 6 + 2 * n + t, bytes, size);
    put_two(0, n + 1);
    put_two(2, t + size);
    list_size += 2 + size;
}

#define ADD(...) add((const uint8_t[]){__VA_ARGS__}, sizeof(const uint8_t[]){__VA_ARGS__})

static void feed(struct world *world)
{
    uint32_t answer = world_feed(world, list, list_size);

    check(answer == 0, "fed list is refused with %u", answer);
}

static void expect(const struct world *world, uint32_t address, uint8_t value)
{
    check(world->chip[CHIP_REGISTERS + address] == value, "%03X holds %02X, not %02X", address,
          world->chip[CHIP_REGISTERS + address], value);
}

/* A chip on I2C that is enabled. */
static void start_on(struct world *world, uint32_t member, uint32_t pins)
{
    world_open(world, member, LP586X_I2C, pins);
    list_start();
    ADD((uint8_t)(0x80 + 8 * pins), 0x00, 0x01);
    feed(world);
    expect(world, 0x000, 0x01);
}

/* ---- Heads */

static void heads_on_i2c(void)
{
    struct world world;

    context("I2C heads");
    start_on(&world, LP586X_LP5860, 2);
    for (uint32_t head = 0; head < 256; head++) {
        int called = head >> 3 == (0x10 | 2) || head >> 3 == 0x15;
        uint32_t address = (head >> 1 & 3) << 8 | 0x05;
        struct world fed = world;

        list_start();
        ADD((uint8_t)head, 0x05, 0x3C);
        feed(&fed);
        expect(&fed, address, called && !(head & 1) ? 0x3C : world.chip[CHIP_REGISTERS + address]);
        fed.chip[CHIP_REGISTERS + address] = world.chip[CHIP_REGISTERS + address];
        check(memcmp(fed.chip, world.chip, sizeof world.chip) == 0, "head %02X changed another register", head);
    }
}

static void heads_on_spi(void)
{
    struct world world;

    context("SPI heads");
    world_open(&world, LP586X_LP5860, LP586X_SPI, 0);
    list_start();
    ADD(0x00, 0x20, 0x01);
    feed(&world);
    expect(&world, 0x000, 0x01);
    for (uint32_t low = 0; low < 256; low++) {
        uint32_t address = 0x80 << 2 | low >> 6;
        struct world fed = world;

        list_start();
        ADD(0x80, (uint8_t)low, 0x3C);
        feed(&fed);
        expect(&fed, address, low & 0x20 ? 0x3C : 0x00);
    }
}

/* Reads and other chips' writes pass by, between writes that are heard. */
static void lists_for_several_chips(void)
{
    struct world world, old;

    context("a list for several chips on I2C");
    start_on(&world, LP586X_LP5860, 2);
    list_start();
    ADD(0x8C, 0x00, 0x11);       /* pins 1 */
    ADD(0x95, 0x00, 0x22);       /* a read */
    ADD(0xAC, 0x01, 0x33);       /* every chip */
    ADD(0xAD, 0x02, 0x44);       /* a read of every chip */
    ADD(0x94, 0x03, 0x55, 0x56); /* this chip */
    ADD(0x44, 0x03, 0x66);       /* another device */
    feed(&world);
    expect(&world, 0x200, 0x00);
    expect(&world, 0x201, 0x33);
    expect(&world, 0x202, 0x00);
    expect(&world, 0x203, 0x55);
    expect(&world, 0x204, 0x56);
    old = world;
    list_start();
    ADD(0x88, 0xA9, 0xFF); /* pins 1: its reset */
    ADD(0x91, 0xA9, 0xFF);
    ADD(0x98, 0x00, 0x00, 0x58);
    feed(&world);
    check(memcmp(world.chip, old.chip, sizeof old.chip) == 0, "a list for other chips changed this one");

    context("reads and writes on SPI");
    world_open(&world, LP586X_LP5867, LP586X_SPI, 0);
    list_start();
    ADD(0x00, 0x20, 0x01);
    ADD(0x80, 0x20, 0x34);
    ADD(0x80, 0x00, 0x12);
    ADD(0x2A, 0x40, 0xFF); /* a read of 0A9h */
    feed(&world);
    expect(&world, 0x000, 0x01);
    expect(&world, 0x200, 0x34);
}

/* ---- Data */

static void rising_addresses(void)
{
    struct world world;

    context("data for rising addresses");
    start_on(&world, LP586X_LP5860, 0);
    list_start();
    ADD(0x84, 0x00, 1, 2, 3, 4);
    ADD(0x84, 0x02, 9);
    feed(&world);
    expect(&world, 0x200, 1);
    expect(&world, 0x201, 2);
    expect(&world, 0x202, 9);
    expect(&world, 0x203, 4);
}

/* More transactions than one byte counts, each for an address of its own. */
static void many_transactions(void)
{
    enum { COUNT = 300 };
    struct world world, old;

    context("a list of 300 transactions");
    start_on(&world, LP586X_LP5860, 0);
    old = world;
    list_start();
    for (uint32_t i = 0; i < COUNT; i++)
        ADD((uint8_t)(0x84 + 2 * (i >> 8)), (uint8_t)i, (uint8_t)(1 + i % 251));
    check(list_size == 4 + COUNT * (2 + 3) && list[0] == 0x2C && list[1] == 0x01, "the list has %zu bytes", list_size);
    feed(&world);
    for (uint32_t i = 0; i < COUNT; i++) {
        expect(&world, 0x200 + i, (uint8_t)(1 + i % 251));
        world.chip[CHIP_REGISTERS + 0x200 + i] = old.chip[CHIP_REGISTERS + 0x200 + i];
    }
    check(memcmp(world.chip, old.chip, sizeof old.chip) == 0, "300 transactions changed another register");
}

/* "Data beyond 38Bh are dropped and the address never wraps." */
static void end_of_the_map(void)
{
    uint8_t transaction[2 + 0x500];
    struct world world, old;

    context("data beyond 38Bh");
    start_on(&world, LP586X_LP5860, 0);
    list_start();
    ADD(0x86, 0x8B, 7, 8, 9);
    feed(&world);
    expect(&world, 0x38B, 7);
    old = world;
    memset(transaction, 0x00, sizeof transaction);
    transaction[0] = 0x86;
    transaction[1] = 0xFE;
    list_start();
    add(transaction, sizeof transaction);
    feed(&world);
    check(memcmp(world.chip, old.chip, sizeof old.chip) == 0, "data for 3FEh and on changed the chip");
}

/* "In standby only 000h and 0A9h are heard, so an enable helps the next transaction." */
static void standby(void)
{
    struct world world;

    context("standby");
    world_open(&world, LP586X_LP5860, LP586X_I2C, 0);
    list_start();
    ADD(0x84, 0x00, 0x11);
    ADD(0x80, 0x00, 0x01, 0x58);
    feed(&world);
    expect(&world, 0x200, 0x00);
    expect(&world, 0x000, 0x01);
    expect(&world, 0x001, 0x5E);
    list_start();
    ADD(0x80, 0x00, 0x00, 0x58);
    ADD(0x80, 0x01, 0x5A);
    ADD(0x80, 0xA7, 0x0F);
    feed(&world);
    expect(&world, 0x000, 0x00);
    expect(&world, 0x001, 0x58);
    list_start();
    ADD(0x80, 0x00, 0x01);
    ADD(0x80, 0x01, 0x5A);
    feed(&world);
    expect(&world, 0x001, 0x5A);
}

/* "Reserved bits, read-only bytes, command bytes and holes keep their values." */
static void kept_values(void)
{
    struct world world;

    context("what a chip keeps");
    start_on(&world, LP586X_LP5867, 0);
    list_start();
    ADD(0x80, 0x43, 0x00, 0x00, 0xFF);
    ADD(0x82, 0x01, 0x11, 0x22, 0x33);
    ADD(0x80, 0x64, 0xFF, 0xFF);
    ADD(0x80, 0xA7, 0x55, 0x55, 0x55, 0x55);
    feed(&world);
    expect(&world, 0x043, 0xFC);
    expect(&world, 0x044, 0xFC);
    expect(&world, 0x045, 0x03);
    expect(&world, 0x101, 0x11);
    expect(&world, 0x102, 0x80);
    expect(&world, 0x103, 0x80);
    expect(&world, 0x064, 0x00);
    expect(&world, 0x065, 0x00);
    expect(&world, 0x0A7, 0x00);
    expect(&world, 0x0A9, 0x00);
    expect(&world, 0x0AA, 0x00);
    start_on(&world, LP586X_LP5861T, 0);
    list_start();
    ADD(0x80, 0x01, 0x00, 0xFF, 0xFF, 0x00);
    feed(&world);
    expect(&world, 0x001, 0x58);
    expect(&world, 0x002, 0x06);
    expect(&world, 0x003, 0xFC);
    expect(&world, 0x004, 0x41);
    start_on(&world, LP586X_LP5864, 0);
    list_start();
    ADD(0x80, 0x4E, 0x00, 0x00, 0xFF);
    feed(&world);
    expect(&world, 0x04E, 0x00);
    expect(&world, 0x04F, 0xFF);
    expect(&world, 0x050, 0x00);
}

/* ---- Commands */

static void set_faults(struct world *world, uint8_t value)
{
    memset(world->chip + CHIP_REGISTERS + 0x064, value, LP586X_FAULT_BYTES);
}

static void expect_faults(const struct world *world, uint8_t state, uint8_t opens, uint8_t shorts)
{
    expect(world, 0x064, state);
    for (uint32_t i = 0; i < 33; i++) {
        expect(world, 0x065 + i, opens);
        expect(world, 0x086 + i, shorts);
    }
}

static void clears(void)
{
    struct world world;

    context("clearing fault bits");
    start_on(&world, LP586X_LP5860, 0);
    set_faults(&world, 0xFF);
    list_start();
    ADD(0x80, 0xA7, 0x1F, 0xFF);
    ADD(0x80, 0xA7, 0x00, 0x0E);
    feed(&world);
    expect_faults(&world, 0xFF, 0xFF, 0xFF);
    list_start();
    ADD(0x80, 0xA7, 0x0F);
    feed(&world);
    expect_faults(&world, 0xFD, 0x00, 0xFF);
    list_start();
    ADD(0x80, 0xA8, 0x0F);
    feed(&world);
    expect_faults(&world, 0xFC, 0x00, 0x00);
    set_faults(&world, 0xFF);
    list_start();
    ADD(0x80, 0xA6, 0x12, 0x0F, 0x0F, 0x12);
    feed(&world);
    expect_faults(&world, 0xFC, 0x00, 0x00);
    set_faults(&world, 0xFF);
    list_start();
    ADD(0x80, 0x00, 0x00);
    ADD(0x80, 0xA7, 0x0F, 0x0F);
    feed(&world);
    expect_faults(&world, 0xFF, 0xFF, 0xFF);
}

/* 0Fh at 0A7h alone, or at 0A8h alone, in a list of nine bytes. */
static void feed_half(struct world *world, uint8_t address)
{
    list_start();
    if (world->chip[1] == LP586X_I2C)
        ADD((uint8_t)(0x80 + 8 * world->chip[2]), address, 0x0F);
    else if (address == 0xA7)
        ADD(0x29, 0xE0, 0x0F);
    else
        ADD(0x2A, 0x20, 0x0F);
    check(list_size == 9, "the list has %zu bytes", list_size);
    feed(world);
}

static void feed_clear(struct world *world)
{
    struct outcome outcome = world_list(world, CLEAR, LP586X_CLEAR_SIZE);

    check(outcome.answer == 0, "Clear is refused with %u", outcome.answer);
    memcpy(list, outcome.buffer, LP586X_CLEAR_SIZE);
    list_size = LP586X_CLEAR_SIZE;
    feed(world);
}

/* Clear, and its two halves in either order: each clears all fault bits of a chip that is on, and changes nothing in standby. */
static void clear_and_halves(uint32_t member, uint32_t bus, uint32_t pins, uint8_t on)
{
    struct world world, upward, downward, expected;

    world_open(&world, member, bus, pins);
    world.chip[CHIP_REGISTERS + 0x000] = on;
    world_any_faults(&world);
    upward = downward = expected = world;
    if (on) {
        expected.chip[CHIP_REGISTERS + 0x064] &= 0xFC;
        memset(expected.chip + CHIP_REGISTERS + 0x065, 0x00, 2 * 33);
    }
    feed_clear(&world);
    feed_half(&upward, 0xA7);
    feed_half(&upward, 0xA8);
    feed_half(&downward, 0xA8);
    feed_half(&downward, 0xA7);
    check(memcmp(world.chip, expected.chip, sizeof expected.chip) == 0, "member %u: Clear leaves another chip", member);
    check(memcmp(upward.chip, expected.chip, sizeof expected.chip) == 0, "member %u: 0A7h, 0A8h leave another chip", member);
    check(memcmp(downward.chip, expected.chip, sizeof expected.chip) == 0, "member %u: 0A8h, 0A7h leave another chip", member);
}

static void clears_and_halves(void)
{
    context("Clear and its two halves");
    for (uint32_t member = LP586X_LP5860; member <= LP586X_LP5868T; member++)
        for (uint8_t on = 0; on < 2; on++)
            for (int times = 0; times < 20; times++) {
                for (uint32_t pins = 0; pins < 4; pins++)
                    clear_and_halves(member, LP586X_I2C, pins, on);
                clear_and_halves(member, LP586X_SPI, 0, on);
            }
}

/* "FFh at 0A9h restores all reset values and drops the transaction's rest." */
static void resets(void)
{
    struct world world, fresh;

    context("reset");
    world_open(&fresh, LP586X_LP5860, LP586X_I2C, 0);
    start_on(&world, LP586X_LP5860, 0);
    set_faults(&world, 0xFF);
    list_start();
    ADD(0x84, 0x00, 0x33);
    ADD(0x80, 0xA9, 0xFE);
    ADD(0x80, 0xA9, 0x00);
    feed(&world);
    expect(&world, 0x200, 0x33);
    list_start();
    ADD(0x80, 0xA8, 0x00, 0xFF, 0xFF);
    ADD(0x84, 0x00, 0x44);
    feed(&world);
    check(memcmp(world.chip, fresh.chip, sizeof fresh.chip) == 0, "a reset did not restore the reset values");

    context("reset in standby, and the transaction's rest");
    set_faults(&world, 0xFF);
    list_start();
    ADD(0x80, 0x00, 0x01);
    ADD(0x82, 0x00, 0x12);
    ADD(0x80, 0x00, 0x00);
    ADD(0x80, 0xA5, 0x11, 0x11, 0x11, 0x11, 0xFF, 0x11);
    ADD(0x82, 0x00, 0x13);
    feed(&world);
    check(memcmp(world.chip, fresh.chip, sizeof fresh.chip) == 0, "a reset in standby did not restore the reset values");
}

/* A transaction from 000h on passes 0A9h: what lies behind is dropped. */
static void reset_on_the_way(void)
{
    uint8_t transaction[2 + 0x205];
    struct world world, fresh;

    context("a reset on the way");
    world_open(&fresh, LP586X_LP5860, LP586X_I2C, 0);
    start_on(&world, LP586X_LP5860, 0);
    memset(transaction, 0xFF, sizeof transaction);
    transaction[0] = 0x80;
    transaction[1] = 0x00;
    list_start();
    add(transaction, sizeof transaction);
    feed(&world);
    check(memcmp(world.chip, fresh.chip, sizeof fresh.chip) == 0, "the rest of a transaction was not dropped");
}

/* ---- Power */

static void power_losses(void)
{
    struct world world, fresh;

    context("loss of power");
    for (uint32_t member = LP586X_LP5860; member <= LP586X_LP5868T; member++) {
        world_open(&fresh, member, LP586X_I2C, 3);
        world = fresh;
        memset(world.chip + CHIP_REGISTERS, 0xA7, LP586X_REGISTERS);
        check(world_chip_power_lost(&world) == 0, "refused");
        check(memcmp(world.chip, fresh.chip, sizeof fresh.chip) == 0, "member %u has other reset values", member);
    }
    for (int member = 5; member < 256; member += 25) {
        fresh.chip[0] = (uint8_t)member;
        world = fresh;
        check(world_chip_power_lost(&world) == 0, "refused");
        check(memcmp(world.chip, fresh.chip, sizeof fresh.chip) == 0, "a chip of member %d changed", member);
    }
}

void group_chip(void)
{
    group("chip model");
    heads_on_i2c();
    heads_on_spi();
    lists_for_several_chips();
    rising_addresses();
    many_transactions();
    end_of_the_map();
    standby();
    kept_values();
    clears();
    clears_and_halves();
    resets();
    reset_on_the_way();
    power_losses();
    group_done("");
}
