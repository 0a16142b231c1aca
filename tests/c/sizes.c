/* Sizes that are wrong for a record or a chip, buffers of every length, and sizes that do not fit 32 bits. */
#define _DEFAULT_SOURCE
#include <stdio.h>
#include <stdlib.h>
#include <string.h>
#include <sys/mman.h>

#include "check.h"
#include "groups.h"
#include "panels.h"
#include "reference.h"
#include "world.h"

/* 1,819 and 7,276 are what a record and four of them had before there were marks. */
static const size_t sizes[] = {0, 1, 2, 3, 8, 9, 10, 255, 256, 908, 910, 911, 912, 1173, 1174, 1175, 1816, 1817, 1818, 1819,
                               1820, 1821, 1822, 2048, 3640, 5460, 7276, 7279, 7280, 7281, 9100, 65536 + 911, 65536 + 1820,
                               65536 + 7280, 131072 + 1820};

enum { SIZES = sizeof sizes / sizeof *sizes, LARGEST = 131072 + 1820, ROOM_BEHIND = 8192 };

/* Any state size but the right one is refused with 14 by every call that is lent a record or a chip; with the right one each is accepted,
 * a lock too: the chip is on and holds the settings. */
static void wrong_state_sizes(const struct world *world)
{
    static uint8_t state[LARGEST];
    static const uint8_t nothing[LP586X_FAULT_BYTES];

    for (enum kind kind = OPEN; kind <= FEED; kind++) {
        size_t right = kind <= FAULTS ? LP586X_RECORD_SIZE : LP586X_CHIP_SIZE;

        memset(state, 0, sizeof state);
        memcpy(state, kind <= FAULTS ? world->record : world->chip, right);
        for (int i = 0; i < SIZES; i++) {
            struct call call = {.kind = kind, .state = state, .state_size = sizes[i], .buffer_size = LP586X_UPDATE_SIZE};
            struct outcome outcome;

            call.input = nothing;
            call.input_size = kind == FAULTS ? sizeof nothing : kind == FEED ? 4 : 2;
            outcome = both(&call);
            check(outcome.answer == (sizes[i] == right ? 0 : 14), "%s: answers %u", call_text(&call), outcome.answer);
        }
    }
}

/* 10 up to the length needed, 0 from there on; the bytes behind the list stay, which both() has compared. */
static void buffer_sizes(struct world *world)
{
    for (size_t size = 0; size <= 1180; size++) {
        struct call call = list_call_of(world, UPDATE, size);
        struct outcome outcome = both(&call);

        check(outcome.answer == (size < 19 ? 10 : 0), "an update of 19 bytes: answers %u at %zu", outcome.answer, size);
        check(size >= 19 || outcome.needed == 19, "needed is %u", outcome.needed);
        check(outcome.stored == (size < 19 ? OUT_UNTOUCHED : 3), "stored is %u at %zu", outcome.stored, size);
    }
    for (enum kind kind = RESET; kind <= CLEAR; kind++) {
        for (size_t size = 0; size <= 64; size++) {
            struct call call = list_call_of(world, kind, size);

            check(both(&call).answer == (size < (kind == RESET ? 9 : 10) ? 10 : 0), "%s", call_text(&call));
        }
    }
    check(LP586X_COMMAND_SIZE == 9 && LP586X_CLEAR_SIZE == 10, "the header has other sizes");
}

/* The same of Clear by the library alone: a refused call changes nothing, an accepted one the ten bytes of its list. */
static void clear_buffers(const struct world *world)
{
    static const uint8_t list[LP586X_CLEAR_SIZE] = {1, 0, 4, 0, 4, 0, 0x80, 0xA7, 0x0F, 0x0F};

    for (size_t size = 0; size <= 64; size++) {
        uint8_t record[LP586X_RECORD_SIZE], buffer[64], expected[64];
        uint32_t n = OUT_UNTOUCHED, t = OUT_UNTOUCHED, answer;
        int taken = size >= sizeof list;

        memcpy(record, world->record, sizeof record);
        memset(buffer, 0xB5, sizeof buffer);
        memset(expected, 0xB5, sizeof expected);
        if (taken)
            memcpy(expected, list, sizeof list);
        answer = lp586x_clear(record, sizeof record, buffer, size, &n, &t);
        check(answer == (taken ? 0 : 10), "clear: answers %u at %zu", answer, size);
        check(n == (taken ? 1 : OUT_UNTOUCHED) && t == (taken ? 4 : OUT_UNTOUCHED), "clear: n is %u, t is %u at %zu", n, t, size);
        check(memcmp(buffer, expected, sizeof buffer) == 0, "clear: other bytes in a buffer of %zu", size);
        check(memcmp(record, world->record, sizeof record) == 0, "clear: changed the record at %zu", size);
    }
}

static void result_sizes(const struct world *world)
{
    static const uint8_t bytes[LP586X_FAULT_BYTES + 70];

    for (size_t size = 0; size <= 300; size++) {
        struct call call = faults_call(world, bytes, LP586X_FAULT_BYTES, size);

        check(both(&call).answer == (size < 198 ? 10 : 0), "%s", call_text(&call));
    }
    for (size_t size = 0; size <= sizeof bytes; size++) {
        struct call call = faults_call(world, bytes, size, 198);

        check(both(&call).answer == (size != 67 ? 13 : 0), "%s", call_text(&call));
    }
}

/* ---- Rounds */

static void round_sizes(void)
{
    static uint8_t records[LARGEST];
    struct panels panels;

    panels_waiting(&panels);
    panels_lend(&panels, records);
    for (int i = 0; i < SIZES; i++) {
        struct call call = round_call(records, ALL_PRESENT, 64, LP586X_ROUND_SIZE);

        call.state_size = sizes[i];
        check(both(&call).answer == (sizes[i] == LP586X_RECORDS_SIZE ? 0 : 14), "%s", call_text(&call));
    }
    for (size_t size = 0; size <= 200; size++) {
        struct call call = round_call(records, ALL_PRESENT, 36, size);

        check(both(&call).answer == (size < 4 + 2 * 12 + 36 ? 10 : 0), "%s", call_text(&call));
    }
    check(LP586X_RECORD_SIZE == 1820 && LP586X_RECORDS_SIZE == 7280 && LP586X_ROUND_SIZE == 4684, "the header has other sizes");
}

/* Every so many of the writable registers differ, 000h among them. */
static void differ(struct world *world, uint32_t stride)
{
    for (uint32_t address = 0; address < LP586X_REGISTERS; address += stride)
        world->record[SETTINGS + address] ^= (uint8_t)~reference_reserved(world->record[0], address);
}

/* The longest lists: within 4,096 bytes a round has all of the four updates, and never more than its buffer's size. */
static void longest_rounds(uint32_t member)
{
    static const uint32_t most[] = {702, 84, 270, 302, 518};

    for (uint32_t stride = 1; stride <= 4; stride++) {
        struct panels panels;
        struct outcome update, round;

        panels_open(&panels, (const uint32_t[PLACES]){member, member, member, member});
        for (uint32_t place = 0; place < PLACES; place++)
            differ(&panels.at[place], stride);
        round = panels_round(&panels, ALL_PRESENT, 4096, LP586X_ROUND_SIZE);
        world_open(&panels.at[0], member, LP586X_I2C, 0);
        differ(&panels.at[0], stride);
        update = world_sync(&panels.at[0]);
        check(round.answer == 0 && round.n == 4 * update.n && round.t == 4 * update.t, "member %u: n is %u, t is %u", member,
              round.n, round.t);
        check(stride > 1 || update.t == most[member], "member %u: the full update has %u bytes", member, update.t);
    }
}

#if SIZE_MAX > UINT32_MAX
static void rounds_beyond_32_bits(uint8_t *memory, size_t four_gib)
{
    uint8_t records[LP586X_RECORDS_SIZE], buffer[LP586X_ROUND_SIZE];
    struct panels panels;
    uint32_t n, t;

    panels_waiting(&panels);
    panels_lend(&panels, records);
    check(lp586x_round(records, sizeof records, ALL_PRESENT, 36, memory, four_gib + 63, &n, &t) == 0, "round, 2^32 + 63");
    panels_lend(&panels, memory);
    check(lp586x_round(memory, four_gib + sizeof records, ALL_PRESENT, 36, buffer, sizeof buffer, &n, &t) == 14,
          "round, records of 2^32 + 7280");
}

/* More than 4 GiB of address space, of which the calls touch a page or two. */
static void sizes_beyond_32_bits(const struct world *world)
{
    const size_t four_gib = (size_t)1 << 32;
    uint8_t *memory = mmap(NULL, four_gib + ROOM_BEHIND, PROT_READ | PROT_WRITE, MAP_PRIVATE | MAP_ANONYMOUS | MAP_NORESERVE, -1, 0);
    uint8_t record[LP586X_RECORD_SIZE], chip[LP586X_CHIP_SIZE], small[LP586X_DOTS] = {0}, result[LP586X_DOTS];
    uint32_t n, t, stored, needed;

    if (memory == MAP_FAILED) {
        perror("mmap");
        exit(1);
    }
    memcpy(record, world->record, sizeof record);
    memcpy(chip, world->chip, sizeof chip);
    check(lp586x_reset(record, sizeof record, memory, four_gib, &n, &t) == 0, "reset, 2^32 bytes of buffer");
    check(lp586x_clear(record, sizeof record, memory, four_gib + 9, &n, &t) == 0, "clear, 2^32 + 9");
    check(lp586x_update(record, sizeof record, memory, four_gib, &n, &t, &stored, &needed) == 0, "update, 2^32");
    check(lp586x_faults(record, sizeof record, small, 67, memory, four_gib + 197, &n, &t) == 0, "faults, a result of 2^32 + 197");

    memset(memory, 0, 4096);
    check(lp586x_faults(record, sizeof record, memory, four_gib + 67, result, 198, &n, &t) == 13, "faults, 2^32 + 67 bytes");
    check(lp586x_scene(record, sizeof record, memory, four_gib + 2) == 9, "scene, 2^32 + 2");
    check(lp586x_chip_feed(chip, sizeof chip, memory, four_gib + 4) == 11, "chip_feed, 2^32 + 4");
    check(lp586x_transaction(memory, four_gib + 4, 0, &n, &t) == 11, "transaction, 2^32 + 4");
    memcpy(memory, world->record, sizeof world->record);
    check(lp586x_power_lost(memory, four_gib + LP586X_RECORD_SIZE) == 14, "power_lost, a record of 2^32 + 1820");
    check(lp586x_lock(memory, four_gib + LP586X_RECORD_SIZE) == 14, "lock, a record of 2^32 + 1820");
    check(lp586x_open(memory, four_gib + LP586X_RECORD_SIZE, 0, 0, 0) == 14, "open, a record of 2^32 + 1820");
    check(lp586x_faults(memory, four_gib + LP586X_RECORD_SIZE, small, 67, result, 198, &n, &t) == 14,
          "faults, a record of 2^32 + 1820");
    memcpy(memory, world->chip, sizeof world->chip);
    check(lp586x_chip_feed(memory, four_gib + LP586X_CHIP_SIZE, small, 4) == 14, "chip_feed, a chip of 2^32 + 911");
    check(lp586x_chip_power_lost(memory, four_gib + LP586X_CHIP_SIZE) == 14, "chip_power_lost, a chip of 2^32 + 911");
    rounds_beyond_32_bits(memory, four_gib);
    munmap(memory, four_gib + ROOM_BEHIND);
}

static void group_sizes_beyond_32_bits(const struct world *world)
{
    group("sizes beyond 32 bits");
    sizes_beyond_32_bits(world);
    group_done("");
}
#else
/* There are none where size_t has 32 bits. */
static void group_sizes_beyond_32_bits(const struct world *world)
{
    (void)world;
}
#endif

void group_sizes(void)
{
    struct world world, synced;

    group("sizes");
    world_open(&world, 0, 0, 0);
    world_set(&world, REGISTER, 0x000, 0x01, 0);
    world_set(&world, REGISTER, 0x001, 0x58, 0);
    world_set(&world, LAMP, 0, 2, 0x40);
    synced = world;
    world_sync(&synced);
    wrong_state_sizes(&synced);
    buffer_sizes(&world);
    clear_buffers(&world);
    result_sizes(&world);
    round_sizes();
    for (uint32_t member = LP586X_LP5860; member <= LP586X_LP5868T; member++)
        longest_rounds(member);
    group_done("");
    group_sizes_beyond_32_bits(&world);
}
