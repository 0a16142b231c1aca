/* What an update stores in its record: the bytes of the chip image that its list sends, and no others. A byte that gets the value which
 * it had already shows in no comparison. So here the record stands in memory that may only be read; each store into it is noted and let
 * through, and must begin at a byte that the list sends. Where only the bytes in front of the list's first address may not be changed,
 * or those behind its last one, there must be no store into them. Of the same kind: a lock stores the marks alone, a reset and a power
 * loss the marks and the chip image. The library and the reference do each.
 *
 * Behind a store the memory may only be read again, for which the processor must stop there. That is so on x86-64. Elsewhere the memory
 * stays open until the call is over, so that of each call the first store alone is noted; the groups say so where they print.
 */
#define _GNU_SOURCE
#include "stores.h"

#include <signal.h>
#include <stdio.h>
#include <stdlib.h>
#include <string.h>
#include <sys/mman.h>
#include <ucontext.h>
#include <unistd.h>

#include "check.h"
#include "groups.h"
#include "interface.h"
#include "random.h"
#include "reference.h"
#include "walk.h"
#include "world.h"

enum { MEMBERS = 5, ANY_SETTINGS = 100 };

/* ---- Lists */

static uint32_t address_of(uint32_t bus, const uint8_t *head)
{
    return bus == LP586X_SPI ? 4u * head[0] + head[1] / 64 : head[0] / 2 % 4 * 256u + head[1];
}

/* Marks the addresses with 1, too. */
static uint32_t take_and_mark(uint8_t *record, const uint8_t *list, uint8_t *named)
{
    const uint32_t n = get_two(list);
    const uint8_t *at = list + 4 + 2 * n;
    uint32_t count = 0;

    memset(named, 0, LP586X_REGISTERS);
    for (uint32_t i = 0; i < n; i++) {
        uint32_t length = get_two(list + 4 + 2 * i), address = address_of(record[1], at);

        for (uint32_t j = 2; j < length && address < LP586X_REGISTERS; j++, address++) {
            record[IMAGE + address] = at[j];
            count += !named[address];
            named[address] = 1;
        }
        at += length;
    }
    return count;
}

uint32_t take_list(uint8_t *record, const uint8_t *list)
{
    uint8_t named[LP586X_REGISTERS];

    return take_and_mark(record, list, named);
}

int list_names(const uint8_t *list, uint32_t bus, uint32_t address, uint32_t count)
{
    const uint32_t n = get_two(list);
    const uint8_t *at = list + 4 + 2 * n;

    for (uint32_t i = 0; i < n; i++) {
        uint32_t length = get_two(list + 4 + 2 * i), start = address_of(bus, at);

        if (start < address + count && start + length - 2 > address)
            return 1;
        at += length;
    }
    return 0;
}

/* ---- Memory that may only be read */

enum part { FRONT, BEHIND };

enum { NOWHERE = -1 };

struct trial {
    struct outcome outcome;
    uint32_t stores;   /* those that began in memory that may only be read */
    ptrdiff_t outside; /* the first of them that began at a byte which the call may not store: its number in the record */
};

static uint8_t *memory; /* a page for each part */
static size_t page;
static enum part read_only;
static uint8_t may_store[LP586X_RECORD_SIZE]; /* 1 for a byte of the record that the call may store */
static struct trial trial;

static int only_read(void)
{
    return mprotect(memory + read_only * page, page, PROT_READ) == 0;
}

static int all_open(void)
{
    return mprotect(memory, 2 * page, PROT_READ | PROT_WRITE) == 0;
}

#ifdef __x86_64__
static const char noted[] = "";

/* The processor stops behind the next instruction, or no longer. */
static void step(void *context, int on)
{
    const greg_t trap_flag = 0x100;
    greg_t *flags = &((ucontext_t *)context)->uc_mcontext.gregs[REG_EFL];

    *flags = on ? *flags | trap_flag : *flags & ~trap_flag;
}
#else
static const char noted[] = "of each call the first store alone";

static void step(void *context, int on)
{
    (void)context;
    (void)on;
}
#endif

/* A store: it is noted and let through. The processor stops behind it, if it can. */
static void note_store(int number, siginfo_t *info, void *context)
{
    uint8_t *at = info->si_addr;
    ptrdiff_t byte = at - trial.outcome.state;

    if (at < memory || at >= memory + 2 * page || !all_open()) {
        signal(number, SIG_DFL);
        return;
    }
    trial.stores++;
    if (trial.outside == NOWHERE && !(byte >= 0 && byte < (ptrdiff_t)LP586X_RECORD_SIZE && may_store[byte]))
        trial.outside = byte;
    step(context, 1);
}

static void behind_store(int number, siginfo_t *info, void *context)
{
    (void)info;
    if (!only_read())
        signal(number, SIG_DFL);
    step(context, 0);
}

static void must_do(int done)
{
    if (!done) {
        perror("tests/c: memory");
        exit(1);
    }
}

/* UPDATE, RESET, POWER_LOST or LOCK. */
static uint32_t make_call(const struct interface *calls, enum kind kind, uint8_t *record, uint8_t *buffer, size_t buffer_size,
                          struct outcome *out)
{
    switch (kind) {
    case UPDATE:
        return calls->update(record, LP586X_RECORD_SIZE, buffer, buffer_size, &out->n, &out->t, &out->stored, &out->needed);
    case RESET:
        return calls->reset(record, LP586X_RECORD_SIZE, buffer, buffer_size, &out->n, &out->t);
    case POWER_LOST:
        return calls->power_lost(record, LP586X_RECORD_SIZE);
    default:
        return calls->lock(record, LP586X_RECORD_SIZE);
    }
}

/* The call on a copy of the record, whose bytes in front of the one of this number, or from there on, may only be read. */
static struct trial try_call(const struct interface *calls, enum kind kind, const uint8_t *record, size_t edge, enum part part,
                             size_t buffer_size)
{
    static uint8_t buffer[LP586X_UPDATE_SIZE];
    const struct sigaction noting = {.sa_sigaction = note_store, .sa_flags = SA_SIGINFO};
    const struct sigaction going_on = {.sa_sigaction = behind_store, .sa_flags = SA_SIGINFO};
    struct sigaction old_noting, old_going_on;
    uint8_t *lent = memory + page - edge;
    struct outcome out = {OUT_UNTOUCHED, OUT_UNTOUCHED, OUT_UNTOUCHED, OUT_UNTOUCHED, OUT_UNTOUCHED, lent, buffer};

    trial = (struct trial){out, 0, NOWHERE};
    read_only = part;
    memcpy(lent, record, LP586X_RECORD_SIZE);
    must_do(sigaction(SIGSEGV, &noting, &old_noting) == 0 && sigaction(SIGTRAP, &going_on, &old_going_on) == 0 && only_read());
    out.answer = make_call(calls, kind, lent, buffer, buffer_size, &out);
    must_do(all_open() && sigaction(SIGSEGV, &old_noting, NULL) == 0 && sigaction(SIGTRAP, &old_going_on, NULL) == 0);
    trial.outcome = out;
    return trial;
}

/* The whole record may only be read. */
static struct trial try_read_only(const struct interface *calls, enum kind kind, const uint8_t *record, size_t buffer_size)
{
    return try_call(calls, kind, record, LP586X_RECORD_SIZE, FRONT, buffer_size);
}

/* ---- What must come of it */

static const struct interface *const sides[] = {&library, &reference};

/* The record after an accepted call, and what an update says that it has stored. */
struct expected {
    uint8_t record[LP586X_RECORD_SIZE];
    uint32_t stored;
};

/* Bytes of the record from one on, up to another. */
struct region {
    size_t from, to;
};

static void expect(const struct interface *calls, struct trial tried, const struct expected *expected)
{
    const struct outcome *out = &tried.outcome;

    check(tried.outside == NOWHERE, "%s, member %u: stores byte %td of the record, which is not to be stored", calls->name,
          expected->record[0], tried.outside);
    check(out->answer == 0 && out->stored == expected->stored, "%s: answers %u, %u stored, not %u", calls->name, out->answer,
          out->stored, expected->stored);
    check(memcmp(out->state, expected->record, sizeof expected->record) == 0, "%s: another record", calls->name);
}

/* With all of the record, then with the bytes in front of each region, and with those behind it. */
static void expect_within(enum kind kind, const uint8_t *record, const struct expected *expected, const struct region *regions,
                          int count)
{
    for (int side = 0; side < 2; side++) {
        struct trial whole = try_read_only(sides[side], kind, record, LP586X_UPDATE_SIZE);

        expect(sides[side], whole, expected);
        check(whole.stores > 0, "%s: no store is noted", sides[side]->name);
        for (int i = 0; i < count; i++) {
            expect(sides[side], try_call(sides[side], kind, record, regions[i].from, FRONT, LP586X_UPDATE_SIZE), expected);
            expect(sides[side], try_call(sides[side], kind, record, regions[i].to, BEHIND, LP586X_UPDATE_SIZE), expected);
        }
    }
}

/* The update is accepted and stores so many bytes. */
static void expect_stored(const uint8_t *record, uint32_t stored)
{
    struct expected expected = {.stored = stored};
    struct region addresses = {IMAGE, LP586X_RECORD_SIZE};
    uint8_t copy[LP586X_RECORD_SIZE], list[LP586X_UPDATE_SIZE];
    uint32_t n, t, counted, needed;

    memcpy(copy, record, sizeof copy);
    memcpy(expected.record, record, sizeof expected.record);
    check(reference_update(copy, sizeof copy, list, sizeof list, &n, &t, &counted, &needed) == 0, "an update is refused");
    memset(may_store, 0, sizeof may_store);
    check(take_and_mark(expected.record, list, may_store + IMAGE) == stored, "the list has other than %u bytes of data", stored);
    while (addresses.from < addresses.to && !may_store[addresses.from])
        addresses.from++;
    while (addresses.to > addresses.from && !may_store[addresses.to - 1])
        addresses.to--;
    expect_within(UPDATE, record, &expected, &addresses, 1);
}

/* The update has an empty list and stores nothing. */
static void expect_nothing(const uint8_t *record)
{
    memset(may_store, 0, sizeof may_store);
    for (int side = 0; side < 2; side++) {
        struct trial tried = try_read_only(sides[side], UPDATE, record, 4);
        const struct outcome *out = &tried.outcome;

        check(out->answer == 0 && out->n == 0 && out->t == 0 && out->stored == 0 && out->needed == OUT_UNTOUCHED,
              "%s, nothing to send: answers %u, %u stored", sides[side]->name, out->answer, out->stored);
        check(tried.stores == 0, "%s, nothing to send: stores byte %td", sides[side]->name, tried.outside);
    }
}

/* The call is refused and stores nothing, but for the length needed of an update. */
static void expect_refused(enum kind kind, const uint8_t *record, size_t buffer_size, uint32_t number, uint32_t needed)
{
    memset(may_store, 0, sizeof may_store);
    for (int side = 0; side < 2; side++) {
        struct trial tried = try_read_only(sides[side], kind, record, buffer_size);
        const struct outcome *out = &tried.outcome;

        check(out->answer == number && out->needed == needed, "%s: answers %u, %u needed", sides[side]->name, out->answer, out->needed);
        check(out->n == OUT_UNTOUCHED && out->t == OUT_UNTOUCHED && out->stored == OUT_UNTOUCHED,
              "%s: refused with %u, but stores %u, %u, %u", sides[side]->name, number, out->n, out->t, out->stored);
        check(tried.stores == 0, "%s: refused with %u, but stores byte %td", sides[side]->name, number, tried.outside);
    }
}

/* ---- Records */

/* Whether the settings may be changed there, the record staying sound. */
static int may_change(const uint8_t *record, uint32_t address)
{
    return reference_writable(record[0], address) && !(record[MARKS] == LOCKED && is_trim(address));
}

static void change(uint8_t *record, uint32_t address)
{
    if (may_change(record, address))
        record[SETTINGS + address] ^= (uint8_t)~reference_reserved(record[0], address);
}

/* A chip that is on and holds its settings. */
static void start_on(struct world *world, uint32_t member, uint32_t bus)
{
    world_open(world, member, bus, bus == LP586X_I2C ? member % 4 : 0);
    check(world_set(world, REGISTER, 0x000, 0x01, 0) == 0, "chip enable is refused");
    world_sync(world);
}

static int four_writable(const uint8_t *record, uint32_t address)
{
    int all = address + 3 < LP586X_REGISTERS;

    for (uint32_t i = 0; i < 4 && all; i++)
        all = may_change(record, address + i);
    return all;
}

/* One register, and two that are three apart: the two between them are sent and stored as they are. */
static void each_address(const struct world *world)
{
    for (uint32_t address = 0x001; address < LP586X_REGISTERS; address++) {
        struct world changed = *world;

        if (!may_change(world->record, address))
            continue;
        change(changed.record, address);
        expect_stored(changed.record, 1);
        if (!four_writable(world->record, address))
            continue;
        change(changed.record, address + 3);
        expect_stored(changed.record, 4);
    }
}

/* Chip enable stands alone; while the settings are off, all others wait. */
static void on_and_off(const struct world *world)
{
    struct world changed = *world;

    expect_nothing(changed.record);
    changed.record[SETTINGS] = 0;
    expect_stored(changed.record, 1);
    for (uint32_t address = 0x001; address < LP586X_REGISTERS; address++)
        change(changed.record, address);
    expect_stored(changed.record, 1);
    changed.record[IMAGE] = 0;
    expect_nothing(changed.record);
    changed = *world;
    changed.record[IMAGE] = 0;
    expect_stored(changed.record, 1);
}

/* Any settings over any image. */
static void any_settings(const struct world *world)
{
    static const uint32_t rates[] = {400, 100, 20, 4, 1};

    for (int i = 0; i < ANY_SETTINGS; i++) {
        struct world changed = *world, after;
        struct outcome outcome;

        scatter(changed.record[0], changed.record + IMAGE, rates[random_below(5)]);
        memcpy(changed.record + SETTINGS, changed.record + IMAGE, LP586X_REGISTERS);
        scatter(changed.record[0], changed.record + SETTINGS, rates[i % 5]);
        if (changed.record[MARKS] == LOCKED)
            trims_from_image(changed.record);
        after = changed;
        outcome = world_list(&after, UPDATE, LP586X_UPDATE_SIZE);
        if (outcome.n == 0)
            expect_nothing(changed.record);
        else
            expect_stored(changed.record, outcome.stored);
    }
}

/* 10 up to the length needed, and 14. */
static void refused(const struct world *world)
{
    struct world changed = *world;

    change(changed.record, 0x001);
    for (size_t size = 0; size < 9; size++)
        expect_refused(UPDATE, changed.record, size, LP586X_BUFFER_SHORT, 9);
    expect_stored(changed.record, 1);
    changed.record[0] = MEMBERS;
    expect_refused(UPDATE, changed.record, LP586X_UPDATE_SIZE, LP586X_UNSOUND, OUT_UNTOUCHED);
    changed = *world;
    changed.record[IMAGE + 0x064] = 1;
    expect_refused(UPDATE, changed.record, LP586X_UPDATE_SIZE, LP586X_UNSOUND, OUT_UNTOUCHED);
}

/* ---- Locks */

static const struct region marks = {MARKS, SETTINGS}, image = {IMAGE, LP586X_RECORD_SIZE};

/* The marks alone, from free to locked. */
static void expect_lock(const uint8_t *record)
{
    struct expected expected = {.stored = OUT_UNTOUCHED};

    memcpy(expected.record, record, sizeof expected.record);
    expected.record[MARKS] = LOCKED;
    memset(may_store, 0, sizeof may_store);
    may_store[MARKS] = 1;
    expect_within(LOCK, record, &expected, &marks, 1);
}

/* Reset or Power lost: the marks and the chip image. */
static void expect_released(enum kind kind, const uint8_t *record)
{
    const struct region regions[] = {marks, image};
    struct expected expected = {.stored = OUT_UNTOUCHED};

    memcpy(expected.record, record, sizeof expected.record);
    expected.record[MARKS] = FREE;
    for (uint32_t address = 0; address < LP586X_REGISTERS; address++)
        expected.record[IMAGE + address] = reference_reset_value(record[0], address);
    memset(may_store, 0, sizeof may_store);
    may_store[MARKS] = 1;
    memset(may_store + IMAGE, 1, LP586X_REGISTERS);
    expect_within(kind, record, &expected, regions, 2);
}

static void expect_lock_refused(const uint8_t *record, uint32_t number)
{
    expect_refused(LOCK, record, 0, number, OUT_UNTOUCHED);
}

/* 18 of a free record, and 14. */
static void locks_refused(const struct world *world)
{
    struct world changed;

    for (uint32_t address = 0x003; address <= 0x004; address++) {
        changed = *world;
        change(changed.record, address);
        expect_lock_refused(changed.record, LP586X_NOT_LOCKABLE);
        changed.record[MARKS] = LOCKED;
        expect_lock_refused(changed.record, LP586X_UNSOUND);
        expect_refused(UPDATE, changed.record, LP586X_UPDATE_SIZE, LP586X_UNSOUND, OUT_UNTOUCHED);
        expect_refused(RESET, changed.record, LP586X_UPDATE_SIZE, LP586X_UNSOUND, OUT_UNTOUCHED);
        expect_refused(POWER_LOST, changed.record, 0, LP586X_UNSOUND, OUT_UNTOUCHED);
    }
    changed = *world;
    changed.record[IMAGE] = 0;
    expect_lock_refused(changed.record, LP586X_NOT_LOCKABLE);
}

/* Locked: 18, and a refused reset keeps the lock. */
static void refused_when_locked(const struct world *world)
{
    expect_lock_refused(world->record, LP586X_NOT_LOCKABLE);
    for (size_t size = 0; size < LP586X_COMMAND_SIZE; size++)
        expect_refused(RESET, world->record, size, LP586X_BUFFER_SHORT, OUT_UNTOUCHED);
}

/* 002h and 005h are sent, and what lies between them is not stored. */
static void around_the_lock(const struct world *world)
{
    struct world changed = *world;

    change(changed.record, 0x002);
    change(changed.record, 0x005);
    expect_stored(changed.record, 2);
}

static void stores_of_updates(const struct world *world)
{
    each_address(world);
    on_and_off(world);
    any_settings(world);
    refused(world);
}

/* Each member on each bus. */
static void for_all(void (*stores)(uint32_t member, uint32_t bus))
{
    for (uint32_t member = 0; member < MEMBERS; member++)
        for (uint32_t bus = LP586X_I2C; bus <= LP586X_SPI; bus++)
            stores(member, bus);
}

static void update_stores(uint32_t member, uint32_t bus)
{
    struct world world;

    start_on(&world, member, bus);
    stores_of_updates(&world);
    world_locked(&world, member, bus, world.record[2]);
    stores_of_updates(&world);
    around_the_lock(&world);
}

static void lock_stores(uint32_t member, uint32_t bus)
{
    struct world world;

    start_on(&world, member, bus);
    locks_refused(&world);
    expect_lock(world.record);
    expect_released(RESET, world.record);
    expect_released(POWER_LOST, world.record);
    world_locked(&world, member, bus, world.record[2]);
    refused_when_locked(&world);
    expect_released(RESET, world.record);
    expect_released(POWER_LOST, world.record);
}

void group_stores(void)
{
    page = (size_t)sysconf(_SC_PAGESIZE);
    memory = mmap(NULL, 2 * page, PROT_READ | PROT_WRITE, MAP_PRIVATE | MAP_ANONYMOUS, -1, 0);
    must_do(memory != MAP_FAILED);
    group("what an update stores");
    for_all(update_stores);
    group_done(noted);
    group("what a lock stores");
    for_all(lock_stores);
    group_done(noted);
    munmap(memory, 2 * page);
}
