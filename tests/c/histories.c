/* Random histories. In each a record is opened and gets several hundred calls, with wrong arguments, short buffers and scenes with
 * duplicates among them; every accepted list is fed to its chip. A ledger is kept from the calls alone, and from whether a Register was
 * answered 17: the settings must equal it after every call, and the chip's writable registers after every update that has the chip on.
 * 003h and 004h are trimmed, the record is locked and released, and the same update of the unlocked record must have as many bytes. The
 * transactions of every accepted list are found one by one. Beside the history, and without touching it, calls are made on damaged
 * records and chips, and a second chip is fed random and damaged lists.
 */
#include <inttypes.h>
#include <stdio.h>
#include <stdlib.h>
#include <string.h>

#include "check.h"
#include "fewest.h"
#include "groups.h"
#include "ledger.h"
#include "random.h"
#include "reference.h"
#include "walk.h"
#include "world.h"

enum { CALLS = 500000, CALLS_IN_A_HISTORY = 600, MEMBERS = 5, KINDS = TRANSACTION + 1, ANSWERS = 32, LIST_ROOM = 65536 };
enum { FAULT_ROOM = LP586X_FAULT_BYTES + 8, WIDTHS = 2, LAST_READING = 5 };

struct history {
    uint32_t member, bus, pins;
    struct world world;
    struct ledger ledger;
    int locked;        /* by the calls that were accepted */
    struct world wild; /* a chip that is fed anything */
    uint32_t near;     /* a dot number: lamps come in neighbourhoods, so that updates have neighbours to join */
};

static unsigned long seen[KINDS][ANSWERS];
static unsigned long readings_seen[WIDTHS][256];
static unsigned long ledger_compared;

/* ---- What was met of locks */

enum event {
    LOCKED_NOW,
    LOCKED_BEFORE,
    LOCKED_OFF,
    LOCKED_003_DIFFERS,
    LOCKED_004_DIFFERS,
    HELD_003,
    HELD_004,
    HELD_RESERVED,
    RESET_RELEASES,
    POWER_LOST_RELEASES,
    RESET_REFUSED,
    UPDATE_LOCKED,
    UPDATE_PARTED,
    OFF_LOCKED,
    TRIM_SENT_AGAIN,
    EVENTS
};

static const struct {
    const char *name;
    unsigned long least;
} events[EVENTS] = {
    [LOCKED_NOW] = {"records locked", 1000},
    [LOCKED_BEFORE] = {"locked records that were to be locked", 1000},
    [LOCKED_OFF] = {"records that were to be locked with a chip that is off", 200},
    [LOCKED_003_DIFFERS] = {"records that were to be locked and differed at 003h alone", 300},
    [LOCKED_004_DIFFERS] = {"records that were to be locked and differed at 004h alone", 300},
    [HELD_003] = {"Registers on a locked 003h", 1000},
    [HELD_004] = {"Registers on a locked 004h", 1000},
    [HELD_RESERVED] = {"Registers on a locked address with a value that would be refused with 5", 100},
    [RESET_RELEASES] = {"locks released by a reset", 400},
    [POWER_LOST_RELEASES] = {"locks released by a power loss", 400},
    [RESET_REFUSED] = {"locks that a refused reset did not release", 500},
    [UPDATE_LOCKED] = {"updates of locked records", 10000},
    [UPDATE_PARTED] = {"updates of locked records with a write more than unlocked", 1000},
    [OFF_LOCKED] = {"locked records whose chip was turned off", 500},
    [TRIM_SENT_AGAIN] = {"updates that sent 003h or 004h", 5000},
};

static unsigned long met[EVENTS];

static void note(enum event event, int happened)
{
    met[event] += happened != 0;
}

static uint32_t note_answer(enum kind kind, uint32_t answer)
{
    seen[kind][answer < ANSWERS ? answer : ANSWERS - 1]++;
    return answer;
}

/* ---- Arguments */

static uint32_t any_number(void)
{
    static const uint32_t edges[] = {0, 1, 2, 3, 4, 5, 18, 255, 256, 908, 65535, 65536, 0x7FFFFFFF, 0x80000000, 0xFFFFFFFF};

    return one_in(2) ? edges[random_below(sizeof edges / sizeof *edges)] : random_bits();
}

/* A dot of the member, as a number, mostly near the last one. */
static uint32_t existing_dot(struct history *history)
{
    uint32_t dot;

    do
        dot = one_in(4) ? random_below(LP586X_DOTS) : (history->near + random_below(9) + LP586X_DOTS - 4) % LP586X_DOTS;
    while (!reference_dot(history->member, dot / 18, dot % 18) && !one_in(50));
    while (!reference_dot(history->member, dot / 18, dot % 18))
        dot = random_below(LP586X_DOTS);
    history->near = dot;
    return dot;
}

static void some_dot(struct history *history, uint32_t *line, uint32_t *sink)
{
    uint32_t dot = existing_dot(history);

    *line = dot / 18;
    *sink = dot % 18;
    if (one_in(16))
        *line = one_in(2) ? random_below(13) : any_number();
    if (one_in(16))
        *sink = one_in(2) ? random_below(20) : any_number();
}

static int wide(const struct history *history)
{
    return history->ledger.bytes[0x001] >> 2 & 1;
}

/* Some are one below the level from which the chip looks for faults, or that level. */
static uint32_t some_level(const struct history *history)
{
    if (one_in(24))
        return one_in(2) ? any_number() : 250 + random_below(12);
    if (one_in(8))
        return (wide(history) ? 6400 : 25) - random_below(2);
    return one_in(3) ? random_below(4) : random_below(wide(history) ? 65536 : 256);
}

static uint32_t some_address(const struct history *history)
{
    uint32_t address;

    if (one_in(3))
        return one_in(2) ? 0x000 : 0x001;
    if (one_in(4))
        return 0x002 + random_below(5);
    if (one_in(12))
        return one_in(2) ? random_below(1100) : any_number();
    do
        address = random_below(LP586X_REGISTERS);
    while (!reference_writable(history->member, address));
    return address;
}

/* Mostly one with reset values in its reserved bits, and mostly one that has the chip on. */
static uint32_t some_value(const struct history *history, uint32_t address)
{
    uint32_t reserved;

    if (address >= LP586X_REGISTERS || one_in(is_trim(address) ? 5 : 20))
        return one_in(3) ? any_number() : random_below(256);
    if (address == 0x000)
        return !one_in(4);
    reserved = reference_reserved(history->member, address);
    return (reference_reset_value(history->member, address) & reserved) | (random_below(256) & ~reserved);
}

/* A scene of up to some hundred entries with at most a few flaws. */
static size_t some_scene(struct history *history, uint8_t *scene)
{
    uint32_t n = one_in(8) ? random_below(400) : random_below(30), highest = wide(history) ? 65536 : 256;
    size_t size = 2 + 3 * (size_t)n;

    scene[0] = (uint8_t)n;
    scene[1] = (uint8_t)(n >> 8);
    for (uint32_t i = 0; i < n; i++) {
        uint32_t level = random_below(highest);

        scene[2 + i] = (uint8_t)existing_dot(history);
        scene[2 + n + 2 * i] = (uint8_t)level;
        scene[3 + n + 2 * i] = (uint8_t)(level >> 8);
    }
    if (n > 0 && one_in(8))
        scene[2 + random_below(n)] = (uint8_t)random_bits();
    if (n > 0 && one_in(8))
        scene[3 + n + 2 * random_below(n)] = 1;
    if (one_in(16))
        scene[random_below(2)] ^= (uint8_t)(1 << random_below(8));
    if (one_in(16))
        size = random_below((uint32_t)size + 5);
    return size;
}

/* Fault bytes with bits set everywhere, here and there or nowhere, and mostly as many as there are. */
static size_t some_fault_bytes(uint8_t *bytes)
{
    static const uint32_t rates[] = {1, 30, 1000};
    uint32_t times = rates[random_below(3)];

    for (size_t i = 0; i < FAULT_ROOM; i++)
        bytes[i] = one_in(times) ? (uint8_t)random_bits() : 0;
    return one_in(8) ? random_below(FAULT_ROOM + 1) : LP586X_FAULT_BYTES;
}

static size_t some_buffer_size(void)
{
    switch (random_below(6)) {
    case 0:
        return random_below(40);
    case 1:
        return random_below(1200);
    default:
        return LP586X_UPDATE_SIZE;
    }
}

/* ---- Lists that no update makes */

static uint8_t some_head(const struct world *world, uint32_t address)
{
    uint8_t own = (uint8_t)(0x80 | world->chip[2] << 3 | (address >> 8) << 1);

    switch (random_below(8)) {
    case 0:
        return (uint8_t)(0xA8 | (address >> 8) << 1);
    case 1:
        return own | 1;
    case 2:
        return (uint8_t)(own ^ 8 << random_below(5));
    case 3:
        return one_in(2) ? own : (uint8_t)random_bits();
    default:
        return own;
    }
}

static uint32_t some_bus_address(void)
{
    switch (random_below(6)) {
    case 0:
        return 0x000;
    case 1:
        return 0x0A0 + random_below(10);
    case 2:
        return 0x380 + random_below(128);
    default:
        return random_below(1024);
    }
}

static uint8_t some_data(void)
{
    static const uint8_t usual[] = {0x00, 0x01, 0x0F, 0xFF};

    return one_in(2) ? usual[random_below(4)] : (uint8_t)random_bits();
}

static void put_transaction(const struct world *world, uint8_t *at, uint32_t length)
{
    uint32_t address = some_bus_address();

    if (world->chip[1] == 1) {
        at[0] = (uint8_t)(address >> 2);
        at[1] = (uint8_t)(address << 6 | (one_in(6) ? 0 : 0x20) | random_below(32));
    } else {
        at[0] = some_head(world, address);
        at[1] = (uint8_t)address;
    }
    for (uint32_t i = 2; i < length; i++)
        at[i] = some_data();
}

static void put_two(uint8_t *at, size_t value)
{
    at[0] = (uint8_t)value;
    at[1] = (uint8_t)(value >> 8);
}

static size_t some_list(const struct world *world, uint8_t *list)
{
    uint32_t n = one_in(10) ? random_below(60) : random_below(6), longest = one_in(20) ? 1000 : 12;
    size_t size = 4 + 2 * n;

    for (uint32_t i = 0; i < n; i++) {
        uint32_t length = 3 + random_below(longest);

        put_two(list + 4 + 2 * i, length);
        put_transaction(world, list + size, length);
        size += length;
    }
    put_two(list, n);
    put_two(list + 2, size - 4 - 2 * n);
    if (one_in(6))
        list[random_below((uint32_t)(size < 12 ? size : 12))] ^= (uint8_t)(1 << random_below(8));
    if (one_in(12))
        size = random_below((uint32_t)size + 4);
    return size;
}

/* ---- Calls of the history */

/* The settings are those of the ledger, and the record is locked or free as the accepted calls say. */
static void check_record(const struct history *history)
{
    check(memcmp(history->world.record + SETTINGS, history->ledger.bytes, LP586X_REGISTERS) == 0,
          "the settings are not what the ledger holds");
    check(history->world.record[MARKS] == history->locked, "the record has marks %u, but should have %d", history->world.record[MARKS],
          history->locked);
}

/* Whether the reserved bits of the address, or its eight bits, do not take the value. */
static int has_wrong_bits(uint32_t member, uint32_t address, uint32_t value)
{
    return value > 255 || ((value ^ reference_reset_value(member, address)) & reference_reserved(member, address));
}

static void set_register(struct history *history, uint32_t address)
{
    uint32_t value = some_value(history, address);
    uint32_t answer = note_answer(REGISTER, world_set(&history->world, REGISTER, address, value, 0));
    int held = history->locked && is_trim(address);

    check((answer == LP586X_LOCKED) == held, "register %03X of a record with marks %d answers %u", address, history->locked, answer);
    ledger_register(&history->ledger, address, value, answer == LP586X_LOCKED);
    note(HELD_003, held && address == 0x003);
    note(HELD_004, held && address == 0x004);
    note(HELD_RESERVED, held && has_wrong_bits(history->member, address, value));
}

static void set_one(struct history *history)
{
    set_register(history, some_address(history));
}

/* A cue on both sides of the trim, and on it. */
static void set_around_trim(struct history *history)
{
    for (uint32_t address = 0x001; address <= 0x006; address++)
        if (one_in(2))
            set_register(history, address);
}

/* "locking a locked record, or one whose chip image is off or differs from the settings at 003h or 004h"; now and then with a trim that no
 * update has sent. */
static void lock(struct history *history)
{
    const uint8_t *settings = history->world.record + SETTINGS, *image = history->world.record + IMAGE;
    int off, differs_3, differs_4, refused;
    uint32_t answer;

    if (one_in(3))
        set_register(history, 0x003 + random_below(2));
    off = !(image[0x000] & 1);
    differs_3 = settings[0x003] != image[0x003];
    differs_4 = settings[0x004] != image[0x004];
    refused = history->locked || off || differs_3 || differs_4;
    note(LOCKED_BEFORE, history->locked && !off);
    note(LOCKED_OFF, off && !history->locked && !differs_3 && !differs_4);
    note(LOCKED_003_DIFFERS, differs_3 && !differs_4 && !off);
    note(LOCKED_004_DIFFERS, differs_4 && !differs_3 && !off);
    answer = note_answer(LOCK, world_set(&history->world, LOCK, 0, 0, 0));
    check(answer == (refused ? LP586X_NOT_LOCKABLE : LP586X_OK), "locking answers %u", answer);
    note(LOCKED_NOW, answer == 0);
    history->locked |= answer == 0;
}

static void set_dot(struct history *history, enum kind kind)
{
    uint32_t line, sink, value;

    some_dot(history, &line, &sink);
    value = kind == LAMP ? some_level(history) : one_in(20) ? any_number() : random_below(kind == GROUP ? 4 : 2);
    note_answer(kind, world_set(&history->world, kind, line, sink, value));
    if (kind == LAMP)
        ledger_lamp(&history->ledger, line, sink, value);
    else if (kind == GROUP)
        ledger_group(&history->ledger, line, sink, value);
    else
        ledger_switch(&history->ledger, line, sink, value);
}

static void set_scene(struct history *history)
{
    static uint8_t scene[2 + 3 * 400 + 8];
    size_t size = some_scene(history, scene);

    note_answer(SCENE, world_scene(&history->world, scene, size));
    ledger_scene(&history->ledger, scene, size);
}

/* "The list of an accepted Update or Reset is fed to the chip as soon as it is answered"; here a Clear's too. */
static void feed_answer(struct history *history, const struct outcome *outcome)
{
    static uint8_t list[LP586X_UPDATE_SIZE];
    size_t size = 4 + 2 * (size_t)outcome->n + outcome->t;
    struct world other;

    memcpy(list, outcome->buffer, size);
    check(walk(list, size) == outcome->n, "the list has other than %u transactions", outcome->n);
    other = history->world;
    check(note_answer(FEED, world_feed(&history->world, list, size)) == 0, "the chip refuses the list");
    if (!one_in(8))
        return;
    feed_one_by_one(&other, list);
    check(memcmp(other.chip, history->world.chip, sizeof other.chip) == 0, "one at a time, the transactions leave another chip");
}

/* "Demand 3 compares its writable bytes." */
static void check_chip(const struct history *history)
{
    int equal = 1;

    for (uint32_t address = 0; address < LP586X_REGISTERS; address++)
        if (reference_writable(history->member, address))
            equal &= history->world.chip[CHIP_REGISTERS + address] == history->ledger.bytes[address];
    check(equal, "the chip's registers are not what the ledger holds");
    ledger_compared++;
}

/* An update of the same record, not locked: as many bytes, and one write fewer just where one goes across 003h and 004h. */
static void check_unlocked(uint32_t n, uint32_t t, const uint8_t *before)
{
    const uint8_t *settings = before + SETTINGS, *image = before + IMAGE;
    int across = (settings[0x000] & 1) && settings[0x002] != image[0x002] && settings[0x005] != image[0x005];
    struct world unlocked;
    struct outcome outcome;

    memcpy(unlocked.record, before, sizeof unlocked.record);
    unlocked.record[MARKS] = FREE;
    outcome = world_list(&unlocked, UPDATE, LP586X_UPDATE_SIZE);
    check(outcome.answer == 0 && outcome.t == t, "unlocked it answers %u, and t is %u, not %u", outcome.answer, outcome.t, t);
    check(n == outcome.n + across, "n is %u, and %u unlocked", n, outcome.n);
    note(UPDATE_LOCKED, 1);
    note(UPDATE_PARTED, across);
}

/* The outcome is that of an update whose list was read: the buffer holds another one afterwards. */
static void check_cost(const struct outcome *outcome, const uint8_t *before)
{
    struct cost cost = fewest(before[0], before[MARKS] == LOCKED, before + SETTINGS, before + IMAGE);

    check(outcome->t == cost.bytes && outcome->n == cost.writes, "n is %u and t is %u, but %u and %u would do", outcome->n,
          outcome->t, cost.writes, cost.bytes);
    check(outcome->t <= 702, "t is %u", outcome->t);
    note(OFF_LOCKED, before[MARKS] == LOCKED && (before[IMAGE] & 1) && !(before[SETTINGS] & 1));
    note(TRIM_SENT_AGAIN, (before[SETTINGS] & 1) && memcmp(before + SETTINGS + 0x003, before + IMAGE + 0x003, 2) != 0);
    if (before[MARKS] == LOCKED)
        check_unlocked(outcome->n, outcome->t, before);
}

static void update(struct history *history)
{
    uint8_t before[LP586X_RECORD_SIZE];
    struct outcome outcome;

    memcpy(before, history->world.record, sizeof before);
    outcome = world_list(&history->world, UPDATE, some_buffer_size());
    if (note_answer(UPDATE, outcome.answer) != 0)
        return;
    feed_answer(history, &outcome);
    check_cost(&outcome, before);
    if (ledger_wants_on(&history->ledger))
        check_chip(history);
}

static void command(struct history *history, enum kind kind)
{
    struct outcome outcome = world_list(&history->world, kind, random_below(16));

    note(RESET_REFUSED, kind == RESET && history->locked && outcome.answer != 0);
    if (note_answer(kind, outcome.answer) != 0)
        return;
    feed_answer(history, &outcome);
    if (kind == RESET) {
        note(RESET_RELEASES, history->locked);
        history->locked = 0;
    }
}

static void lose_power(struct history *history)
{
    check(note_answer(POWER_LOST, world_set(&history->world, POWER_LOST, 0, 0, 0)) == 0, "a power loss is refused");
    note_answer(CHIP_POWER_LOST, world_chip_power_lost(&history->world));
    note(POWER_LOST_RELEASES, history->locked);
    history->locked = 0;
}

/* ---- Calls beside the history */

static void feed_anything(struct history *history)
{
    static uint8_t list[LIST_ROOM];
    size_t size = some_list(&history->wild, list);

    if (one_in(8))
        world_any_faults(&history->wild);
    note_answer(FEED, world_feed(&history->wild, list, size));
}

/* An index that the list mostly has. */
static void find_transaction(const struct history *history)
{
    static uint8_t list[LIST_ROOM];
    size_t size = some_list(&history->wild, list);
    uint32_t index = one_in(8) ? any_number() : random_below(list[0] + 1u);
    struct call call = transaction_call(list, size, index);

    note_answer(TRANSACTION, both(&call).answer);
}

/* A byte of the head, marks among them, one that a record has for 003h or 004h, or any. */
static uint32_t some_place(size_t size)
{
    static const uint32_t trims[] = {SETTINGS + 0x003, SETTINGS + 0x004, IMAGE + 0x003, IMAGE + 0x004};
    uint32_t trim = trims[random_below(4)];

    if (one_in(4))
        return random_below(4);
    return one_in(4) && trim < size ? trim : random_below((uint32_t)size);
}

/* Some bytes are changed, or the size is wrong, or both. */
static void damage(uint8_t *state, size_t *size)
{
    uint32_t times = random_below(4);

    for (uint32_t i = 0; i < times; i++) {
        uint32_t at = some_place(*size);

        state[at] = one_in(2) ? (uint8_t)(state[at] ^ 1 << random_below(8)) : (uint8_t)random_bits();
    }
    if (times == 0 || one_in(8))
        *size = one_in(2) ? *size + 1 - 2 * random_below(2) : random_below(2000);
}

/* The bytes that a call is lent to be read, if any. */
static size_t some_input(struct history *history, enum kind kind, uint8_t *input)
{
    switch (kind) {
    case SCENE:
        return some_scene(history, input);
    case FEED:
        return some_list(&history->wild, input);
    case FAULTS:
        return some_fault_bytes(input);
    default:
        return 0;
    }
}

/* Any call that is lent a record or a chip, on a damaged copy, with arguments that are mostly right. */
static void call_on_damaged(struct history *history)
{
    static uint8_t state[2048], input[LIST_ROOM];
    struct call call = {.kind = (enum kind)random_below(TRANSACTION), .state = state, .input = input};
    int on_chip = call.kind > FAULTS;

    memset(state, 0, sizeof state);
    memcpy(state, on_chip ? history->wild.chip : history->world.record, on_chip ? LP586X_CHIP_SIZE : LP586X_RECORD_SIZE);
    call.state_size = on_chip ? LP586X_CHIP_SIZE : LP586X_RECORD_SIZE;
    damage(state, &call.state_size);
    call.buffer_size = some_buffer_size();
    if (call.kind == OPEN || call.kind == CHIP_AT_RESET) {
        call.numbers[0] = one_in(4) ? any_number() : random_below(MEMBERS);
        call.numbers[1] = one_in(4) ? any_number() : random_below(2);
        call.numbers[2] = one_in(4) ? any_number() : one_in(2) ? 0 : random_below(4);
    } else if (call.kind == REGISTER) {
        call.numbers[0] = some_address(history);
        call.numbers[1] = some_value(history, call.numbers[0]);
    } else {
        some_dot(history, &call.numbers[0], &call.numbers[1]);
        call.numbers[2] = random_below(5);
    }
    call.input_size = some_input(history, call.kind, input);
    note_answer(call.kind, both(&call).answer);
}

/* Any images in a sound record, which is locked or not. */
static void scatter_both(uint8_t *record)
{
    static const uint32_t rates[] = {200, 20, 5, 2, 1};

    scatter(record[0], record + IMAGE, rates[random_below(5)]);
    scatter(record[0], record + SETTINGS, rates[random_below(5)]);
    record[MARKS] = one_in(2) ? LOCKED : FREE;
    if (record[MARKS] == LOCKED)
        trims_from_image(record);
}

/* On the history's record, or on one with any images. */
static void read_faults(const struct history *history)
{
    struct world world = history->world;
    uint8_t bytes[FAULT_ROOM];
    size_t size = some_fault_bytes(bytes), result_size = one_in(8) ? random_below(220) : LP586X_DOTS + random_below(20);
    struct call call = faults_call(&world, bytes, size, result_size);
    struct outcome outcome;

    if (one_in(4))
        scatter_both(world.record);
    outcome = both(&call);
    if (note_answer(FAULTS, outcome.answer) != 0)
        return;
    for (uint32_t dot = 0; dot < LP586X_DOTS; dot++)
        readings_seen[world.record[IMAGE + 0x001] >> 2 & 1][outcome.buffer[dot]]++;
}

/* An update of a sound record whose two images are any images, fed to a chip that holds the second. */
static void update_any_images(const struct history *history)
{
    struct history other = *history;
    uint8_t before[LP586X_RECORD_SIZE];
    struct outcome outcome;

    scatter_both(other.world.record);
    memcpy(other.world.chip + CHIP_REGISTERS, other.world.record + IMAGE, LP586X_REGISTERS);
    memcpy(before, other.world.record, sizeof before);
    outcome = world_list(&other.world, UPDATE, LP586X_UPDATE_SIZE);
    check(note_answer(UPDATE, outcome.answer) == 0, "an update of a sound record is refused with %u", outcome.answer);
    if (outcome.answer != 0)
        return;
    feed_answer(&other, &outcome);
    check_cost(&outcome, before);
    check(memcmp(other.world.chip + CHIP_REGISTERS, other.world.record + IMAGE, LP586X_REGISTERS) == 0,
          "the chip is not what the record believes");
    if (before[SETTINGS] & 1)
        check(memcmp(other.world.chip + CHIP_REGISTERS, before + SETTINGS, LP586X_REGISTERS) == 0,
              "the chip does not hold the settings");
}

/* ---- Histories */

static void one_call(struct history *history)
{
    uint32_t choice = random_below(100);

    if (choice < 11)
        set_one(history);
    else if (choice < 14)
        set_around_trim(history);
    else if (choice < 17)
        lock(history);
    else if (choice < 36)
        set_dot(history, LAMP);
    else if (choice < 43)
        set_dot(history, GROUP);
    else if (choice < 50)
        set_dot(history, SWITCH);
    else if (choice < 58)
        set_scene(history);
    else if (choice < 73)
        update(history);
    else if (choice < 75)
        command(history, RESET);
    else if (choice < 76)
        lose_power(history);
    else if (choice < 78)
        command(history, CLEAR);
    else if (choice < 80)
        read_faults(history);
    else if (choice < 85)
        feed_anything(history);
    else if (choice < 87)
        find_transaction(history);
    else if (choice < 96)
        call_on_damaged(history);
    else
        update_any_images(history);
    check_record(history);
}

static void start(struct history *history)
{
    history->member = random_below(MEMBERS);
    history->bus = one_in(3);
    history->pins = history->bus == 0 ? random_below(4) : 0;
    history->near = 0;
    history->locked = 0;
    world_open(&history->world, history->member, history->bus, history->pins);
    world_open(&history->wild, history->member, history->bus, history->pins);
    ledger_start(&history->ledger, history->member);
}

static void run_history(unsigned long first_call)
{
    static struct history history;
    unsigned long until = first_call + CALLS_IN_A_HISTORY;

    start(&history);
    while (calls_made() < until)
        one_call(&history);
}

/* The refusals that each call can give. */
static const uint8_t refusals[KINDS][5] = {
    [OPEN] = {14, 1, 2, 3},
    [REGISTER] = {14, 4, 17, 5},
    [LAMP] = {14, 6, 7},
    [GROUP] = {14, 6, 8},
    [SWITCH] = {14, 6, 8},
    [SCENE] = {14, 9, 6, 7},
    [POWER_LOST] = {14},
    [LOCK] = {14, 18},
    [UPDATE] = {14, 10},
    [RESET] = {14, 10},
    [CLEAR] = {14, 10},
    [FAULTS] = {14, 13, 10},
    [CHIP_AT_RESET] = {14, 1, 2, 3},
    [CHIP_POWER_LOST] = {14},
    [FEED] = {14, 11},
    [TRANSACTION] = {11, 26},
};

/* Each was given, and each call was accepted, and nothing else was answered. Faults gave each reading in both widths. Locks met all that
 * they can meet. */
static void check_all_seen(void)
{
    for (uint32_t kind = 0; kind < KINDS; kind++) {
        unsigned long others = 0;

        for (uint32_t answer = 0; answer < ANSWERS; answer++) {
            int can_give = answer == 0 || memchr(refusals[kind], (int)answer, sizeof refusals[kind]) != NULL;

            if (can_give)
                check(seen[kind][answer] > 0, "call %u never answered %u", kind, answer);
            else
                others += seen[kind][answer];
        }
        check(others == 0, "call %u gave %lu other answers", kind, others);
    }
    for (uint32_t width = 0; width < WIDTHS; width++)
        for (uint32_t reading = 0; reading <= LAST_READING; reading++)
            check(readings_seen[width][reading] > 0, "no dot of %u bits read %u", 8 + 8 * width, reading);
    for (int i = 0; i < EVENTS; i++)
        check(met[i] >= events[i].least, "%lu %s", met[i], events[i].name);
}

void group_histories(uint64_t seed)
{
    unsigned long first = calls_made(), histories = 0;
    char text[200], place[40];

    group("random histories");
    random_seed(seed);
    while (calls_made() - first < CALLS) {
        snprintf(place, sizeof place, "history %lu", histories++);
        context(place);
        run_history(calls_made());
    }
    context("");
    check_all_seen();
    snprintf(text, sizeof text, "seed %" PRIu64 ", %lu calls in %lu histories, %lu chips compared with a ledger, %lu locks", seed,
             calls_made() - first, histories, ledger_compared, met[LOCKED_NOW]);
    group_done(text);
}
