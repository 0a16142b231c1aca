/* Rounds over four records. Some lists are worked out by hand. Then random histories: settings change at any of the places, chips lose
 * their power, records are locked and released, and rounds are taken with any limit and any places present, many of them with flaws that
 * must be refused, in the papers' order. Of an accepted round each portion must begin the list of its place's update, and of a locked
 * record none may write to 003h or 004h; the four chips hear the list and must hold their images. Last, settings stand still: each place
 * must be finished in as many rounds as it had differing registers.
 */
#include <inttypes.h>
#include <stdio.h>
#include <string.h>

#include "check.h"
#include "groups.h"
#include "panels.h"
#include "random.h"
#include "reference.h"
#include "walk.h"

enum { RANDOM_ROUNDS = 140000, ROUNDS_IN_A_HISTORY = 200, STARTS = 120, MEMBERS = 5, ANSWERS = 17 };

/* A round's arguments. The records have room behind them for a size that is too large. */
struct turn {
    uint8_t records[LP586X_RECORDS_SIZE + LP586X_RECORD_SIZE];
    size_t records_size;
    uint32_t present, limit;
    size_t buffer_size;
};

/* ---- What was met */

enum event {
    ACCEPTED,
    CUT,
    BEYOND_SHARE,
    NOTHING_SENT,
    ABSENT,
    TURNED_ON,
    TURNED_OFF,
    FINISHED,
    IN_THE_LAST_ROUND,
    OF_LOCKED,
    PARTED,
    LOCKED_NOW,
    RELEASED,
    HELD,
    EVENTS
};

static const struct {
    const char *name;
    unsigned long least;
} events[EVENTS] = {
    [ACCEPTED] = {"accepted rounds", 80000},
    [CUT] = {"writes cut", 20000},
    [BEYOND_SHARE] = {"portions beyond the share", 20000},
    [NOTHING_SENT] = {"rounds with an empty list", 100},
    [ABSENT] = {"absent places with writes pending", 20000},
    [TURNED_ON] = {"chips turned on", 1000},
    [TURNED_OFF] = {"chips turned off", 1000},
    [FINISHED] = {"places that came to an end", 1000},
    [IN_THE_LAST_ROUND] = {"places that took as many rounds as they had differing registers", 50},
    [OF_LOCKED] = {"portions of locked records", 20000},
    [PARTED] = {"portions that have 002h and 005h, and not what a lock has between them", 500},
    [LOCKED_NOW] = {"records locked", 1000},
    [RELEASED] = {"locks released", 500},
    [HELD] = {"Registers on a locked 003h or 004h", 500},
};

static unsigned long met[EVENTS], rounds, overruled[ANSWERS][ANSWERS];

static void note(enum event event, int happened)
{
    met[event] += happened != 0;
}

static int takes_part(const struct turn *turn, uint32_t place)
{
    return turn->present >> place & 1;
}

/* ---- Lists */

struct cursor {
    const uint8_t *lengths, *at;
    uint32_t left;
};

static struct cursor first_of(const uint8_t *list)
{
    uint32_t n = get_two(list);

    return (struct cursor){list + 4, list + 4 + 2 * n, n};
}

static uint32_t length_at(const struct cursor *cursor)
{
    return cursor->left == 0 ? 0 : get_two(cursor->lengths);
}

static void step(struct cursor *cursor)
{
    if (cursor->left == 0)
        return;
    cursor->at += get_two(cursor->lengths);
    cursor->lengths += 2;
    cursor->left--;
}

/* The list that an update of the record would give; answers its t. */
static uint32_t pending(const uint8_t *record, uint8_t *list)
{
    uint8_t copy[LP586X_RECORD_SIZE];
    uint32_t n = 0, t = 0, stored = 0, needed, answer;

    memcpy(copy, record, sizeof copy);
    answer = lp586x_update(copy, sizeof copy, list, LP586X_UPDATE_SIZE, &n, &t, &stored, &needed);
    check(answer == 0 && stored == t - 2 * n, "an update is answered %u, %u, %u, %u", answer, n, t, stored);
    return t;
}

/* ---- What holds after an accepted round */

/* An absent record is unchanged, and of a present one all but its chip image. */
static void check_records(const struct turn *turn, const uint8_t *after)
{
    for (uint32_t place = 0; place < PLACES; place++) {
        size_t at = place * LP586X_RECORD_SIZE, kept = takes_part(turn, place) ? (size_t)IMAGE : LP586X_RECORD_SIZE;

        check(memcmp(turn->records + at, after + at, kept) == 0, "the record at place %u has changed", place);
    }
}

/* A write of a round to these addresses; the chips are on I2C. */
static int writes_to(const struct cursor *round, uint32_t first, uint32_t last)
{
    uint32_t start = (round->at[0] >> 1 & 3u) << 8 | round->at[1];

    return start <= last && start + length_at(round) - 2 > first;
}

/* The transactions from here on that go to the place begin its pending list, the last one cut where needed. Answers their bytes. */
static uint32_t check_beginning(struct cursor *round, uint32_t place, struct cursor pending_list, int locked)
{
    uint32_t bytes = 0;
    int begins = 1, is_cut = 0, to_trim = 0, to_002 = 0, to_005 = 0;

    while (round->left > 0 && (round->at[0] >> 3 & 3u) == place) {
        uint32_t length = length_at(round), whole = length_at(&pending_list);

        begins = begins && !is_cut && length >= 3 && length <= whole && memcmp(round->at, pending_list.at, length) == 0;
        is_cut = length < whole;
        to_trim |= writes_to(round, 0x003, 0x004);
        to_002 |= writes_to(round, 0x002, 0x002);
        to_005 |= writes_to(round, 0x005, 0x005);
        bytes += length;
        step(round);
        step(&pending_list);
    }
    check(begins, "place %u is sent what does not begin its update", place);
    note(CUT, is_cut);
    if (locked)
        check(!to_trim, "place %u is locked, and 003h or 004h is written", place);
    note(OF_LOCKED, locked && bytes > 0);
    note(PARTED, locked && to_002 && to_005);
    return bytes;
}

/* A place that is not sent all gets its share, but for two bytes in which no write fits. */
static int check_portion(const struct turn *turn, struct cursor *round, uint32_t place, const uint8_t *before)
{
    static const uint8_t nothing[4];
    uint8_t list[LP586X_UPDATE_SIZE];
    uint32_t share = turn->limit / PLACES, whole = pending(before, list), sent;

    note(ABSENT, !takes_part(turn, place) && whole > 0);
    if (!takes_part(turn, place)) {
        check_beginning(round, place, first_of(nothing), 0);
        return 0;
    }
    sent = check_beginning(round, place, first_of(list), before[MARKS] == LOCKED);
    check(sent == whole || sent + 2 >= share, "place %u is sent %u of %u bytes, its share is %u", place, sent, whole, share);
    note(BEYOND_SHARE, sent > share);
    return sent < whole;
}

/* In the order of the places. As long as one of them waits, the limit is used, but for two bytes. */
static void check_portions(const struct panels *panels, const struct turn *turn, const struct outcome *outcome)
{
    struct cursor round = first_of(outcome->buffer);
    int waits = 0;

    for (uint32_t place = 0; place < PLACES; place++)
        waits |= check_portion(turn, &round, place, panels->at[place].record);
    check(round.left == 0, "%u transactions are not in the order of the places", round.left);
    check(outcome->t <= turn->limit, "%u bytes within %u", outcome->t, turn->limit);
    check(!waits || outcome->t + 2 >= turn->limit, "%u bytes within %u, and a place waits", outcome->t, turn->limit);
    check(4 + 2 * outcome->n + outcome->t <= LP586X_ROUND_SIZE, "n is %u, t is %u", outcome->n, outcome->t);
}

/* Every chip of the bus hears the list, and is then what its record takes it for. */
static void feed(struct panels *panels, const struct outcome *outcome)
{
    for (uint32_t place = 0; place < PLACES; place++) {
        struct world *world = &panels->at[place];
        uint8_t was_on = world->chip[CHIP_REGISTERS] & 1, is_on;
        uint32_t answer =
            lp586x_chip_feed(world->chip, sizeof world->chip, outcome->buffer, 4 + 2 * (size_t)outcome->n + outcome->t);

        check(answer == 0, "the chip at place %u refuses the list with %u", place, answer);
        check(memcmp(world->chip + CHIP_REGISTERS, world->record + IMAGE, LP586X_REGISTERS) == 0,
              "the chip at place %u is not what its record believes", place);
        is_on = world->chip[CHIP_REGISTERS] & 1;
        note(TURNED_ON, is_on && !was_on);
        note(TURNED_OFF, was_on && !is_on);
    }
}

static void keep(struct panels *panels, const struct turn *turn, const uint8_t *records)
{
    for (uint32_t place = 0; place < PLACES; place++)
        if (takes_part(turn, place))
            memcpy(panels->at[place].record, records + place * LP586X_RECORD_SIZE, LP586X_RECORD_SIZE);
}

/* One round, which must be answered so. */
static void take(struct panels *panels, const struct turn *turn, uint32_t expected)
{
    struct call call = round_call(turn->records, turn->present, turn->limit, turn->buffer_size);
    struct outcome outcome;

    call.state_size = turn->records_size;
    outcome = both(&call);
    rounds++;
    check(outcome.answer == expected, "%s: answers %u, not %u", call_text(&call), outcome.answer, expected);
    if (outcome.answer != 0)
        return;
    note(ACCEPTED, 1);
    note(NOTHING_SENT, outcome.n == 0);
    check_records(turn, outcome.state);
    check_portions(panels, turn, &outcome);
    keep(panels, turn, outcome.state);
    feed(panels, &outcome);
}

/* ---- Flaws */

/* A record that takes part, or one that does not; NULL if there is none. */
static uint8_t *some_record(struct turn *turn, int present)
{
    uint32_t first = random_below(PLACES);

    for (uint32_t i = 0; i < PLACES; i++)
        if (takes_part(turn, (first + i) % PLACES) == present)
            return turn->records + (first + i) % PLACES * LP586X_RECORD_SIZE;
    return NULL;
}

static int other_size(struct turn *turn)
{
    static const size_t sizes[] = {0, LP586X_RECORD_SIZE, 3 * LP586X_RECORD_SIZE, LP586X_RECORDS_SIZE - 1, LP586X_RECORDS_SIZE + 1,
                                   5 * LP586X_RECORD_SIZE};

    turn->records_size = one_in(3) ? random_below(LP586X_RECORDS_SIZE) : sizes[random_below(sizeof sizes / sizeof *sizes)];
    return 1;
}

static int present_above(struct turn *turn)
{
    turn->present |= one_in(2) ? 16u << random_below(28) : random_bits() | 16;
    return 1;
}

static void spoil_image(uint8_t *record)
{
    uint32_t address, bit;

    do {
        address = random_below(LP586X_REGISTERS);
        bit = 1u << random_below(8);
    } while (!(reference_reserved(record[0], address) & bit));
    record[(one_in(2) ? SETTINGS : IMAGE) + address] ^= (uint8_t)bit;
}

static int unsound_present(struct turn *turn)
{
    static const uint32_t first_bad[4] = {5, 2, 4, 2};
    uint8_t *record = some_record(turn, 1);
    uint32_t at = random_below(8);

    if (record == NULL)
        return 0;
    if (at < 4)
        record[at] = (uint8_t)(first_bad[at] + random_below(256 - first_bad[at]));
    else
        spoil_image(record);
    return 1;
}

/* A locked record whose images differ at 003h or 004h; reserved bits are as they were. */
static int locked_unlike(struct turn *turn)
{
    uint8_t *record = some_record(turn, 1);
    uint32_t address = 0x003 + random_below(2);

    if (record == NULL)
        return 0;
    record[MARKS] = LOCKED;
    record[IMAGE + address] = record[SETTINGS + address] ^ 0x04;
    return 1;
}

static int limit_below(struct turn *turn)
{
    turn->limit = one_in(2) ? 11 : random_below(12);
    return 1;
}

static int limit_above(struct turn *turn)
{
    turn->limit = one_in(2) ? 4097 : one_in(2) ? 65536 + random_below(4097) : 4097 + random_below(0xFFFFFFFF - 4096);
    return 1;
}

static int to_spi(uint8_t *record)
{
    if (record == NULL)
        return 0;
    record[1] = LP586X_SPI;
    record[2] = 0;
    return 1;
}

static int to_other_pins(uint8_t *record)
{
    if (record == NULL)
        return 0;
    record[2] = (uint8_t)((record[2] + 1 + random_below(3)) % 4);
    return 1;
}

static int on_spi(struct turn *turn)
{
    return to_spi(some_record(turn, 1));
}

static int other_pins(struct turn *turn)
{
    return to_other_pins(some_record(turn, 1));
}

/* The size of the round's list, while nothing else is wrong. */
static size_t list_size(const struct turn *turn)
{
    static uint8_t records[LP586X_RECORDS_SIZE], buffer[LP586X_ROUND_SIZE];
    uint32_t n = 0, t = 0, answer;

    memcpy(records, turn->records, sizeof records);
    answer = reference_round(records, sizeof records, turn->present, turn->limit, buffer, sizeof buffer, &n, &t);
    check(answer == 0, "a round is refused with %u", answer);
    return 4 + 2 * n + t;
}

static int one_short(struct turn *turn)
{
    turn->buffer_size = list_size(turn) - 1;
    return 1;
}

static int far_too_short(struct turn *turn)
{
    turn->buffer_size = random_below((uint32_t)list_size(turn));
    return 1;
}

static int just_enough(struct turn *turn)
{
    turn->buffer_size = list_size(turn);
    return 1;
}

static int unsound_absent(struct turn *turn)
{
    uint8_t *record = some_record(turn, 0);

    if (record == NULL)
        return 0;
    for (uint32_t i = 0; i < LP586X_RECORD_SIZE; i++)
        record[i] = (uint8_t)random_bits();
    record[0] |= 8;
    return 1;
}

static int absent_on_spi(struct turn *turn)
{
    return to_spi(some_record(turn, 0));
}

static int absent_with_other_pins(struct turn *turn)
{
    return to_other_pins(some_record(turn, 0));
}

static int least_limit(struct turn *turn)
{
    turn->limit = 12;
    return 1;
}

static int most_limit(struct turn *turn)
{
    turn->limit = 4096;
    return 1;
}

static int nobody(struct turn *turn)
{
    turn->present = 0;
    return 1;
}

/* In the order of the refusals; 0 is the answer where nothing must come of it. They are made from the last one on, so that the size of a
 * list is asked for before anything is wrong, and a record on SPI is not made sound again. */
static const struct {
    uint32_t answer;
    const char *name;
    int (*make)(struct turn *turn); /* 0 if there is no place for it */
} flaws[] = {
    {14, "another size of the records", other_size},
    {14, "present above 15", present_above},
    {14, "an unsound record", unsound_present},
    {14, "a locked record whose images differ at 003h or 004h", locked_unlike},
    {15, "a limit below 12", limit_below},
    {15, "a limit above 4,096", limit_above},
    {16, "a record on SPI", on_spi},
    {16, "pins of another place", other_pins},
    {10, "a buffer one byte short", one_short},
    {10, "a short buffer", far_too_short},
    {0, "a buffer just as long as the list", just_enough},
    {0, "an unsound record that is absent", unsound_absent},
    {0, "an absent record on SPI", absent_on_spi},
    {0, "an absent record with pins of another place", absent_with_other_pins},
    {0, "the least limit", least_limit},
    {0, "the most limit", most_limit},
    {0, "no record present", nobody},
};

enum { FLAWS = sizeof flaws / sizeof *flaws, LEAST_OF_EACH = 500, LEAST_OVERRULED = 200 };

static unsigned long flaw_met[FLAWS];

/* Makes some of them. Answers what must come of it. */
static uint32_t make_flaws(struct turn *turn, uint32_t wanted)
{
    uint32_t made = 0, answer = 0;

    for (int i = FLAWS - 1; i >= 0; i--) {
        if (!(wanted >> i & 1) || !flaws[i].make(turn))
            continue;
        made |= 1u << i;
        if (flaws[i].answer == 0)
            continue;
        overruled[flaws[i].answer][answer]++;
        answer = flaws[i].answer;
    }
    for (int i = 0; i < FLAWS; i++)
        flaw_met[i] += (made >> i & 1) && flaws[i].answer == answer;
    return answer;
}

/* ---- Histories */

static uint32_t some_limit(void)
{
    switch (random_below(4)) {
    case 0:
        return 12 + random_below(12);
    case 1:
        return 12 + random_below(4085);
    default:
        return 12 + random_below(300);
    }
}

static uint32_t some_flaws(void)
{
    uint32_t wanted = 0, times = one_in(2) ? 0 : 1 + random_below(3);

    for (uint32_t i = 0; i < times; i++)
        wanted |= 1u << random_below(FLAWS);
    return wanted;
}

static void plain_turn(const struct panels *panels, struct turn *turn, uint32_t limit)
{
    memset(turn, 0, sizeof *turn);
    panels_lend(panels, turn->records);
    turn->records_size = LP586X_RECORDS_SIZE;
    turn->present = one_in(2) ? (uint32_t)ALL_PRESENT : random_below(ALL_PRESENT + 1);
    turn->limit = limit;
    turn->buffer_size = one_in(4) ? LP586X_ROUND_SIZE + random_below(64) : LP586X_ROUND_SIZE;
}

static void reset(struct world *world)
{
    uint8_t list[LP586X_COMMAND_SIZE];
    struct outcome outcome = world_list(world, RESET, sizeof list);

    check(outcome.answer == 0, "a reset is refused with %u", outcome.answer);
    memcpy(list, outcome.buffer, sizeof list);
    check(world_feed(world, list, sizeof list) == 0, "the chip refuses a reset");
}

/* Reset or power loss: a lock is released. */
static void release(struct world *world, int by_reset)
{
    note(RELEASED, world->record[MARKS] == LOCKED);
    if (by_reset) {
        reset(world);
    } else {
        check(world_set(world, POWER_LOST, 0, 0, 0) == 0, "a power loss is refused");
        world_chip_power_lost(world);
    }
    check(world->record[MARKS] == FREE, "the record has marks %u", world->record[MARKS]);
}

/* A value for 003h or 004h, which a locked record refuses; then an update and the lock. A chip that is off cannot be locked. */
static void trim_and_lock(struct world *world)
{
    int locked = world->record[MARKS] == LOCKED, on = world->record[SETTINGS] & 1;
    uint32_t address = 0x003 + random_below(2), value = world->record[SETTINGS + address] ^ 0x04, answer;

    answer = world_set(world, REGISTER, address, value, 0);
    check(answer == (locked ? LP586X_LOCKED : LP586X_OK), "register %03X answers %u", address, answer);
    world_sync(world);
    answer = world_set(world, LOCK, 0, 0, 0);
    check(answer == (locked || !on ? LP586X_NOT_LOCKABLE : LP586X_OK), "locking answers %u", answer);
    note(HELD, locked);
    note(LOCKED_NOW, answer == 0);
}

/* A level that every data mode takes, on a dot of the member. */
static void set_lamp(struct world *world)
{
    uint32_t dot;

    do
        dot = random_below(LP586X_DOTS);
    while (!reference_dot(world->record[0], dot / 18, dot % 18));
    check(world_set(world, LAMP, dot / 18, dot % 18, random_below(256)) == 0, "dot %u is refused", dot);
}

/* Any settings, mostly of a chip that is on; 002h to 005h change together more often. A lock keeps 003h and 004h. */
static void any_settings(struct world *world, uint32_t times)
{
    uint8_t *settings = world->record + SETTINGS;

    scatter(world->record[0], settings, times);
    if (one_in(4))
        for (uint32_t address = 0x002; address <= 0x005; address++)
            settings[address] ^= 0x04;
    if (world->record[MARKS] == LOCKED)
        trims_from_image(world->record);
    settings[0x000] = !one_in(8);
}

static void change(struct world *world)
{
    static const uint32_t rates[] = {200, 50, 20, 5, 2};

    switch (random_below(16)) {
    case 0:
        world_sync(world);
        break;
    case 1:
    case 2:
        release(world, one_in(2));
        break;
    case 3:
    case 4:
        world_set(world, REGISTER, 0x000, !one_in(3), 0);
        break;
    case 5:
    case 6:
    case 7:
    case 8:
        any_settings(world, rates[random_below(5)]);
        break;
    case 9:
    case 10:
        trim_and_lock(world);
        break;
    default:
        set_lamp(world);
    }
}

/* Any members, and chips that hold anything; half of the records are locked. */
static void start(struct panels *panels)
{
    uint32_t members[PLACES];

    for (uint32_t place = 0; place < PLACES; place++)
        members[place] = random_below(MEMBERS);
    panels_open(panels, members);
    for (uint32_t place = 0; place < PLACES; place++) {
        struct world *world = &panels->at[place];

        scatter(members[place], world->record + IMAGE, 1 + random_below(20));
        memcpy(world->chip + CHIP_REGISTERS, world->record + IMAGE, LP586X_REGISTERS);
        memcpy(world->record + SETTINGS, world->record + IMAGE, LP586X_REGISTERS);
        world->record[MARKS] = one_in(2) ? LOCKED : FREE;
    }
}

static void run_history(void)
{
    static struct panels panels;
    static struct turn turn;

    start(&panels);
    for (int i = 0; i < ROUNDS_IN_A_HISTORY; i++) {
        uint32_t expected;

        change(&panels.at[random_below(PLACES)]);
        plain_turn(&panels, &turn, some_limit());
        expected = make_flaws(&turn, some_flaws());
        take(&panels, &turn, expected);
    }
}

/* ---- Settings that stand still */

static uint32_t differing(const uint8_t *record)
{
    uint32_t count = 0;

    for (uint32_t address = 0; address < LP586X_REGISTERS; address++)
        count += record[SETTINGS + address] != record[IMAGE + address];
    return count;
}

static void check_finished(const struct world *world, uint32_t used, uint32_t allowed)
{
    note(FINISHED, 1);
    note(IN_THE_LAST_ROUND, used > 1 && used == allowed);
    if (world->record[SETTINGS] & 1)
        check(memcmp(world->chip + CHIP_REGISTERS, world->record + SETTINGS, LP586X_REGISTERS) == 0,
              "a finished chip does not hold the settings");
}

/* The places that still wait, a bit for each; none may that has had its rounds. Those that no longer wait are finished. */
static uint32_t still_waiting(const struct panels *panels, uint32_t before, const uint32_t *used, const uint32_t *allowed)
{
    uint8_t list[LP586X_UPDATE_SIZE];
    uint32_t after = 0;

    for (uint32_t place = 0; place < PLACES; place++) {
        int waits = pending(panels->at[place].record, list) > 0;

        check(!waits || used[place] < allowed[place], "place %u waits after %u rounds", place, used[place]);
        after |= (uint32_t)waits << place;
        if (!waits && (before >> place & 1))
            check_finished(&panels->at[place], used[place], allowed[place]);
    }
    return after;
}

static void finish(struct panels *panels, uint32_t limit)
{
    static struct turn turn;
    uint32_t used[PLACES] = {0}, allowed[PLACES], waiting = 0;

    for (uint32_t place = 0; place < PLACES; place++)
        allowed[place] = differing(panels->at[place].record);
    while ((waiting = still_waiting(panels, waiting, used, allowed)) != 0) {
        plain_turn(panels, &turn, limit);
        take(panels, &turn, 0);
        for (uint32_t place = 0; place < PLACES; place++)
            used[place] += (uint32_t)takes_part(&turn, place);
    }
}

/* Few registers differ, or some, or one time all. */
static void run_finish(uint32_t limit, int number)
{
    static const uint32_t rates[] = {300, 30, 4};
    static struct panels panels;

    start(&panels);
    for (uint32_t place = 0; place < PLACES; place++)
        any_settings(&panels.at[place], number == 0 ? 1 : rates[number % 3]);
    finish(&panels, limit);
}

static void all_finish(void)
{
    static const uint32_t limits[] = {12, 13, 16, 64, 256, 1024, 4096};
    char place[60];

    for (size_t i = 0; i < sizeof limits / sizeof *limits; i++)
        for (int number = 0; number < STARTS; number++) {
            snprintf(place, sizeof place, "settings stand still, limit %u, start %d", limits[i], number);
            context(place);
            run_finish(limits[i], number);
        }
}

/* ---- By hand */

static void expect_list(struct panels *panels, uint32_t present, uint32_t limit, const uint8_t *list, size_t size)
{
    struct outcome outcome = panels_round(panels, present, limit, size);

    rounds++;
    check(outcome.answer == 0, "limit %u: answers %u", limit, outcome.answer);
    check(outcome.answer == 0 && memcmp(outcome.buffer, list, size) == 0, "limit %u: another list", limit);
}

/* Three writes of three bytes are pending at each place. With 12 bytes each place gets one in a round. */
static void one_write_each(void)
{
    static const uint8_t first[] = {4,    0,    12,   0,    3,    0,    3,    0,    3,    0,    3,    0,
                                    0x80, 0x00, 0x01, 0x88, 0x00, 0x01, 0x90, 0x00, 0x01, 0x98, 0x00, 0x01};
    static const uint8_t second[] = {4,    0,    12,   0,    3,    0,    3,    0,    3,    0,    3,    0,
                                     0x80, 0x01, 0x58, 0x88, 0x01, 0x58, 0x90, 0x01, 0x58, 0x98, 0x01, 0x58};
    static const uint8_t third[] = {4,    0,    12,   0,    3,    0,    3,    0,    3,    0,    3,    0,
                                    0x84, 0x02, 0x40, 0x8C, 0x02, 0x40, 0x94, 0x02, 0x40, 0x9C, 0x02, 0x40};
    static const uint8_t none[] = {0, 0, 0, 0};
    struct panels panels;

    panels_waiting(&panels);
    expect_list(&panels, ALL_PRESENT, 12, first, sizeof first);
    expect_list(&panels, ALL_PRESENT, 12, second, sizeof second);
    expect_list(&panels, ALL_PRESENT, 12, third, sizeof third);
    expect_list(&panels, ALL_PRESENT, 12, none, sizeof none);
}

/* Places 0 and 2: 01h to 000h, three bytes, and then six bytes from 200h, eight with the head. The share of 16 or 17 is 4, so that each
 * first portion has 3. Of 16 bytes 10 are left: place 0 takes 8, and no write fits into 2. Of 17 place 2 gets 3: one byte of data. */
static void left_over(void)
{
    static const uint8_t of_16[] = {3,    0,    14,   0,    3,    0,    8,    0,    3,    0,    0x80, 0x00,
                                    0x01, 0x84, 0x00, 0x11, 0x22, 0x11, 0x22, 0x11, 0x22, 0x90, 0x00, 0x01};
    static const uint8_t of_17[] = {4,    0,    17,   0,    3,    0,    8,    0,    3,    0,    3,    0,    0x80, 0x00, 0x01,
                                    0x84, 0x00, 0x11, 0x22, 0x11, 0x22, 0x11, 0x22, 0x90, 0x00, 0x01, 0x94, 0x00, 0x11};
    static const uint8_t then[] = {1, 0, 7, 0, 7, 0, 0x94, 0x01, 0x22, 0x11, 0x22, 0x11, 0x22};
    struct panels panels, again;

    panels_open(&panels, (const uint32_t[PLACES]){LP586X_LP5860, LP586X_LP5867, LP586X_LP5868T, LP586X_LP5864});
    for (uint32_t place = 0; place < PLACES; place += 2) {
        world_set(&panels.at[place], REGISTER, 0x000, 0x01, 0);
        for (uint32_t sink = 0; sink < 3; sink++)
            world_set(&panels.at[place], LAMP, 0, sink, 0x2211);
    }
    again = panels;
    expect_list(&panels, 5, 16, of_16, sizeof of_16);
    expect_list(&again, 5, 17, of_17, sizeof of_17);
    expect_list(&again, 5, 4096, then, sizeof then);
}

/* 002h and 005h differ at each place; places 0 and 2 are locked. There the two are a write each, elsewhere one write with 003h and 004h
 * between them. Of 13 bytes each first portion has 3. At place 0 no write fits into the byte that is left; place 1 gets 003h for it. */
static void locked_places(void)
{
    static const uint8_t of_13[] = {4,    0,    13,   0,    3,    0,    4,    0,    3,    0,    3,    0,    0x80,
                                    0x02, 0x01, 0x88, 0x02, 0x01, 0x08, 0x90, 0x02, 0x01, 0x98, 0x02, 0x01};
    static const uint8_t then[] = {4,    0,    12,   0,    3,    0,    3,    0,    3,    0,    3,    0,
                                   0x80, 0x05, 0x80, 0x88, 0x05, 0x80, 0x90, 0x05, 0x80, 0x98, 0x05, 0x80};
    static const uint8_t of_24[] = {6,    0,    24,   0,    3,    0,    3,    0,    6,    0,    3,    0,    3,    0,
                                    6,    0,    0x80, 0x02, 0x01, 0x80, 0x05, 0x80, 0x88, 0x02, 0x01, 0x08, 0x4B, 0x80,
                                    0x90, 0x02, 0x01, 0x90, 0x05, 0x80, 0x98, 0x02, 0x01, 0x08, 0x4B, 0x80};
    struct panels panels, again;

    for (uint32_t place = 0; place < PLACES; place++) {
        world_locked(&panels.at[place], LP586X_LP5860, LP586X_I2C, place);
        if (place % 2 == 1)
            panels.at[place].record[MARKS] = FREE;
        world_set(&panels.at[place], REGISTER, 0x002, 0x01, 0);
        world_set(&panels.at[place], REGISTER, 0x005, 0x80, 0);
    }
    again = panels;
    expect_list(&panels, ALL_PRESENT, 13, of_13, sizeof of_13);
    expect_list(&panels, ALL_PRESENT, 4096, then, sizeof then);
    expect_list(&again, ALL_PRESENT, 24, of_24, sizeof of_24);
}

/* ---- All of it */

static void check_all_met(void)
{
    static const uint32_t order[] = {14, 15, 16, 10};

    for (int i = 0; i < EVENTS; i++)
        check(met[i] >= events[i].least, "%lu %s", met[i], events[i].name);
    for (int i = 0; i < FLAWS; i++)
        check(flaw_met[i] >= LEAST_OF_EACH, "%s was met %lu times", flaws[i].name, flaw_met[i]);
    for (int i = 0; i < 4; i++)
        for (int j = i + 1; j < 4; j++)
            check(overruled[order[i]][order[j]] >= LEAST_OVERRULED, "%u came before %u %lu times", order[i], order[j],
                  overruled[order[i]][order[j]]);
}

void group_rounds(uint64_t seed)
{
    char text[160], place[40];
    unsigned long histories = 0;

    group("rounds");
    one_write_each();
    left_over();
    locked_places();
    random_seed(seed);
    while (rounds < RANDOM_ROUNDS) {
        snprintf(place, sizeof place, "history %lu", histories++);
        context(place);
        run_history();
    }
    all_finish();
    context("");
    check_all_met();
    snprintf(text, sizeof text, "seed %" PRIu64 ", %lu rounds, %lu accepted, %lu writes cut, %lu places finished", seed, rounds,
             met[ACCEPTED], met[CUT], met[FINISHED]);
    group_done(text);
}
