/* Document 02's cue order, Q-6: what crates/cues/specs/CueOrder.antt claims, tried on the library. Pairs of calls of a cue, in either order
 * on the same record; scenes given twice, and scenes in either order; Lamps with other calls between them. Dots come from a neighbourhood, so
 * that calls meet in a byte and on a dot. Where a claim has a condition, pairs without it must be seen to depend on the order.
 */
#include <stdio.h>
#include <string.h>

#include "check.h"
#include "groups.h"
#include "random.h"
#include "reference.h"
#include "world.h"

enum { MEMBERS = 5, MODES = 4, TRIALS = 1000, ENTRIES = 6, BETWEEN = 8, SCENE_ROOM = 2 + 3 * ENTRIES };

/* A call of a cue: LAMP, GROUP or SWITCH with line, sink and value, REGISTER with address and value, or SCENE with bytes. */
struct cue_call {
    enum kind kind;
    uint32_t numbers[3];
    uint8_t scene[SCENE_ROOM];
    size_t scene_size;
};

/* What was met, each so many times at least. */
enum event {
    DOTS_REORDERED,
    ONE_BYTE,
    ONE_DOT_OTHER_SORT,
    ONE_DOT_DIFFERS,
    SCENES_REORDERED,
    SCENES_DIFFER,
    SCENE_WITH_DOT,
    SCENE_WITH_ITS_DOT_DIFFERS,
    SCENE_AGAIN,
    DOT_TWICE_AGAIN,
    LATER_STANDS,
    LATER_STANDS_ACROSS_MODES,
    TWO_WIDTHS_DIFFER,
    REFUSED_IN_BOTH,
    EVENTS
};

static const struct {
    const char *name;
    unsigned long least;
} events[EVENTS] = {
    [DOTS_REORDERED] = {"calls on dots in either order", 10000},
    [ONE_BYTE] = {"two Groups or two Switches of one byte", 1000},
    [ONE_DOT_OTHER_SORT] = {"calls of different sorts on one dot", 1500},
    [ONE_DOT_DIFFERS] = {"calls of one sort on one dot whose order shows", 500},
    [SCENES_REORDERED] = {"scenes with no dot in common", 1500},
    [SCENES_DIFFER] = {"scenes with a dot in common whose order shows", 1500},
    [SCENE_WITH_DOT] = {"a scene and a call on a dot in either order", 10000},
    [SCENE_WITH_ITS_DOT_DIFFERS] = {"a scene and a Lamp on its dot whose order shows", 1500},
    [SCENE_AGAIN] = {"scenes given twice", 25000},
    [DOT_TWICE_AGAIN] = {"scenes given twice that have a dot twice", 10000},
    [LATER_STANDS] = {"Lamps that leave nothing of an earlier one", 20000},
    [LATER_STANDS_ACROSS_MODES] = {"such Lamps with a data mode of the other width between", 400},
    [TWO_WIDTHS_DIFFER] = {"Lamps of another width that leave something of an earlier one", 3000},
    [REFUSED_IN_BOTH] = {"pairs with a refused call", 2000},
};

static unsigned long met[EVENTS];

static void note(enum event event, int happened)
{
    met[event] += happened != 0;
}

/* ---- Random calls */

static uint32_t near;

static int wide(const struct world *world)
{
    return world->record[SETTINGS + 0x001] >> 2 & 1;
}

/* A dot of the member, and now and then one that it has not. */
static uint32_t some_dot(const struct world *world)
{
    for (int tries = 0; tries < 40; tries++) {
        uint32_t dot = (near + random_below(5)) % LP586X_DOTS;

        if (reference_dot(world->record[0], dot / 18, dot % 18))
            return dot;
        near = random_below(LP586X_DOTS);
    }
    return random_below(LP586X_DOTS + 1);
}

static uint32_t some_level(const struct world *world)
{
    return one_in(20) ? 250 + random_below(12) : random_below(wide(world) ? 65536 : 256);
}

static struct cue_call some_call_on_a_dot(const struct world *world)
{
    uint32_t dot = one_in(40) ? random_below(256) : some_dot(world);
    struct cue_call call = {.kind = LAMP + random_below(3), .numbers = {dot / 18, dot % 18, 0}};

    call.numbers[2] = call.kind == LAMP ? some_level(world) : random_below(one_in(20) ? 6 : call.kind == GROUP ? 4 : 2);
    return call;
}

static struct cue_call some_scene(const struct world *world)
{
    uint32_t n = random_below(ENTRIES + 1);
    struct cue_call call = {.kind = SCENE, .scene = {(uint8_t)n, 0}, .scene_size = 2 + 3 * n};

    for (uint32_t i = 0; i < n; i++) {
        uint32_t level = some_level(world);

        call.scene[2 + i] = (uint8_t)some_dot(world);
        call.scene[2 + n + 2 * i] = (uint8_t)level;
        call.scene[3 + n + 2 * i] = (uint8_t)(level >> 8);
    }
    return call;
}

/* Data modes, a register that may be locked, brightness, and the PWM bytes around the dots at hand. */
static struct cue_call some_register(void)
{
    static const uint32_t addresses[] = {0x000, 0x001, 0x001, 0x001, 0x003, 0x005, 0x200, 0x200};
    struct cue_call call = {.kind = REGISTER, .numbers = {addresses[random_below(8)], random_below(256), 0}};

    if (call.numbers[0] == 0x001)
        call.numbers[1] = 0x58 | random_below(MODES) << 1;
    if (call.numbers[0] == 0x200)
        call.numbers[0] += (one_in(2) ? near : 2 * near) + random_below(10);
    return call;
}

static struct cue_call some_call(const struct world *world)
{
    switch (random_below(4)) {
    case 0:
        return some_register();
    case 1:
        return some_scene(world);
    default:
        return some_call_on_a_dot(world);
    }
}

/* ---- Making them */

static uint32_t make(struct world *world, const struct cue_call *call)
{
    return call->kind == SCENE ? world_scene(world, call->scene, call->scene_size)
                               : world_set(world, call->kind, call->numbers[0], call->numbers[1], call->numbers[2]);
}

static int same_record(const struct world *first, const struct world *second)
{
    return memcmp(first->record, second->record, sizeof first->record) == 0;
}

static uint32_t dot_of(const struct cue_call *call)
{
    return 18 * call->numbers[0] + call->numbers[1];
}

static int scene_has(const struct cue_call *scene, uint32_t dot)
{
    return memchr(scene->scene + 2, (int)dot, scene->scene[0]) != NULL;
}

static int share_a_dot(const struct cue_call *first, const struct cue_call *second)
{
    for (uint32_t i = 0; i < first->scene[0]; i++)
        if (scene_has(second, first->scene[2 + i]))
            return 1;
    return 0;
}

static int has_a_dot_twice(const struct cue_call *scene)
{
    for (uint32_t i = 1; i < scene->scene[0]; i++)
        if (memchr(scene->scene + 2, scene->scene[2 + i], i) != NULL)
            return 1;
    return 0;
}

/* Whether the claims let two calls change places: no Register among them. */
static int change_places(const struct cue_call *first, const struct cue_call *second)
{
    if (first->kind == SCENE && second->kind == SCENE)
        return !share_a_dot(first, second);
    if (first->kind == SCENE)
        return second->kind != LAMP || !scene_has(first, dot_of(second));
    if (second->kind == SCENE)
        return change_places(second, first);
    return first->kind != second->kind || dot_of(first) != dot_of(second);
}

/* ---- The claims */

static void note_pair(const struct cue_call *first, const struct cue_call *second, int free, int same)
{
    const int scenes = (first->kind == SCENE) + (second->kind == SCENE);
    const int one_sort = first->kind == second->kind, one_dot = scenes == 0 && dot_of(first) == dot_of(second);
    const uint32_t in_a_byte = first->kind == GROUP ? 4 : 8;

    note(DOTS_REORDERED, free && scenes == 0);
    note(ONE_BYTE, free && scenes == 0 && one_sort && first->kind != LAMP && first->numbers[0] == second->numbers[0] &&
                       first->numbers[1] / in_a_byte == second->numbers[1] / in_a_byte);
    note(ONE_DOT_OTHER_SORT, one_dot && !one_sort);
    note(ONE_DOT_DIFFERS, one_dot && one_sort && !same);
    note(SCENES_REORDERED, free && scenes == 2);
    note(SCENES_DIFFER, !free && scenes == 2 && !same);
    note(SCENE_WITH_DOT, free && scenes == 1);
    note(SCENE_WITH_ITS_DOT_DIFFERS, !free && scenes == 1 && !same);
}

/* Both are answered the same in either order; where the claims say so the record is the same too. */
static void either_order(const struct world *start, const struct cue_call *first, const struct cue_call *second)
{
    struct world one = *start, other = *start;
    uint32_t before = make(&one, first), behind = make(&one, second), answer;
    int same, free = change_places(first, second);

    answer = make(&other, second);
    check(answer == behind, "a call is answered %u behind another and %u before it", behind, answer);
    answer = make(&other, first);
    check(answer == before, "a call is answered %u before another and %u behind it", before, answer);
    same = same_record(&one, &other);
    if (before != 0 || behind != 0) {
        note(REFUSED_IN_BOTH, 1);
        check(same, "with a refused call the order shows");
        return;
    }
    check(same || !free, "kinds %d and %d: the order shows", first->kind, second->kind);
    note_pair(first, second, free, same);
}

static void scene_twice(const struct world *start, const struct cue_call *scene)
{
    struct world once = *start, twice;
    uint32_t answer = make(&once, scene);

    twice = once;
    check(make(&twice, scene) == answer, "a scene is answered %u, and something else the second time", answer);
    check(same_record(&once, &twice), "a scene given twice is not as given once");
    note(SCENE_AGAIN, answer == 0);
    note(DOT_TWICE_AGAIN, answer == 0 && has_a_dot_twice(scene));
}

/* Two Lamps on one dot with calls between, beside the same calls without the first. */
static void later_lamp(const struct world *start)
{
    struct world with = *start, without = *start;
    struct cue_call lamp = some_call_on_a_dot(start), between;
    int width = wide(start), other_width = 0;
    uint32_t answer;

    lamp.kind = LAMP;
    lamp.numbers[2] = some_level(start);
    if (make(&with, &lamp) != 0)
        return;
    for (uint32_t i = random_below(BETWEEN + 1); i > 0; i--) {
        between = some_call(&with);
        answer = make(&with, &between);
        check(make(&without, &between) == answer, "a call between is answered %u, and something else without the first Lamp", answer);
        other_width |= wide(&with) != width;
    }
    lamp.numbers[2] = some_level(&with);
    answer = make(&with, &lamp);
    check(make(&without, &lamp) == answer, "a later Lamp is answered %u, and something else alone", answer);
    if (answer != 0)
        return;
    if (wide(&with) == width) {
        check(same_record(&with, &without), "an earlier Lamp shows behind a later one");
        note(LATER_STANDS, 1);
        note(LATER_STANDS_ACROSS_MODES, other_width);
    } else {
        note(TWO_WIDTHS_DIFFER, !same_record(&with, &without));
    }
}

/* On a record with any settings and any chip image, every other one locked. */
static void claims(uint32_t member, uint32_t bus, uint32_t mode)
{
    struct world start;

    world_open(&start, member, bus, bus == LP586X_I2C ? member % 4 : 0);
    scatter(member, start.record + SETTINGS, 3);
    scatter(member, start.record + IMAGE, 3);
    world_mode(&start, mode);
    if (mode % 2 == 1) {
        trims_from_image(start.record);
        start.record[MARKS] = LOCKED;
    }
    for (int trial = 0; trial < TRIALS; trial++) {
        struct cue_call first, second;

        near = random_below(LP586X_DOTS);
        first = one_in(3) ? some_scene(&start) : some_call_on_a_dot(&start);
        second = one_in(3) ? some_scene(&start) : some_call_on_a_dot(&start);
        either_order(&start, &first, &second);
        first = some_scene(&start);
        scene_twice(&start, &first);
        later_lamp(&start);
    }
}

void group_order(uint64_t seed)
{
    char text[64];

    group("cue order");
    random_seed(seed);
    for (uint32_t member = 0; member < MEMBERS; member++)
        for (uint32_t bus = LP586X_I2C; bus <= LP586X_SPI; bus++)
            for (uint32_t mode = 0; mode < MODES; mode++)
                claims(member, bus, mode);
    for (int event = 0; event < EVENTS; event++)
        check(met[event] >= events[event].least, "only %lu %s", met[event], events[event].name);
    snprintf(text, sizeof text, "%lu pairs in either order", met[DOTS_REORDERED] + met[SCENES_REORDERED] + met[SCENE_WITH_DOT]);
    group_done(text);
}
