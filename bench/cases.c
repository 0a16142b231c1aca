#include "cases.h"

#include <stdio.h>
#include <stdlib.h>
#include <string.h>

#include "../tests/c/reference.h"

void must(uint32_t answer)
{
    if (answer != 0) {
        fprintf(stderr, "bench: a call is refused with %u\n", answer);
        exit(1);
    }
}

int has_dot(uint32_t member, uint32_t dot)
{
    return reference_dot(member, dot / 18, dot % 18);
}

/* ---- States */

static void set_lamp(uint8_t *record, uint32_t dot, uint32_t level)
{
    must(lp586x_lamp(record, LP586X_RECORD_SIZE, dot / 18, dot % 18, level));
}

static void update_of(struct situation *s, uint8_t *record)
{
    must(lp586x_update(record, LP586X_RECORD_SIZE, s->list, sizeof s->list, &s->n, &s->t, &s->stored, &s->needed));
    s->list_size = 4 + 2 * s->n + s->t;
}

static void update(struct situation *s)
{
    update_of(s, s->record);
}

/* On, all dots lit, and the chip image up to date. */
static void light_all(struct situation *s, uint8_t *record, uint32_t bus, uint32_t pins)
{
    must(lp586x_open(record, LP586X_RECORD_SIZE, s->member, bus, pins));
    must(lp586x_register(record, LP586X_RECORD_SIZE, 0x000, 0x01));
    for (uint32_t dot = 0; dot < LP586X_DOTS; dot++)
        if (has_dot(s->member, dot))
            set_lamp(record, dot, 0x2040 + dot);
    update_of(s, record);
}

static void as_it_is(struct situation *s)
{
    (void)s;
}

static void change_one_lamp(struct situation *s)
{
    set_lamp(s->record, 19, 0x1234);
}

static void change_one_lamp_locked(struct situation *s)
{
    must(lp586x_lock(s->record, sizeof s->record));
    change_one_lamp(s);
}

/* Four such records, on I2C whatever the table. */
static void open_four(struct situation *s)
{
    for (uint32_t place = 0; place < PLACES; place++)
        light_all(s, s->records[place], LP586X_I2C, place);
}

static void change_one_lamp_of_each(struct situation *s)
{
    open_four(s);
    for (uint32_t place = 0; place < PLACES; place++)
        set_lamp(s->records[place], 19, 0x1234);
}

static void lose_power(struct situation *s)
{
    must(lp586x_power_lost(s->record, sizeof s->record));
}

/* The list of one lamp, for a chip that is on. */
static void list_one_lamp(struct situation *s)
{
    must(lp586x_chip_feed(s->chip, sizeof s->chip, s->list, s->list_size));
    change_one_lamp(s);
    update(s);
}

/* The list after a power loss, for a chip at reset. */
static void list_all_lit(struct situation *s)
{
    lose_power(s);
    update(s);
}

/* Every writable register differs from its reset value, which the chip still holds: the update with the most bytes. */
static void change_all(struct situation *s)
{
    for (uint32_t address = 0; address < LP586X_REGISTERS; address++)
        for (uint32_t bit = 0; bit < 8; bit++)
            if (lp586x_register(s->record, sizeof s->record, address, s->chip[CHIP_REGISTERS + address] ^ 1u << bit) == 0)
                break;
    lose_power(s);
}

static void list_all_registers(struct situation *s)
{
    static const uint32_t largest[] = {702, 84, 270, 302, 518};

    change_all(s);
    update(s);
    if (s->t != largest[s->member]) {
        fprintf(stderr, "bench: the full update has %u bytes\n", s->t);
        exit(1);
    }
}

static void fill_scene(struct situation *s)
{
    uint32_t dot = 0;

    s->scene[0] = SCENE_ENTRIES;
    s->scene[1] = 0;
    for (uint32_t i = 0; i < SCENE_ENTRIES; i++) {
        do
            dot = (dot + 61) % LP586X_DOTS;
        while (!has_dot(s->member, dot));
        s->scene[2 + i] = (uint8_t)dot;
        s->scene[2 + SCENE_ENTRIES + 2 * i] = (uint8_t)i;
        s->scene[3 + SCENE_ENTRIES + 2 * i] = 0x55;
    }
}

static void fill_faults(struct situation *s)
{
    memset(s->faults, 0, sizeof s->faults);
    s->faults[0] = 0x03;
    s->faults[1] = 0x01;
    s->faults[40] = 0x02;
}

/* Data mode 0. What stands in the PWM bytes are then other levels, bright and dim ones. */
static void fill_faults_narrow(struct situation *s)
{
    must(lp586x_register(s->record, sizeof s->record, 0x001, 0x58));
    update(s);
    fill_faults(s);
}

void prepare_case(const struct bench_case *measured, struct situation *s, uint32_t member)
{
    memset(s, 0, sizeof *s);
    s->member = member;
    must(lp586x_chip_at_reset(s->chip, sizeof s->chip, member, member == 3, 0));
    light_all(s, s->record, member == 3, 0);
    measured->prepare(s);
}

/* ---- Calls */

static uint32_t call_open(const struct interface *calls, struct situation *s)
{
    return calls->open(s->record, sizeof s->record, s->member, 0, 1);
}

static uint32_t call_register(const struct interface *calls, struct situation *s)
{
    return calls->set_register(s->record, sizeof s->record, 0x005, 0x80);
}

static uint32_t call_lamp(const struct interface *calls, struct situation *s)
{
    return calls->lamp(s->record, sizeof s->record, 1, 1, 0x1234);
}

static uint32_t call_group(const struct interface *calls, struct situation *s)
{
    return calls->group(s->record, sizeof s->record, 1, 1, 2);
}

static uint32_t call_switch(const struct interface *calls, struct situation *s)
{
    return calls->set_switch(s->record, sizeof s->record, 1, 1, 0);
}

static uint32_t call_scene(const struct interface *calls, struct situation *s)
{
    return calls->scene(s->record, sizeof s->record, s->scene, sizeof s->scene);
}

static uint32_t call_power_lost(const struct interface *calls, struct situation *s)
{
    return calls->power_lost(s->record, sizeof s->record);
}

static uint32_t call_lock(const struct interface *calls, struct situation *s)
{
    return calls->lock(s->record, sizeof s->record);
}

static uint32_t call_update(const struct interface *calls, struct situation *s)
{
    return calls->update(s->record, sizeof s->record, s->buffer, sizeof s->buffer, &s->n, &s->t, &s->stored, &s->needed);
}

static uint32_t call_reset(const struct interface *calls, struct situation *s)
{
    return calls->reset(s->record, sizeof s->record, s->buffer, sizeof s->buffer, &s->n, &s->t);
}

static uint32_t call_clear(const struct interface *calls, struct situation *s)
{
    return calls->clear(s->record, sizeof s->record, s->buffer, sizeof s->buffer, &s->n, &s->t);
}

static uint32_t call_round(const struct interface *calls, struct situation *s)
{
    return calls->round(s->records[0], sizeof s->records, 15, 4096, s->round, sizeof s->round, &s->n, &s->t);
}

static uint32_t call_chip_at_reset(const struct interface *calls, struct situation *s)
{
    return calls->chip_at_reset(s->chip, sizeof s->chip, s->member, 0, 1);
}

static uint32_t call_chip_power_lost(const struct interface *calls, struct situation *s)
{
    return calls->chip_power_lost(s->chip, sizeof s->chip);
}

static uint32_t call_feed(const struct interface *calls, struct situation *s)
{
    return calls->chip_feed(s->chip, sizeof s->chip, s->list, s->list_size);
}

/* Each transaction of the list is found, as for sending it. */
static uint32_t call_walk(const struct interface *calls, struct situation *s)
{
    uint32_t index = 0;

    while (calls->transaction(s->list, s->list_size, index, &s->n, &s->t) == 0)
        index++;
    return index == 0;
}

static uint32_t call_faults(const struct interface *calls, struct situation *s)
{
    return calls->faults(s->record, sizeof s->record, s->faults, sizeof s->faults, s->result, sizeof s->result, &s->n, &s->t);
}

const struct bench_case cases[] = {
    {"Open", as_it_is, call_open},
    {"Register", as_it_is, call_register},
    {"Lamp", as_it_is, call_lamp},
    {"Group", as_it_is, call_group},
    {"Switch", as_it_is, call_switch},
    {"Scene, 50 entries", fill_scene, call_scene},
    {"Update, one lamp", change_one_lamp, call_update},
    {"Update after a power loss, all lit", lose_power, call_update},
    {"Update, full", change_all, call_update},
    {"Update, nothing changed", as_it_is, call_update},
    {"Reset", as_it_is, call_reset},
    {"Power lost", as_it_is, call_power_lost},
    {"Clear", as_it_is, call_clear},
    {"Round, one lamp on each of four", change_one_lamp_of_each, call_round},
    {"Round, nothing waiting", open_four, call_round},
    {"Transactions of a list of one lamp", list_one_lamp, call_walk},
    {"Transactions of the list of the full update", list_all_registers, call_walk},
    {"Faults", fill_faults, call_faults},
    {"Faults, 8-bit levels", fill_faults_narrow, call_faults},
    {"Chip at reset", as_it_is, call_chip_at_reset},
    {"Chip's power lost", as_it_is, call_chip_power_lost},
    {"Feed, list of one lamp", list_one_lamp, call_feed},
    {"Feed, list after a power loss, all lit", list_all_lit, call_feed},
    {"Feed, list of the full update", list_all_registers, call_feed},
    {"Lock", as_it_is, call_lock},
    {"Update of a locked record, one lamp", change_one_lamp_locked, call_update},
};

const int case_count = sizeof cases / sizeof *cases;
