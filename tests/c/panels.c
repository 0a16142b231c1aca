#include "panels.h"

#include <string.h>

#include "check.h"

void panels_open(struct panels *panels, const uint32_t members[PLACES])
{
    for (uint32_t place = 0; place < PLACES; place++)
        world_open(&panels->at[place], members[place], LP586X_I2C, place);
}

void panels_waiting(struct panels *panels)
{
    panels_open(panels, (const uint32_t[PLACES]){LP586X_LP5860, LP586X_LP5860, LP586X_LP5860, LP586X_LP5860});
    for (uint32_t place = 0; place < PLACES; place++) {
        check(world_set(&panels->at[place], REGISTER, 0x000, 0x01, 0) == 0, "chip enable is refused");
        world_mode(&panels->at[place], 0);
        check(world_set(&panels->at[place], LAMP, 0, 2, 0x40) == 0, "a lamp is refused");
    }
}

void panels_lend(const struct panels *panels, uint8_t *records)
{
    for (uint32_t place = 0; place < PLACES; place++)
        memcpy(records + place * LP586X_RECORD_SIZE, panels->at[place].record, LP586X_RECORD_SIZE);
}

struct call round_call(const uint8_t *records, uint32_t present, uint32_t limit, size_t buffer_size)
{
    return (struct call){.kind = ROUND,
                         .numbers = {present, limit},
                         .state = records,
                         .state_size = LP586X_RECORDS_SIZE,
                         .buffer_size = buffer_size};
}

struct outcome panels_round(struct panels *panels, uint32_t present, uint32_t limit, size_t buffer_size)
{
    uint8_t records[LP586X_RECORDS_SIZE];
    struct call call = round_call(records, present, limit, buffer_size);
    struct outcome outcome;

    panels_lend(panels, records);
    outcome = both(&call);
    for (uint32_t place = 0; place < PLACES; place++)
        memcpy(panels->at[place].record, outcome.state + place * LP586X_RECORD_SIZE, LP586X_RECORD_SIZE);
    return outcome;
}
