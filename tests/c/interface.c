#include "interface.h"

#include "lp586x.h"
#include "reference.h"

#define CALLS_OF(prefix)                                                                                                     \
    .open = prefix##_open, .set_register = prefix##_register, .lamp = prefix##_lamp, .group = prefix##_group,                \
    .set_switch = prefix##_switch, .scene = prefix##_scene, .power_lost = prefix##_power_lost, .lock = prefix##_lock,        \
    .update = prefix##_update, .reset = prefix##_reset, .clear = prefix##_clear, .round = prefix##_round,                    \
    .transaction = prefix##_transaction, .faults = prefix##_faults, .chip_at_reset = prefix##_chip_at_reset,                 \
    .chip_power_lost = prefix##_chip_power_lost, .chip_feed = prefix##_chip_feed

const struct interface library = {.name = "library", CALLS_OF(lp586x)};
const struct interface reference = {.name = "reference", CALLS_OF(reference)};
