/* Document 01's ledger: what the calls asked for, kept from their arguments alone. Of the answers it is told one thing, whether a Register
 * was answered 17; it never sees a record. */
#ifndef LEDGER_H
#define LEDGER_H

#include <stddef.h>
#include <stdint.h>

#include "lp586x.h"

struct ledger {
    uint32_t member;
    uint8_t bytes[LP586X_REGISTERS];
};

void ledger_start(struct ledger *ledger, uint32_t member);
void ledger_register(struct ledger *ledger, uint32_t address, uint32_t value, int answered_17);
void ledger_lamp(struct ledger *ledger, uint32_t line, uint32_t sink, uint32_t level);
void ledger_group(struct ledger *ledger, uint32_t line, uint32_t sink, uint32_t group);
void ledger_switch(struct ledger *ledger, uint32_t line, uint32_t sink, uint32_t state);
void ledger_scene(struct ledger *ledger, const uint8_t *scene, size_t scene_size);

/* "Chip enable is wanted on when bit 0 of the ledger's 000h is 1." */
int ledger_wants_on(const struct ledger *ledger);

#endif
