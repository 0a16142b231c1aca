/* A Cortex-M that traps unaligned access (CCR.UNALIGN_TRP), with a library that was compiled by tools/port with -mno-unaligned-access: each
 * call on memory at each of eight shifts. The trap is on during the calls alone, since newlib is not compiled so; for the same reason the
 * memory functions that the library needs are here. Prints a line for each shift; a fault ends the program with status 1, which is what a
 * library without that word must come to.
 */
#include <stdint.h>
#include <stdio.h>
#include <stdlib.h>
#include <string.h>

#include "lp586x.h"

enum { SHIFTS = 8, UNALIGNED_TRAP = 1 << 3, SETTINGS = LP586X_RECORD_SIZE - 2 * LP586X_REGISTERS, PLACES = 4, ALL_PRESENT = 15 };

static volatile uint32_t *const configuration = (uint32_t *)0xE000ED14;

/* ---- What the library needs, a byte at a time */

#define ALIASES(name, of) \
    __typeof__(of) name __attribute__((alias(#of))), name##4 __attribute__((alias(#of))), name##8 __attribute__((alias(#of)))

void copy_bytes(volatile uint8_t *to, const volatile uint8_t *from, size_t count);
void set_bytes(volatile uint8_t *to, size_t count, int value);
void clear_bytes(volatile uint8_t *to, size_t count);

void copy_bytes(volatile uint8_t *to, const volatile uint8_t *from, size_t count)
{
    while (count-- > 0)
        *to++ = *from++;
}

void set_bytes(volatile uint8_t *to, size_t count, int value)
{
    while (count-- > 0)
        *to++ = (uint8_t)value;
}

void clear_bytes(volatile uint8_t *to, size_t count)
{
    set_bytes(to, count, 0);
}

ALIASES(__aeabi_memcpy, copy_bytes);
ALIASES(__aeabi_memset, set_bytes);
ALIASES(__aeabi_memclr, clear_bytes);

/* ---- The calls */

static uint8_t record_memory[LP586X_RECORDS_SIZE + SHIFTS], list_memory[LP586X_ROUND_SIZE + SHIFTS], chip_memory[LP586X_CHIP_SIZE + SHIFTS],
    scene_memory[5 + SHIFTS], fault_memory[LP586X_FAULT_BYTES + SHIFTS], result_memory[LP586X_DOTS + SHIFTS];
static uint32_t refused, n, t, stored, needed;

static void light_all(uint8_t *record)
{
    for (uint32_t dot = 0; dot < LP586X_DOTS; dot++)
        refused |= lp586x_lamp(record, LP586X_RECORD_SIZE, dot / 18, dot % 18, 257 * (dot + 1));
    refused |= lp586x_group(record, LP586X_RECORD_SIZE, 1, 1, 2);
    refused |= lp586x_switch(record, LP586X_RECORD_SIZE, 1, 2, 0);
}

/* All calls on one record and its chip, which must hold the settings then. */
static void one_panel(uint8_t *record, uint8_t *list, uint8_t *chip, int shift)
{
    uint8_t *scene = memcpy(scene_memory + shift, "\1\0\5\7\1", 5), *faults = fault_memory + shift;
    uint32_t offset, length;

    *configuration |= UNALIGNED_TRAP;
    refused |= lp586x_open(record, LP586X_RECORD_SIZE, LP586X_LP5860, LP586X_I2C, 0);
    refused |= lp586x_chip_at_reset(chip, LP586X_CHIP_SIZE, LP586X_LP5860, LP586X_I2C, 0);
    refused |= lp586x_register(record, LP586X_RECORD_SIZE, 0x000, 0x01);
    light_all(record);
    refused |= lp586x_scene(record, LP586X_RECORD_SIZE, scene, 5);
    refused |= lp586x_update(record, LP586X_RECORD_SIZE, list, LP586X_UPDATE_SIZE, &n, &t, &stored, &needed);
    refused |= lp586x_transaction(list, 4 + 2 * n + t, n - 1, &offset, &length);
    refused |= lp586x_chip_feed(chip, LP586X_CHIP_SIZE, list, 4 + 2 * n + t);
    *configuration &= ~(uint32_t)UNALIGNED_TRAP;
    if (memcmp(chip + LP586X_CHIP_SIZE - LP586X_REGISTERS, record + SETTINGS, LP586X_REGISTERS) != 0)
        refused = 1000;
    *configuration |= UNALIGNED_TRAP;
    refused |= lp586x_lock(record, LP586X_RECORD_SIZE);
    refused |= lp586x_faults(record, LP586X_RECORD_SIZE, faults, LP586X_FAULT_BYTES, result_memory + shift, LP586X_DOTS, &n, &t);
    refused |= lp586x_clear(record, LP586X_RECORD_SIZE, list, LP586X_UPDATE_SIZE, &n, &t);
    refused |= lp586x_reset(record, LP586X_RECORD_SIZE, list, LP586X_UPDATE_SIZE, &n, &t);
    refused |= lp586x_power_lost(record, LP586X_RECORD_SIZE);
    refused |= lp586x_chip_power_lost(chip, LP586X_CHIP_SIZE);
    *configuration &= ~(uint32_t)UNALIGNED_TRAP;
}

static void four_panels(uint8_t *records, uint8_t *list)
{
    *configuration |= UNALIGNED_TRAP;
    for (uint32_t place = 0; place < PLACES; place++) {
        uint8_t *record = records + place * LP586X_RECORD_SIZE;

        refused |= lp586x_open(record, LP586X_RECORD_SIZE, LP586X_LP5860, LP586X_I2C, place);
        refused |= lp586x_register(record, LP586X_RECORD_SIZE, 0x000, 0x01);
        light_all(record);
    }
    refused |= lp586x_round(records, LP586X_RECORDS_SIZE, ALL_PRESENT, 1024, list, LP586X_ROUND_SIZE, &n, &t);
    *configuration &= ~(uint32_t)UNALIGNED_TRAP;
}

int main(void)
{
    for (int shift = 0; shift < SHIFTS; shift++) {
        one_panel(record_memory + shift, list_memory + shift * 3 % SHIFTS, chip_memory + shift * 5 % SHIFTS, shift);
        four_panels(record_memory + shift, list_memory + shift * 3 % SHIFTS);
        printf("shift %d: %s, a round of %u bytes\n", shift, refused ? "REFUSED" : "as set", (unsigned)t);
    }
    return refused ? 1 : 0;
}
