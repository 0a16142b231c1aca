#include "bus.h"

#include <string.h>

#include "board.h"
#include "lp586x.h"

/* Where the settings begin in a record, and the registers in a chip: the images stand last in either. */
enum { SETTINGS = LP586X_RECORD_SIZE - 2 * LP586X_REGISTERS, CHIP_REGISTERS = LP586X_CHIP_SIZE - LP586X_REGISTERS };

/* A list of one transaction: n, t and the length in front of its bytes. */
enum { LIST_HEAD = 6, HEAD = 2 };

static uint8_t chip[LP586X_CHIP_SIZE], heard_list[LP586X_UPDATE_SIZE];
static int has_power;
static uint32_t good_writes, failures, heard_of_failed;

static void two(uint8_t *at, uint32_t number)
{
    at[0] = (uint8_t)number;
    at[1] = (uint8_t)(number >> 8);
}

/* The chip hears a write: the address byte with its write bit, the register's low byte, the data. */
static void hear(uint8_t address, const uint8_t *bytes, uint32_t length)
{
    if (!has_power && lp586x_chip_at_reset(chip, sizeof chip, LP586X_LP5860, LP586X_I2C, 0) != LP586X_OK)
        board_stop("no chip");
    has_power = 1;
    two(heard_list, 1);
    two(heard_list + 2, 1 + length);
    two(heard_list + 4, 1 + length);
    heard_list[LIST_HEAD] = (uint8_t)(address << 1);
    memcpy(heard_list + LIST_HEAD + 1, bytes, length);
    if (lp586x_chip_feed(chip, sizeof chip, heard_list, LIST_HEAD + 1 + length) != LP586X_OK)
        board_stop("the chip does not know such a list");
}

static void print(uint8_t address, const uint8_t *bytes, uint32_t length)
{
    board_text("  ");
    board_byte(address);
    board_text(":");
    for (uint32_t i = 0; i < length; i++) {
        board_text(" ");
        board_byte(bytes[i]);
    }
    board_text("\n");
}

int bus_write(uint8_t address, const uint8_t *bytes, uint32_t length)
{
    print(address, bytes, length);
    if (good_writes > 0 || failures == 0) {
        good_writes -= good_writes > 0;
        hear(address, bytes, length);
        return 1;
    }
    failures--;
    if (heard_of_failed > 0 && 1 + heard_of_failed < length)
        hear(address, bytes, 1 + heard_of_failed);
    return 0;
}

void bus_fail(uint32_t after, uint32_t times, uint32_t heard)
{
    good_writes = after;
    failures = times;
    heard_of_failed = heard;
}

int bus_chip_is_as_set(const uint8_t *record)
{
    return memcmp(chip + CHIP_REGISTERS, record + SETTINGS, LP586X_REGISTERS) == 0;
}
