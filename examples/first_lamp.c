/* A first lamp: line 0, sink 2 of an LP5860 with both address pins low, on I2C and then on SPI. The bus here prints what it is to send,
 * and the chip is the model.
 *
 *     cc -Iinclude examples/first_lamp.c target/staticlib/libcapi.a -o first_lamp && ./first_lamp
 */
#include <stdio.h>
#include <stdlib.h>

#include "lp586x.h"

static uint8_t record[LP586X_RECORD_SIZE], chip[LP586X_CHIP_SIZE], list[LP586X_UPDATE_SIZE];

/* Nothing below is refused. Firmware handles an answer other than 0: the call did nothing. */
static void must(uint32_t answer)
{
    if (answer != LP586X_OK) {
        fprintf(stderr, "first_lamp: refused with %u\n", answer);
        exit(1);
    }
}

/* One transaction, as it goes over the bus; examples/linux_i2c.c and linux_spi.c have real ones. Answers 1 where it was sent. */
static int send(const uint8_t *bytes, uint32_t length)
{
    for (uint32_t i = 0; i < length; i++)
        printf(i == 0 ? "  %02X" : " %02X", bytes[i]);
    printf("\n");
    return 1;
}

static void first_lamp(uint32_t bus)
{
    uint32_t n, t, stored, needed, offset, length;

    must(lp586x_open(record, sizeof record, LP586X_LP5860, bus, 0));

    /* Chip enable, which a new record has off, as the chip after power-on: nothing lights before 000h is 01h. */
    must(lp586x_register(record, sizeof record, 0x000, 0x01));

    /* Data mode 0: levels of 8 bits, shown at once. The default is data mode 3 (001h is 5Eh): levels of 16 bits, where
     * 255 is dim and 65,535 is full, shown at a pulse on the chip's VSYNC pin. */
    must(lp586x_register(record, sizeof record, 0x001, 0x58));

    /* Line 0, sink 2. */
    must(lp586x_lamp(record, sizeof record, 0, 2, 255));

    /* Nothing was sent so far. The update makes a list of transactions, and each goes over the bus. */
    must(lp586x_update(record, sizeof record, list, sizeof list, &n, &t, &stored, &needed));
    for (uint32_t i = 0; i < n; i++) {
        must(lp586x_transaction(list, 4 + 2 * n + t, i, &offset, &length));
        if (!send(list + offset, length))
            exit(1); /* examples/bus_failure.c says what to do */
    }

    /* What a chip on this bus has now. Its registers stand behind member, bus and pins. */
    must(lp586x_chip_at_reset(chip, sizeof chip, LP586X_LP5860, bus, 0));
    must(lp586x_chip_feed(chip, sizeof chip, list, 4 + 2 * n + t));
    printf("the chip is %s, line 0, sink 2 has level %u\n", chip[3] == 0x01 ? "on" : "off", chip[3 + 0x202]);
    if (chip[3] != 0x01 || chip[3 + 0x202] != 255)
        exit(1);
}

int main(void)
{
    printf("I2C:\n");
    first_lamp(LP586X_I2C);
    printf("SPI:\n");
    first_lamp(LP586X_SPI);
    return 0;
}
