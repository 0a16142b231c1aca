/* A lamp of an LP5860 on a Linux I2C bus (i2c-dev):
 *
 *     cc -Iinclude examples/linux_i2c.c target/staticlib/libcapi.a -o linux_i2c && ./linux_i2c /dev/i2c-1
 */
#include <fcntl.h>
#include <linux/i2c-dev.h>
#include <linux/i2c.h>
#include <stdio.h>
#include <sys/ioctl.h>
#include <unistd.h>

#include "lp586x.h"

/* The first head byte is the bus's own address byte: five bits of the chip, bits 9-8 of the register, the write bit. i2c-dev makes it of an
 * address, the upper seven bits, and a direction; the message itself begins at the second head byte. */
static int send_transaction(int bus, uint8_t *bytes, uint32_t length)
{
    struct i2c_msg message = {.addr = bytes[0] >> 1, .flags = 0, .len = (uint16_t)(length - 1), .buf = bytes + 1};
    struct i2c_rdwr_ioctl_data messages = {.msgs = &message, .nmsgs = 1};

    if (ioctl(bus, I2C_RDWR, &messages) != 1)
        return 0;
    if ((bytes[0] & 6) == 0 && bytes[1] == 0)
        usleep(200); /* 000h, chip enable: t_CHIP_EN is 100 us */
    return 1;
}

/* Sends a list in order, up to the first transaction that fails, which may have been heard in part. Answers how many were sent. */
static uint32_t send_list(int bus, uint8_t *list, size_t list_size)
{
    uint32_t sent = 0, offset, length;

    while (lp586x_transaction(list, list_size, sent, &offset, &length) == LP586X_OK && send_transaction(bus, list + offset, length))
        sent++;
    return sent;
}

int main(int count, char **arguments)
{
    static uint8_t record[LP586X_RECORD_SIZE], list[LP586X_UPDATE_SIZE];
    uint32_t n, t, stored, needed, sent;
    int bus = count == 2 ? open(arguments[1], O_RDWR) : -1;

    if (bus < 0) {
        fprintf(stderr, "usage: linux_i2c DEVICE, one that can be opened\n");
        return 2;
    }
    if (lp586x_open(record, sizeof record, LP586X_LP5860, LP586X_I2C, 0) || lp586x_register(record, sizeof record, 0x000, 0x01) ||
        lp586x_register(record, sizeof record, 0x001, 0x58) || lp586x_lamp(record, sizeof record, 0, 2, 255) ||
        lp586x_update(record, sizeof record, list, sizeof list, &n, &t, &stored, &needed))
        return 2;
    sent = send_list(bus, list, 4 + 2 * n + t);
    printf("I2C: %u of %u transactions sent\n", sent, n);
    close(bus);
    return sent == n ? 0 : 1; /* where it is 1, see examples/bus_failure.c */
}
