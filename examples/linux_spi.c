/* A lamp of an LP5860 on a Linux SPI bus (spidev):
 *
 *     cc -Iinclude examples/linux_spi.c target/staticlib/libcapi.a -o linux_spi && ./linux_spi /dev/spidev0.0
 */
#include <fcntl.h>
#include <linux/spi/spidev.h>
#include <stdio.h>
#include <sys/ioctl.h>
#include <unistd.h>

#include "lp586x.h"

/* A transaction as it stands, under one chip select. SPI acknowledges nothing: this fails only where the controller does. */
static int send_transaction(int bus, const uint8_t *bytes, uint32_t length)
{
    struct spi_ioc_transfer transfer = {.tx_buf = (uintptr_t)bytes, .len = length, .speed_hz = 12000000, .bits_per_word = 8};

    if (ioctl(bus, SPI_IOC_MESSAGE(1), &transfer) != (int)length)
        return 0;
    if (bytes[0] == 0 && bytes[1] >> 6 == 0)
        usleep(200); /* 000h, chip enable: t_CHIP_EN is 100 us */
    return 1;
}

/* Sends a list in order, up to the first transaction that fails, which may have been heard in part. Answers how many were sent. */
static uint32_t send_list(int bus, const uint8_t *list, size_t list_size)
{
    uint32_t sent = 0, offset, length;

    while (lp586x_transaction(list, list_size, sent, &offset, &length) == LP586X_OK && send_transaction(bus, list + offset, length))
        sent++;
    return sent;
}

int main(int count, char **arguments)
{
    static uint8_t record[LP586X_RECORD_SIZE], list[LP586X_UPDATE_SIZE];
    uint8_t mode = SPI_MODE_0; /* data are taken at the rising edge of the clock */
    uint32_t n, t, stored, needed, sent;
    int bus = count == 2 ? open(arguments[1], O_RDWR) : -1;

    if (bus < 0 || ioctl(bus, SPI_IOC_WR_MODE, &mode) < 0) {
        fprintf(stderr, "usage: linux_spi DEVICE, one that can be opened and has SPI mode 0\n");
        return 2;
    }
    if (lp586x_open(record, sizeof record, LP586X_LP5860, LP586X_SPI, 0) || lp586x_register(record, sizeof record, 0x000, 0x01) ||
        lp586x_register(record, sizeof record, 0x001, 0x58) || lp586x_lamp(record, sizeof record, 0, 2, 255) ||
        lp586x_update(record, sizeof record, list, sizeof list, &n, &t, &stored, &needed))
        return 2;
    sent = send_list(bus, list, 4 + 2 * n + t);
    printf("SPI: %u of %u transactions sent\n", sent, n);
    close(bus);
    return sent == n ? 0 : 1; /* where it is 1, see examples/bus_failure.c */
}
