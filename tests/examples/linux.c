/* linux_i2c.c and linux_spi.c of examples/ over a stand-in for ioctl, which keeps what goes over the bus, byte for byte. Lists of all
 * members, on I2C with each setting of the pins and on SPI, go through whole and with a failure at each of their transactions. Prints what
 * the two programs print, and how much was tried; ends with status 1 where something is wrong.
 */
#define main i2c_main
#define send_transaction i2c_send_transaction
#define send_list i2c_send_list
#include "../../examples/linux_i2c.c"
#undef main
#undef send_transaction
#undef send_list
#define main spi_main
#define send_transaction spi_send_transaction
#define send_list spi_send_list
#include "../../examples/linux_spi.c"
#undef main
#undef send_transaction
#undef send_list

#include <errno.h>
#include <stdarg.h>
#include <stdlib.h>
#include <string.h>

enum { BUS = 1000, NEVER = 1 << 20, FULL_SPEED = 12000000 };

/* ---- The stand-in */

static uint8_t wire[LP586X_UPDATE_SIZE]; /* the bytes on the bus, all transactions that were sent */
static uint32_t wire_size, calls, fails_at, all_calls;
static int fails_with, expected_bus;

static void must(int holds, const char *words)
{
    if (!holds) {
        fflush(stdout);
        fprintf(stderr, "tests/examples/linux.c: %s\n", words);
        exit(1);
    }
}

static void take(const uint8_t *bytes, size_t size)
{
    must(wire_size + size <= sizeof wire, "too many bytes");
    memcpy(wire + wire_size, bytes, size);
    wire_size += (uint32_t)size;
}

/* The address byte that the controller makes of an address and a direction, then the message. */
static int take_i2c(const struct i2c_rdwr_ioctl_data *messages)
{
    const struct i2c_msg *message = messages->msgs;

    must(messages->nmsgs == 1, "not one message");
    must(message->flags == 0, "not a plain write");
    must(message->addr <= 0x7F, "an address of more than seven bits");
    take((const uint8_t[]){(uint8_t)(message->addr << 1)}, 1);
    take(message->buf, message->len);
    return 1;
}

static int take_spi(const struct spi_ioc_transfer *transfer)
{
    must(transfer->rx_buf == 0 && transfer->cs_change == 0 && transfer->delay_usecs == 0, "not a plain write");
    must(transfer->bits_per_word == 8 && transfer->speed_hz <= FULL_SPEED, "not 8 bits, or too fast");
    take((const uint8_t *)(uintptr_t)transfer->tx_buf, transfer->len);
    return (int)transfer->len;
}

int ioctl(int bus, unsigned long request, ...)
{
    va_list arguments;
    void *argument;

    va_start(arguments, request);
    argument = va_arg(arguments, void *);
    va_end(arguments);
    if (expected_bus >= 0)
        must(bus == expected_bus, "another bus");
    if (request == SPI_IOC_WR_MODE) {
        must(*(uint8_t *)argument == 0, "not SPI mode 0");
        return 0;
    }
    all_calls++;
    if (calls++ == fails_at) {
        errno = EREMOTEIO;
        return fails_with;
    }
    must(request == I2C_RDWR || request == SPI_IOC_MESSAGE(1), "another request");
    return request == I2C_RDWR ? take_i2c(argument) : take_spi(argument);
}

static void start(int bus, uint32_t failure, int answer)
{
    wire_size = calls = 0;
    expected_bus = bus;
    fails_at = failure;
    fails_with = answer;
}

/* ---- Lists */

/* A list's n and the bytes of its first transactions, by document 01 and not by lp586x_transaction. */
static uint32_t two(const uint8_t *bytes)
{
    return bytes[0] + 256u * bytes[1];
}

static uint32_t first_bytes(const uint8_t *list, uint32_t transactions)
{
    uint32_t sum = 0;

    for (uint32_t i = 0; i < transactions; i++)
        sum += two(list + 4 + 2 * i);
    return sum;
}

static void send_and_compare(uint32_t bus, uint8_t *list, size_t size, uint32_t failure, int answer)
{
    uint32_t n = two(list), wanted = failure < n ? failure : n, sent;

    start(BUS, failure, answer);
    sent = bus == LP586X_I2C ? i2c_send_list(BUS, list, size) : spi_send_list(BUS, list, size);
    must(sent == wanted, "another number of transactions sent");
    must(calls == (failure < n ? failure + 1 : n), "another number of calls");
    must(wire_size == first_bytes(list, wanted) && memcmp(wire, list + 4 + 2 * n, wire_size) == 0, "other bytes on the bus");
}

static uint32_t random_below(uint32_t bound)
{
    static uint32_t state = 5860;

    state = state * 1664525u + 1013904223u;
    return (state >> 8) % bound;
}

/* A cue of random lamps, a dimmed panel and now and then a loss of power; dots that the member has not are refused. Each number is drawn in a
 * declaration of its own: C leaves the order of a call's arguments open. */
static void random_cue(uint8_t *record)
{
    uint32_t value = random_below(256), address = 0x005 + random_below(4);

    lp586x_register(record, LP586X_RECORD_SIZE, 0x000, 0x01);
    lp586x_register(record, LP586X_RECORD_SIZE, address, value);
    for (uint32_t lamps = random_below(40); lamps > 0; lamps--) {
        uint32_t level = random_below(65536), sink = random_below(18), line = random_below(11);

        lp586x_lamp(record, LP586X_RECORD_SIZE, line, sink, level);
    }
    if (random_below(4) == 0)
        lp586x_power_lost(record, LP586X_RECORD_SIZE);
}

static uint32_t lists, transactions;

static void try_cues(uint32_t member, uint32_t bus, uint32_t pins)
{
    uint8_t record[LP586X_RECORD_SIZE], list[LP586X_UPDATE_SIZE];
    uint32_t n, t, stored, needed;

    must(lp586x_open(record, sizeof record, member, bus, pins) == LP586X_OK, "open");
    for (int cue = 0; cue < 8; cue++) {
        random_cue(record);
        must(lp586x_update(record, sizeof record, list, sizeof list, &n, &t, &stored, &needed) == LP586X_OK, "update");
        send_and_compare(bus, list, 4 + 2 * n + t, NEVER, -1);
        must(wire_size == t, "not all bytes on the bus");
        for (uint32_t failure = 0; failure < n; failure++) {
            send_and_compare(bus, list, 4 + 2 * n + t, failure, -1);
            send_and_compare(bus, list, 4 + 2 * n + t, failure, bus == LP586X_I2C ? 0 : 2); /* an answer, but too little */
        }
        lists++;
        transactions += n;
    }
}

static void run_program(int (*program)(int count, char **arguments), uint32_t failure, int status)
{
    start(-1, failure, -1);
    must(program(2, (char *[]){"program", "/dev/null", NULL}) == status, "another exit status");
}

int main(void)
{
    run_program(i2c_main, NEVER, 0);
    run_program(i2c_main, 1, 1);
    run_program(spi_main, NEVER, 0);
    run_program(spi_main, 2, 1);
    for (uint32_t member = LP586X_LP5860; member <= LP586X_LP5868T; member++) {
        for (uint32_t pins = 0; pins < 4; pins++)
            try_cues(member, LP586X_I2C, pins);
        try_cues(member, LP586X_SPI, 0);
    }
    printf("%u lists of %u transactions went over the bus byte for byte, in %u calls of ioctl\n", lists, transactions, all_calls);
    return 0;
}
