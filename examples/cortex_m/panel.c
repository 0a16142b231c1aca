/* Firmware of a panel with one LP5860 on I2C, on a Cortex-M without an operating system: a cue is settings, an update, and each transaction
 * of its list over the bus. The bus fails twice. A write that is not acknowledged once is mended by the same list again. Where the bus stays
 * dead, nobody knows what the chip has heard, and a reset mends it: see lp586x.h, "Lists of bus writes".
 *
 *     examples/cortex_m/build
 */
#include "board.h"
#include "bus.h"
#include "lp586x.h"

enum { TRIES = 3, CHIP_ON_WAIT_US = 100 };

static uint8_t record[LP586X_RECORD_SIZE], list[LP586X_UPDATE_SIZE];

/* Nothing below is refused. A refused call has done nothing. */
static void must(uint32_t answer)
{
    if (answer != LP586X_OK)
        board_stop("a call is refused");
}

/* A write of 000h may turn the chip on, which takes 100 us (t_CHIP_EN). Bits 9-8 of the register stand in bits 2-1 of the first byte. */
static int is_chip_enable(const uint8_t *transaction)
{
    return (transaction[0] & 0x06) == 0 && transaction[1] == 0x00;
}

/* The list's transactions in their order. Answers 1 where all were sent. */
static int send_list(uint32_t n, uint32_t t)
{
    uint32_t offset, length;

    for (uint32_t i = 0; i < n; i++) {
        must(lp586x_transaction(list, 4 + 2 * n + t, i, &offset, &length));
        if (!bus_write(list[offset] >> 1, list + offset + 1, length - 1))
            return 0;
        if (is_chip_enable(list + offset))
            board_wait_us(CHIP_ON_WAIT_US);
    }
    return 1;
}

/* The same list again, from its first transaction on, until the bus has taken all of it. */
static int send_until_sent(uint32_t n, uint32_t t)
{
    for (int i = 0; i < TRIES; i++) {
        if (send_list(n, t))
            return 1;
        board_text("  failed\n");
    }
    return 0;
}

static int update(void)
{
    uint32_t n, t, stored, needed;

    must(lp586x_update(record, sizeof record, list, sizeof list, &n, &t, &stored, &needed));
    return send_until_sent(n, t);
}

/* The chip at its reset values, whatever it has heard, and then at the settings. The panel is dark in between. */
static int recover(void)
{
    uint32_t n, t;

    must(lp586x_reset(record, sizeof record, list, sizeof list, &n, &t));
    return send_until_sent(n, t) && update();
}

static void lamp(uint32_t line, uint32_t sink, uint32_t level)
{
    must(lp586x_lamp(record, sizeof record, line, sink, level));
}

static void show(void)
{
    board_text(bus_chip_is_as_set(record) ? "the chip is as set\n" : "the chip is NOT as set\n");
}

int main(void)
{
    must(lp586x_open(record, sizeof record, LP586X_LP5860, LP586X_I2C, 0));
    must(lp586x_register(record, sizeof record, 0x000, 0x01)); /* chip enable */
    must(lp586x_register(record, sizeof record, 0x001, 0x58)); /* data mode 0: levels of 8 bits, shown at once */

    board_text("a first lamp\n");
    lamp(0, 2, 255);
    if (!update())
        board_stop("the first update was not sent");
    show();

    board_text("another cue; its second write is not acknowledged once\n");
    bus_fail(1, 1, 0);
    lamp(0, 2, 0);
    lamp(1, 3, 255);
    if (!update())
        board_stop("the second update was not sent");
    show();

    board_text("a third cue; the bus stays dead in the middle of its first write\n");
    bus_fail(0, TRIES, 1);
    lamp(1, 3, 0);
    lamp(1, 4, 128);
    if (update())
        board_stop("a dead bus takes a list");
    show();

    board_text("the bus is back: reset and update\n");
    if (!recover())
        board_stop("the panel was not recovered");
    show();
    board_end(bus_chip_is_as_set(record));
}
