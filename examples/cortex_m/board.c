/* mps2-an385 and mps2-an386: Arm's application notes 385 and 386, and the ARMv7-M Architecture Reference Manual for the timer. */
#include "board.h"

enum { CLOCK_MHZ = 25 };
enum { UART_TRANSMIT_FULL = 1, UART_TRANSMIT_ENABLE = 1, UART_DIVISOR = 217 /* 115,200 baud */ };
enum { TIMER_ON = 1, TIMER_OF_PROCESSOR = 4, TIMER_OVER = 1 << 16 };
enum { SEMIHOSTING_EXIT = 0x18, EXIT_GOOD = 0x20026, EXIT_BAD = 0x20023 };

struct uart {
    volatile uint32_t data, state, control, interrupt, divisor;
};

struct timer {
    volatile uint32_t control, reload, value;
};

static struct uart *const uart = (struct uart *)0x40004000;
static struct timer *const timer = (struct timer *)0xE000E010;

static void put(char character)
{
    uart->divisor = UART_DIVISOR;
    uart->control = UART_TRANSMIT_ENABLE;
    while (uart->state & UART_TRANSMIT_FULL)
        ;
    uart->data = (uint8_t)character;
}

void board_text(const char *text)
{
    while (*text)
        put(*text++);
}

void board_byte(uint8_t byte)
{
    static const char digits[] = "0123456789ABCDEF";

    put(digits[byte >> 4]);
    put(digits[byte & 15]);
}

void board_wait_us(uint32_t microseconds)
{
    timer->reload = microseconds * CLOCK_MHZ;
    timer->value = 0;
    timer->control = TIMER_ON | TIMER_OF_PROCESSOR;
    while (!(timer->control & TIMER_OVER))
        ;
    timer->control = 0;
}

_Noreturn void board_end(int good)
{
    register uint32_t operation __asm("r0") = SEMIHOSTING_EXIT;
    register uint32_t reason __asm("r1") = good ? EXIT_GOOD : EXIT_BAD;

    __asm volatile("bkpt 0xAB" : : "r"(operation), "r"(reason) : "memory");
    for (;;)
        ;
}

_Noreturn void board_stop(const char *what)
{
    board_text("STOPPED: ");
    board_text(what);
    board_text("\n");
    board_end(0);
}
