/* The board: a serial line, a timer, and the end of the program. */
#ifndef BOARD_H
#define BOARD_H

#include <stdint.h>

void board_text(const char *text);

/* Two digits. */
void board_byte(uint8_t byte);

void board_wait_us(uint32_t microseconds);

/* The end, good or bad. Under an emulator, or with a debugger, by semihosting; a firmware of your own goes round a loop instead. */
_Noreturn void board_end(int good);

/* Says what is wrong, and is the end. */
_Noreturn void board_stop(const char *what);

#endif
