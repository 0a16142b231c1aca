/* The vectors, and what stands between a reset and main. */
#include <stdint.h>

#include "board.h"

extern uint32_t stack_top[], data_load[], data_start[], data_end[], bss_start[], bss_end[]; /* mps2.ld */

int main(void);
void reset(void);

void reset(void)
{
    const uint32_t *from = data_load;

#ifdef __ARM_FP
    /* A program for hard float begins with the floating-point unit on. The library has no floating point. */
    *(volatile uint32_t *)0xE000ED88 |= 0xFu << 20;
    __asm volatile("dsb\n isb");
#endif
    for (volatile uint32_t *to = data_start; to < data_end; to++)
        *to = *from++;
    for (volatile uint32_t *to = bss_start; to < bss_end; to++)
        *to = 0;
    board_end(main() == 0);
}

static void fault(void)
{
    board_stop("a fault of the processor");
}

/* Reset, NMI, hard fault, memory, bus and usage fault. No other exception is turned on. */
__attribute__((section(".vectors"), used)) static void (*const vectors[16])(void) = {
    (void (*)(void))stack_top, reset, fault, fault, fault, fault, fault,
};
