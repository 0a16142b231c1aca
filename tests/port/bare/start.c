/* Start-up for the tests on mps2-an385 (Cortex-M3) and mps2-an386 (Cortex-M4): vectors, memory, and the arguments of main. Files, standard
 * output, arguments and the exit status come and go by semihosting, the calls of a program to its debugger or emulator. */
#include <stdint.h>
#include <stdlib.h>
#include <string.h>

enum { MOST_ARGUMENTS = 16, SEMIHOSTING_COMMAND_LINE = 0x15 };

extern char stack_top[], bss_start[], bss_end[]; /* mps2.ld */
extern void (*init_array_start[])(void), (*init_array_end[])(void);

void initialise_monitor_handles(void); /* newlib: standard input and output */
void memory_fault(void);               /* memory.c */
int main(int count, char **arguments);
void reset(void);
void _fini(void);

static uint32_t semihosting(uint32_t operation, void *block)
{
    register uint32_t r0 __asm("r0") = operation;
    register void *r1 __asm("r1") = block;

    __asm volatile("bkpt 0xAB" : "+r"(r0) : "r"(r1) : "memory");
    return r0;
}

static int words_of(char *line, char **words)
{
    int count = 0;

    for (char *word = strtok(line, " "); word && count < MOST_ARGUMENTS; word = strtok(NULL, " "))
        words[count++] = word;
    return count;
}

static void start(void)
{
    static char line[256], *arguments[MOST_ARGUMENTS + 1];
    struct {
        char *at;
        uint32_t size;
    } command = {line, sizeof line};

    memset(bss_start, 0, (size_t)(bss_end - bss_start));
    initialise_monitor_handles();
    for (void (**function)(void) = init_array_start; function < init_array_end; function++)
        (*function)();
    if (semihosting(SEMIHOSTING_COMMAND_LINE, &command) != 0)
        exit(2);
    exit(main(words_of(line, arguments), arguments));
}

/* A program for hard float begins with the floating-point unit on. */
void reset(void)
{
#ifdef __ARM_FP
    volatile uint32_t *const coprocessors = (uint32_t *)0xE000ED88;

    *coprocessors |= 0xFu << 20;
    __asm volatile("dsb\n isb");
#endif
    start();
}

/* What newlib's exit calls at last. */
void _fini(void)
{
}

/* Reset, NMI, hard fault, memory, bus and usage fault. */
__attribute__((section(".vectors"), used)) static void (*const vectors[16])(void) = {
    (void (*)(void))stack_top, reset, memory_fault, memory_fault, memory_fault, memory_fault, memory_fault,
};
