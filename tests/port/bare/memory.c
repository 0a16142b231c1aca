/* POSIX's memory and signals as far as the tests use them, over the memory protection unit of a Cortex-M3 or M4 (ARMv7-M).
 *
 * A page has 256 KiB. Eight MiB are 32 pages in four blocks of 2 MiB. The unit has eight regions: for each block one that may not be touched and
 * one that may only be read, of which single pages, an eighth of a region each, are turned on. All other memory is open. A fault that the
 * unit makes is SIGSEGV: where the handler has opened the page, the instruction is done again.
 */
#include <signal.h>
#include <stdint.h>
#include <stdlib.h>
#include <string.h>
#include <sys/mman.h>
#include <ucontext.h>
#include <unistd.h>

enum { PAGE = 1 << 18, PAGES_OF_BLOCK = 8, BLOCKS = 4, PAGES = BLOCKS * PAGES_OF_BLOCK, BLOCK_SIZE_BITS = 21 };

extern uint8_t pages_start[]; /* mps2.ld */

/* System control and memory protection unit, ARMv7-M Architecture Reference Manual B3. */
static volatile uint32_t *const handler_control = (uint32_t *)0xE000ED24, *const fault_status = (uint32_t *)0xE000ED28,
                                *const fault_address = (uint32_t *)0xE000ED34, *const mpu_control = (uint32_t *)0xE000ED94,
                                *const mpu_number = (uint32_t *)0xE000ED98, *const mpu_base = (uint32_t *)0xE000ED9C,
                                *const mpu_attributes = (uint32_t *)0xE000EDA0;

enum { MEMORY_FAULT_ENABLE = 1 << 16, ADDRESS_VALID = 1 << 7, DATA_ACCESS = 1 << 1 };
enum { MPU_ENABLE = 1, DEFAULT_MEMORY_OPEN = 4 };
enum { NO_ACCESS = 0, READ_ONLY = 5 };

/* ---- Pages */

static int protection_of[PAGES];
static int pages_taken;

/* Turns on the pages of a block that have this protection. */
static void set_region(int block, int number, int protection, uint32_t access)
{
    uint32_t off = 0xFF;

    for (int i = 0; i < PAGES_OF_BLOCK; i++)
        if (protection_of[block * PAGES_OF_BLOCK + i] == protection)
            off &= ~(1u << i);
    *mpu_number = (uint32_t)number;
    *mpu_base = (uint32_t)(pages_start + block * PAGES_OF_BLOCK * PAGE);
    *mpu_attributes = access << 24 | off << 8 | (BLOCK_SIZE_BITS - 1) << 1 | (off != 0xFF);
}

int mprotect(void *address, size_t size, int protection)
{
    int first = ((uint8_t *)address - pages_start) / PAGE, count = (int)((size + PAGE - 1) / PAGE);

    if (first < 0 || first + count > PAGES || ((uint8_t *)address - pages_start) % PAGE != 0)
        return -1;
    for (int i = first; i < first + count; i++)
        protection_of[i] = protection;
    for (int block = first / PAGES_OF_BLOCK; block <= (first + count - 1) / PAGES_OF_BLOCK; block++) {
        set_region(block, block, PROT_NONE, NO_ACCESS);
        set_region(block, BLOCKS + block, PROT_READ, READ_ONLY);
    }
    *handler_control |= MEMORY_FAULT_ENABLE;
    *mpu_control = MPU_ENABLE | DEFAULT_MEMORY_OPEN;
    __asm volatile("dsb\n isb" ::: "memory");
    return 0;
}

/* Pages are taken one behind another and never given back. */
void *mmap(void *address, size_t size, int protection, int flags, int file, long offset)
{
    int count = (int)((size + PAGE - 1) / PAGE);
    uint8_t *memory = pages_start + pages_taken * PAGE;

    (void)address;
    (void)flags;
    (void)file;
    (void)offset;
    if (pages_taken == 0)
        for (int i = 0; i < PAGES; i++)
            protection_of[i] = PROT_READ | PROT_WRITE;
    if (pages_taken + count > PAGES || mprotect(memory, size, protection) != 0)
        return MAP_FAILED;
    pages_taken += count;
    memset(memory, 0, size);
    return memory;
}

int munmap(void *address, size_t size)
{
    return mprotect(address, size, PROT_READ | PROT_WRITE);
}

long sysconf(int name)
{
    return name == _SC_PAGESIZE ? PAGE : -1;
}

/* ---- Signals */

static struct sigaction on_fault;

int sigaction(int number, const struct sigaction *action, struct sigaction *old)
{
    if (number != SIGSEGV)
        return 0;
    if (old)
        *old = on_fault;
    on_fault = *action;
    return 0;
}

void (*signal(int number, void (*handler)(int)))(int)
{
    const struct sigaction action = {.sa_handler = handler};

    sigaction(number, &action, NULL);
    return SIG_DFL;
}

/* The exception of the memory protection unit, and with any other fault the end. */
void memory_fault(void)
{
    static const char text[] = "FAILED: a fault of the processor\n";
    uint32_t status = *fault_status;
    siginfo_t info = {(void *)*fault_address};

    *fault_status = status;
    if (status != (ADDRESS_VALID | DATA_ACCESS) || !on_fault.sa_handler) {
        (void)!write(STDOUT_FILENO, text, sizeof text - 1);
        _exit(1);
    }
    if (on_fault.sa_flags & SA_SIGINFO)
        on_fault.sa_sigaction(SIGSEGV, &info, NULL);
    else
        on_fault.sa_handler(SIGSEGV);
}

/* ---- Stacks */

int getcontext(ucontext_t *context)
{
    (void)context;
    return 0;
}

void makecontext(ucontext_t *context, void (*function)(void), int arguments, ...)
{
    (void)arguments;
    context->function = function;
}

__attribute__((naked, noinline)) static void call_on(void *top, void (*function)(void))
{
    (void)top;
    (void)function;
    __asm volatile("push {r4, lr}\n mov r4, sp\n mov sp, r0\n blx r1\n mov sp, r4\n pop {r4, pc}");
}

int swapcontext(ucontext_t *caller, const ucontext_t *callee)
{
    (void)caller;
    call_on((uint8_t *)callee->uc_stack.ss_sp + callee->uc_stack.ss_size, callee->function);
    return 0;
}
