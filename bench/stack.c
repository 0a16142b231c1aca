/* The stack that each call takes, found by painting: the call runs on a stack of its own that was filled with one byte, and the lowest
 * byte that changed tells its depth. What an empty call takes is subtracted. Prints a line for each case: library, reference.
 */
#define _XOPEN_SOURCE 700
#include <stdio.h>
#include <stdlib.h>
#include <string.h>
#include <ucontext.h>

#include "../tests/c/reference.h"
#include "cases.h"

enum { STACK = 1 << 16, PAINT = 0xD7 };

static uint8_t stack[STACK] __attribute__((aligned(64)));
static ucontext_t caller, callee;
static const struct bench_case *measured;
static const struct interface *calls;
static struct situation state;
static uint32_t answer;

static uint32_t no_call(const struct interface *unused, struct situation *situation)
{
    (void)unused;
    (void)situation;
    return 0;
}

static const struct bench_case empty = {"empty", NULL, no_call};

static void on_the_stack(void)
{
    answer = measured->call(calls, &state);
}

static size_t depth(const struct bench_case *bench_case, const struct interface *interface)
{
    size_t untouched = 0;

    measured = bench_case;
    calls = interface;
    memset(stack, PAINT, sizeof stack);
    getcontext(&callee);
    callee.uc_stack.ss_sp = stack;
    callee.uc_stack.ss_size = sizeof stack;
    callee.uc_link = &caller;
    makecontext(&callee, on_the_stack, 0);
    swapcontext(&caller, &callee);
    while (untouched < sizeof stack && stack[untouched] == PAINT)
        untouched++;
    if (answer != 0)
        exit(1);
    return sizeof stack - untouched;
}

int main(void)
{
    size_t nothing;

    reference_prepare();
    nothing = depth(&empty, &library);
    for (int i = 0; i < case_count; i++) {
        size_t of[2];

        for (int side = 0; side < 2; side++) {
            prepare_case(&cases[i], &state, 0);
            of[side] = depth(&cases[i], side == 0 ? &library : &reference) - nothing;
        }
        printf("%u %u %s\n", (unsigned)of[0], (unsigned)of[1], cases[i].name);
    }
    return 0;
}
