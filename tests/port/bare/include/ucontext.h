/* What bench/stack.c takes of POSIX's contexts, on a Cortex-M: a function runs on a stack of its own, and its end is the way back. */
#ifndef BARE_UCONTEXT_H
#define BARE_UCONTEXT_H

#include <stddef.h>

typedef struct context {
    struct {
        void *ss_sp;
        size_t ss_size;
    } uc_stack;
    struct context *uc_link;
    void (*function)(void);
} ucontext_t;

int getcontext(ucontext_t *context);
void makecontext(ucontext_t *context, void (*function)(void), int arguments, ...);

/* Back once the function of the other one is over. */
int swapcontext(ucontext_t *caller, const ucontext_t *callee);

#endif
