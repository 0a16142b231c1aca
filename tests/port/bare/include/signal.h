/* What the tests take of POSIX's signals, on a Cortex-M: SIGSEGV is a fault of the memory protection unit; the others never come. */
#ifndef BARE_SIGNAL_H
#define BARE_SIGNAL_H

typedef struct {
    void *si_addr;
} siginfo_t;

struct sigaction {
    union {
        void (*sa_handler)(int number);
        void (*sa_sigaction)(int number, siginfo_t *info, void *context);
    };
    int sa_flags;
};

enum { SIGTRAP = 5, SIGBUS = 10, SIGSEGV = 11 };
enum { SA_SIGINFO = 2 };
#define SIG_DFL ((void (*)(int))0)

/* newlib has a function signal of its own. */
#define signal fault_signal

int sigaction(int number, const struct sigaction *action, struct sigaction *old);
void (*signal(int number, void (*handler)(int)))(int);

#endif
