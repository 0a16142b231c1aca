/* What the tests rest on where there is no operating system: memory that may not be touched (tests/port/bare/memory.c). Takes as much of it as
 * tests/c does; the argument says what is done behind the end of the last range: read, write, or nothing. The touch must end the program
 * with status 3 and its line, as a signal's handler does; nothing ends it with 0.
 */
#include <signal.h>
#include <stdint.h>
#include <stdlib.h>
#include <string.h>
#include <sys/mman.h>
#include <unistd.h>

enum { RANGES = 14, TOUCHED = 3 };

static void say(const char *text)
{
    (void)!write(STDOUT_FILENO, text, strlen(text));
}

static void touched(int number)
{
    (void)number;
    say("touched\n");
    _exit(TOUCHED);
}

static volatile uint8_t *guarded_range(size_t page)
{
    uint8_t *memory = mmap(NULL, 2 * page, PROT_READ | PROT_WRITE, MAP_PRIVATE | MAP_ANONYMOUS, -1, 0);

    if (memory == MAP_FAILED || mprotect(memory + page, page, PROT_NONE) != 0)
        exit(1);
    return memory;
}

int main(int count, char **arguments)
{
    size_t page = (size_t)sysconf(_SC_PAGESIZE);
    volatile uint8_t *range = NULL;

    if (count != 2)
        return 2;
    signal(SIGSEGV, touched);
    for (int i = 0; i < RANGES; i++)
        range = guarded_range(page);
    range[page - 1] = 1;
    if (strcmp(arguments[1], "write") == 0)
        range[page] = 1;
    else if (strcmp(arguments[1], "read") == 0)
        (void)range[page];
    say("untouched\n");
    return 0;
}
