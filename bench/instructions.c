/* One case for callgrind or an emulator to count. Arguments: implementation (library, reference), case number, member, and whether the call
 * is made. Its state is put back TIMES times; the call is made each time, or never. The difference of two counts is as many calls. With no
 * arguments the names of the cases are printed.
 */
#include <stdio.h>
#include <stdlib.h>
#include <string.h>

#include "../tests/c/reference.h"
#include "cases.h"

#ifndef TIMES
#define TIMES 1000
#endif

static void names(void)
{
    for (int i = 0; i < case_count; i++)
        printf("%s\n", cases[i].name);
}

static uint32_t run(const struct interface *calls, const struct bench_case *measured, uint32_t member, int made)
{
    static struct situation start, now;
    uint32_t answers = 0;

    prepare_case(measured, &start, member);
    for (int i = 0; i < TIMES; i++) {
        now = start;
        if (made)
            answers |= measured->call(calls, &now);
    }
    return answers;
}

int main(int count, char **arguments)
{
    reference_prepare();
    if (count == 1) {
        names();
        return 0;
    }
    if (count != 5)
        return 2;
    return (int)run(strcmp(arguments[1], "library") == 0 ? &library : &reference, &cases[atoi(arguments[2])],
                    (uint32_t)atoi(arguments[3]), atoi(arguments[4]));
}
