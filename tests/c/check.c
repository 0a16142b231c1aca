#include "check.h"

#include <stdarg.h>
#include <stdio.h>
#include <stdlib.h>

enum { MOST_FAILURES = 20 };

static const char *group_name = "", *place = "";
static unsigned long in_group, in_all, failures;

void group(const char *name)
{
    group_name = name;
    place = "";
    in_group = 0;
}

void group_done(const char *note)
{
    printf("%-24s %9lu checks%s%s\n", group_name, in_group, *note ? ", " : "", note);
    fflush(stdout);
}

void context(const char *text)
{
    place = text;
}

void check_passed(void)
{
    in_group++;
    in_all++;
}

void check_failed(const char *format, ...)
{
    va_list arguments;

    check_passed();
    failures++;
    printf("FAILED: %s: %s%s", group_name, place, *place ? ": " : "");
    va_start(arguments, format);
    vprintf(format, arguments);
    va_end(arguments);
    printf("\n");
    if (failures == MOST_FAILURES)
        exit(checks_result());
}

int checks_result(void)
{
    if (failures == 0)
        printf("tests/c: %lu checks passed\n", in_all);
    else
        printf("tests/c: %lu of %lu checks FAILED\n", failures, in_all);
    return failures == 0 ? 0 : 1;
}
