/* Counted checks in named groups. */
#ifndef CHECK_H
#define CHECK_H

#ifdef __cplusplus
extern "C" {
#endif

void group(const char *name);

/* The line of the current group; a word on what it held, or "". */
void group_done(const char *note);

/* Counts one check. Where it fails, prints the message, and ends the program at the twentieth failure. The words of the message are
 * worked out only then. */
#define check(holds, ...) ((holds) ? check_passed() : check_failed(__VA_ARGS__))

void check_passed(void);
void check_failed(const char *format, ...) __attribute__((format(printf, 1, 2)));

/* What stands in front of each failure's message until the next group. */
void context(const char *text);

/* The last line; the program's exit status. */
int checks_result(void);

#ifdef __cplusplus
}
#endif

#endif
