#define _DEFAULT_SOURCE
#include "stage.h"

#include <signal.h>
#include <stdio.h>
#include <stdlib.h>
#include <string.h>
#include <sys/mman.h>
#include <unistd.h>

#include "check.h"
#include "interface.h"
#include "lp586x.h"
#include "random.h"
#include "stores.h"
#include "world.h"

enum { CANARY = 32, CANARY_BYTE = 0xC5, CAPACITY = 1 << 18, RANGES = 7 };

enum { STATE, INPUT, BUFFER, N, T, STORED, NEEDED };

static const char *const range_names[RANGES] = {"record or chip", "input", "buffer", "n", "t", "stored", "needed"};

struct range {
    uint8_t *memory; /* CAPACITY bytes, then memory that may not be touched */
    uint8_t *bytes;
    size_t size;
    size_t behind; /* canaries behind the range */
};

struct side {
    const struct interface *interface;
    struct range ranges[RANGES];
    uint32_t answer;
};

static struct side sides[2] = {{.interface = &library}, {.interface = &reference}};

/* What the ranges hold before the call, and bytes to fill a buffer with. */
static uint8_t before[RANGES][CAPACITY];
static uint8_t filling[CAPACITY];

static const struct call *current;
static unsigned long calls;

/* ---- Words */

static const char *const kind_names[] = {
    [OPEN] = "open",
    [REGISTER] = "register",
    [LAMP] = "lamp",
    [GROUP] = "group",
    [SWITCH] = "switch",
    [SCENE] = "scene",
    [POWER_LOST] = "power_lost",
    [LOCK] = "lock",
    [UPDATE] = "update",
    [RESET] = "reset",
    [CLEAR] = "clear",
    [FAULTS] = "faults",
    [CHIP_AT_RESET] = "chip_at_reset",
    [CHIP_POWER_LOST] = "chip_power_lost",
    [FEED] = "chip_feed",
    [TRANSACTION] = "transaction",
    [ROUND] = "round",
};

static int lends_record(enum kind kind)
{
    return kind <= FAULTS;
}

const char *call_text(const struct call *call)
{
    static char text[200];
    int has_head = call->state_size >= 3, has_marks = lends_record(call->kind) && call->state_size > MARKS;

    snprintf(text, sizeof text, "%s (%X, %X, %X; member %d, bus %d, pins %d, marks %d; %zu, %zu, %zu bytes lent)",
             kind_names[call->kind], (unsigned)call->numbers[0], (unsigned)call->numbers[1], (unsigned)call->numbers[2],
             has_head ? call->state[0] : -1, has_head ? call->state[1] : -1, has_head ? call->state[2] : -1,
             has_marks ? call->state[MARKS] : -1, call->state_size, call->input_size, call->buffer_size);
    return text;
}

/* ---- Memory */

static void touched(int number)
{
    static const char text[] = "FAILED: a call touched memory behind a range that it was lent: ";

    (void)number;
    (void)!write(STDOUT_FILENO, text, sizeof text - 1);
    (void)!write(STDOUT_FILENO, call_text(current), strlen(call_text(current)));
    (void)!write(STDOUT_FILENO, "\n", 1);
    _exit(1);
}

static uint8_t *memory_with_end(void)
{
    size_t page = (size_t)sysconf(_SC_PAGESIZE);
    uint8_t *memory = mmap(NULL, CAPACITY + page, PROT_READ | PROT_WRITE, MAP_PRIVATE | MAP_ANONYMOUS, -1, 0);

    if (memory == MAP_FAILED || mprotect(memory + CAPACITY, page, PROT_NONE) != 0) {
        perror("mmap");
        exit(1);
    }
    return memory;
}

void stage_prepare(void)
{
    for (int side = 0; side < 2; side++)
        for (int range = 0; range < RANGES; range++)
            sides[side].ranges[range].memory = memory_with_end();
    for (size_t i = 0; i < CAPACITY; i++)
        filling[i] = (uint8_t)random_below(256);
    signal(SIGSEGV, touched);
    signal(SIGBUS, touched);
}

/* Half of the ranges end where the memory ends; the others begin at any alignment. Numbers are aligned. */
static void place(struct range *range, size_t size, int at_end, size_t shift)
{
    if (size + 2 * CANARY + 8 > CAPACITY) {
        fprintf(stderr, "tests/c: a range of %zu bytes is more than the stage has room for\n", size);
        exit(1);
    }
    range->size = size;
    range->behind = at_end ? 0 : CANARY;
    range->bytes = at_end ? range->memory + CAPACITY - size : range->memory + CANARY + shift;
    memset(range->bytes - CANARY, CANARY_BYTE, CANARY);
    memset(range->bytes + size, CANARY_BYTE, range->behind);
}

static void load(int number, const uint8_t *bytes, size_t size)
{
    int at_end = (int)random_below(2);
    size_t shift = number < N ? random_below(8) : 0;

    memcpy(before[number], bytes, size);
    for (int side = 0; side < 2; side++) {
        place(&sides[side].ranges[number], size, at_end, shift);
        memcpy(sides[side].ranges[number].bytes, bytes, size);
    }
}

static void load_call(const struct call *call)
{
    static const uint8_t nothing[1];
    const uint32_t untouched = OUT_UNTOUCHED;

    load(STATE, call->state_size ? call->state : nothing, call->state_size);
    load(INPUT, call->input_size ? call->input : nothing, call->input_size);
    load(BUFFER, filling + random_below(256), call->buffer_size);
    for (int number = N; number <= NEEDED; number++)
        load(number, (const uint8_t *)&untouched, sizeof untouched);
}

/* ---- The call on one side */

static uint32_t call_record(const struct interface *calls, const struct call *call, uint8_t *record, const uint8_t *input)
{
    const uint32_t *numbers = call->numbers;
    size_t size = call->state_size;

    switch (call->kind) {
    case OPEN:
        return calls->open(record, size, numbers[0], numbers[1], numbers[2]);
    case REGISTER:
        return calls->set_register(record, size, numbers[0], numbers[1]);
    case LAMP:
        return calls->lamp(record, size, numbers[0], numbers[1], numbers[2]);
    case GROUP:
        return calls->group(record, size, numbers[0], numbers[1], numbers[2]);
    case SWITCH:
        return calls->set_switch(record, size, numbers[0], numbers[1], numbers[2]);
    case SCENE:
        return calls->scene(record, size, input, call->input_size);
    case POWER_LOST:
        return calls->power_lost(record, size);
    default:
        return calls->lock(record, size);
    }
}

static uint32_t call_list(const struct interface *calls, const struct call *call, uint8_t *record, uint8_t *buffer, uint32_t *n,
                          uint32_t *t, uint32_t *stored, uint32_t *needed)
{
    size_t size = call->state_size, buffer_size = call->buffer_size;

    switch (call->kind) {
    case UPDATE:
        return calls->update(record, size, buffer, buffer_size, n, t, stored, needed);
    case RESET:
        return calls->reset(record, size, buffer, buffer_size, n, t);
    default:
        return calls->clear(record, size, buffer, buffer_size, n, t);
    }
}

static uint32_t call_chip(const struct interface *calls, const struct call *call, uint8_t *chip, const uint8_t *input)
{
    const uint32_t *numbers = call->numbers;
    size_t size = call->state_size;

    switch (call->kind) {
    case CHIP_AT_RESET:
        return calls->chip_at_reset(chip, size, numbers[0], numbers[1], numbers[2]);
    case CHIP_POWER_LOST:
        return calls->chip_power_lost(chip, size);
    default:
        return calls->chip_feed(chip, size, input, call->input_size);
    }
}

static void perform(struct side *side, const struct call *call)
{
    const struct interface *calls = side->interface;
    uint8_t *state = side->ranges[STATE].bytes, *input = side->ranges[INPUT].bytes, *buffer = side->ranges[BUFFER].bytes;
    uint32_t *n = (uint32_t *)(void *)side->ranges[N].bytes;
    uint32_t *t = (uint32_t *)(void *)side->ranges[T].bytes;
    uint32_t *stored = (uint32_t *)(void *)side->ranges[STORED].bytes;
    uint32_t *needed = (uint32_t *)(void *)side->ranges[NEEDED].bytes;

    if (call->kind <= LOCK)
        side->answer = call_record(calls, call, state, input);
    else if (call->kind <= CLEAR)
        side->answer = call_list(calls, call, state, buffer, n, t, stored, needed);
    else if (call->kind == FAULTS)
        side->answer = calls->faults(state, call->state_size, input, call->input_size, buffer, call->buffer_size, n, t);
    else if (call->kind == ROUND)
        side->answer = calls->round(state, call->state_size, call->numbers[0], call->numbers[1], buffer, call->buffer_size, n, t);
    else if (call->kind == TRANSACTION)
        side->answer = calls->transaction(input, call->input_size, call->numbers[0], n, t);
    else
        side->answer = call_chip(calls, call, state, input);
}

/* ---- What must hold after it */

static int canaries_stand(const struct range *range)
{
    for (size_t i = 1; i <= CANARY; i++)
        if (range->bytes[-(ptrdiff_t)i] != CANARY_BYTE)
            return 0;
    for (size_t i = 0; i < range->behind; i++)
        if (range->bytes[range->size + i] != CANARY_BYTE)
            return 0;
    return 1;
}

static size_t first_difference(const uint8_t *a, const uint8_t *b, size_t size)
{
    size_t i = 0;

    while (i < size && a[i] == b[i])
        i++;
    return i;
}

/* Which byte of a range differs, in words. */
static const char *difference_text(int number)
{
    static char text[120];
    const struct range *ours = &sides[0].ranges[number], *theirs = &sides[1].ranges[number];
    size_t at = first_difference(ours->bytes, theirs->bytes, ours->size);

    snprintf(text, sizeof text, "byte %zu of %s is %02X in the library, %02X in the reference", at, range_names[number],
             ours->bytes[at], theirs->bytes[at]);
    return text;
}

static void check_range(const struct call *call, int number)
{
    const struct range *ours = &sides[0].ranges[number], *theirs = &sides[1].ranges[number];
    int needed_stored = number == NEEDED && call->kind == UPDATE && sides[0].answer == 10;

    check(memcmp(ours->bytes, theirs->bytes, ours->size) == 0, "%s: %s", call_text(call), difference_text(number));
    if (sides[0].answer != 0 && !needed_stored)
        check(memcmp(ours->bytes, before[number], ours->size) == 0, "%s: refused with %u, but changed %s", call_text(call),
              (unsigned)sides[0].answer, range_names[number]);
    check(canaries_stand(ours) && canaries_stand(theirs), "%s: wrote outside %s", call_text(call), range_names[number]);
}

/* Clear and Faults leave the record unchanged; scenes, lists and fault bytes are lent to be read. */
static void check_only_read(const struct call *call)
{
    const struct side *ours = &sides[0];

    check(memcmp(ours->ranges[INPUT].bytes, before[INPUT], call->input_size) == 0, "%s: changed its input", call_text(call));
    if (call->kind == CLEAR || call->kind == FAULTS)
        check(memcmp(ours->ranges[STATE].bytes, before[STATE], call->state_size) == 0, "%s: changed the record",
              call_text(call));
}

static uint32_t stored_number(int number)
{
    uint32_t value;

    memcpy(&value, sides[0].ranges[number].bytes, sizeof value);
    return value;
}

/* "Exactly 4 + 2n + t bytes of the buffer are written." */
static void check_behind_list(const struct call *call)
{
    size_t size = 4 + 2 * (size_t)stored_number(N) + stored_number(T);
    const uint8_t *buffer = sides[0].ranges[BUFFER].bytes;

    check(size <= call->buffer_size && memcmp(buffer + size, before[BUFFER] + size, call->buffer_size - size) == 0,
          "%s: changed the buffer behind its list of %zu bytes", call_text(call), size);
}

/* "Copy only the stretches that were sent": the data bytes of the list, read here once more, make the old record the new one. */
static void check_stored(const struct call *call)
{
    uint32_t n = stored_number(N), t = stored_number(T), stored = stored_number(STORED), named;
    uint8_t expected[LP586X_RECORD_SIZE];

    memcpy(expected, before[STATE], sizeof expected);
    named = take_list(expected, sides[0].ranges[BUFFER].bytes);
    check(stored == t - 2 * n, "%s: stored is %u, n is %u, t is %u", call_text(call), stored, n, t);
    check(stored == named, "%s: stored is %u, but the list names %u addresses", call_text(call), stored, named);
    check(memcmp(sides[0].ranges[STATE].bytes, expected, sizeof expected) == 0, "%s: stored something else than the list's data bytes",
          call_text(call));
    if (before[STATE][MARKS] == LOCKED)
        check(!list_names(sides[0].ranges[BUFFER].bytes, before[STATE][1], 0x003, 2), "%s: writes to a locked register", call_text(call));
}

/* Those that an accepted call leaves. */
static uint8_t marks_after(enum kind kind, uint8_t marks)
{
    switch (kind) {
    case OPEN:
    case RESET:
    case POWER_LOST:
        return FREE;
    case LOCK:
        return LOCKED;
    default:
        return marks;
    }
}

/* "Reset and Power lost release it", and a call of its own sets it, "once until it is released". */
static void check_marks(const struct call *call)
{
    const uint8_t *record = sides[0].ranges[STATE].bytes, old = before[STATE][MARKS];
    uint8_t expected[LP586X_RECORD_SIZE];

    check(record[MARKS] == marks_after(call->kind, old), "%s: leaves marks %u", call_text(call), record[MARKS]);
    if (call->kind != LOCK)
        return;
    memcpy(expected, before[STATE], sizeof expected);
    expected[MARKS] = LOCKED;
    check(old == FREE, "%s: locks a record with marks %u", call_text(call), old);
    check(memcmp(record, expected, sizeof expected) == 0, "%s: changed more than the marks", call_text(call));
}

static int answers_a_list(enum kind kind)
{
    return kind == UPDATE || kind == RESET || kind == CLEAR || kind == ROUND;
}

struct outcome both(const struct call *call)
{
    current = call;
    calls++;
    load_call(call);
    perform(&sides[0], call);
    perform(&sides[1], call);
    check(sides[0].answer == sides[1].answer, "%s: library answers %u, reference %u", call_text(call), (unsigned)sides[0].answer,
          (unsigned)sides[1].answer);
    for (int number = 0; number < RANGES; number++)
        check_range(call, number);
    check_only_read(call);
    if (sides[0].answer == 0 && answers_a_list(call->kind))
        check_behind_list(call);
    if (sides[0].answer == 0 && call->kind == UPDATE)
        check_stored(call);
    if (sides[0].answer == 0 && lends_record(call->kind))
        check_marks(call);
    return (struct outcome){.answer = sides[0].answer,
                            .n = stored_number(N),
                            .t = stored_number(T),
                            .stored = stored_number(STORED),
                            .needed = stored_number(NEEDED),
                            .state = sides[0].ranges[STATE].bytes,
                            .buffer = sides[0].ranges[BUFFER].bytes};
}

unsigned long calls_made(void)
{
    return calls;
}
