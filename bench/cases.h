/* The calls that are measured, each with the state that it finds. */
#ifndef CASES_H
#define CASES_H

#include <stddef.h>
#include <stdint.h>

#include "../tests/c/interface.h"
#include "lp586x.h"

enum { SCENE_ENTRIES = 50, PLACES = 4 };

/* Where the settings begin in a record, and the registers in a chip: the images stand last in either. */
enum { SETTINGS = LP586X_RECORD_SIZE - 2 * LP586X_REGISTERS, CHIP_REGISTERS = LP586X_CHIP_SIZE - LP586X_REGISTERS };

struct situation {
    uint32_t member;
    uint8_t record[LP586X_RECORD_SIZE];
    uint8_t chip[LP586X_CHIP_SIZE];
    uint8_t buffer[LP586X_UPDATE_SIZE];
    uint8_t list[LP586X_UPDATE_SIZE];
    size_t list_size;
    uint8_t scene[2 + 3 * SCENE_ENTRIES];
    uint8_t faults[LP586X_FAULT_BYTES];
    uint8_t result[LP586X_DOTS];
    uint32_t n, t, stored, needed;
    uint8_t records[PLACES][LP586X_RECORD_SIZE];
    uint8_t round[LP586X_ROUND_SIZE];
};

struct bench_case {
    const char *name;
    void (*prepare)(struct situation *situation);
    uint32_t (*call)(const struct interface *calls, struct situation *situation);
};

extern const struct bench_case cases[];
extern const int case_count;

/* The state that a case finds: all dots lit, 16 bits, the chip on and up to date, and then what the case does before its call. */
void prepare_case(const struct bench_case *measured, struct situation *situation, uint32_t member);

/* Ends the program where a call was refused. */
void must(uint32_t answer);

/* Whether the member has the dot: what the calls accept. */
int has_dot(uint32_t member, uint32_t dot);

#endif
