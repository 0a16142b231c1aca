/* The groups of checks. */
#ifndef GROUPS_H
#define GROUPS_H

#include <stdint.h>

#ifdef __cplusplus
extern "C" {
#endif

void group_rows(const char *path);
void group_examples(void);
void group_refusals(void);
void group_sizes(void);
void group_registers(void);
void group_soundness(void);
void group_dots(void);
void group_heads(void);
void group_chip(void);
void group_transactions(void);
void group_stores(void);
void group_locks(void);
void group_faults(void);
void group_order(uint64_t seed);
void group_histories(uint64_t seed);
void group_rounds(uint64_t seed);
void group_cplusplus(void);

#ifdef __cplusplus
}
#endif

#endif
