/* Document 01 in plain C, as document 02 has changed it so far, written from the papers and the data sheets alone. The tests
 * compare the library with it after every call, and the speed comparison takes it as the plain C driver.
 *
 * Each call has the arguments and the answers of its namesake in include/lp586x.h. The record and the chip are changed in place.
 */
#ifndef REFERENCE_H
#define REFERENCE_H

#include <stddef.h>
#include <stdint.h>

/* Fills the register maps of the five members. Once, before any other call. */
void reference_prepare(void);

uint32_t reference_open(uint8_t *record, size_t record_size, uint32_t member, uint32_t bus, uint32_t pins);
uint32_t reference_register(uint8_t *record, size_t record_size, uint32_t address, uint32_t value);
uint32_t reference_lamp(uint8_t *record, size_t record_size, uint32_t line, uint32_t sink, uint32_t level);
uint32_t reference_group(uint8_t *record, size_t record_size, uint32_t line, uint32_t sink, uint32_t group);
uint32_t reference_switch(uint8_t *record, size_t record_size, uint32_t line, uint32_t sink, uint32_t state);
uint32_t reference_scene(uint8_t *record, size_t record_size, const uint8_t *scene, size_t scene_size);
uint32_t reference_power_lost(uint8_t *record, size_t record_size);
uint32_t reference_lock(uint8_t *record, size_t record_size);
uint32_t reference_update(uint8_t *record, size_t record_size, uint8_t *buffer, size_t buffer_size, uint32_t *n, uint32_t *t,
                          uint32_t *stored, uint32_t *needed);
uint32_t reference_reset(uint8_t *record, size_t record_size, uint8_t *buffer, size_t buffer_size, uint32_t *n, uint32_t *t);
uint32_t reference_clear(const uint8_t *record, size_t record_size, uint8_t *buffer, size_t buffer_size, uint32_t *n, uint32_t *t);
uint32_t reference_round(uint8_t *records, size_t records_size, uint32_t present, uint32_t limit, uint8_t *buffer, size_t buffer_size,
                         uint32_t *n, uint32_t *t);
uint32_t reference_transaction(const uint8_t *list, size_t list_size, uint32_t index, uint32_t *offset, uint32_t *length);
uint32_t reference_faults(const uint8_t *record, size_t record_size, const uint8_t *bytes, size_t bytes_size, uint8_t *result,
                          size_t result_size, uint32_t *opens_agree, uint32_t *shorts_agree);
uint32_t reference_chip_at_reset(uint8_t *chip, size_t chip_size, uint32_t member, uint32_t bus, uint32_t pins);
uint32_t reference_chip_power_lost(uint8_t *chip, size_t chip_size);
uint32_t reference_chip_feed(uint8_t *chip, size_t chip_size, const uint8_t *list, size_t list_size);

/* The register map, for the tests: a member of at most 4, an address of at most 38Bh. */
int reference_dot(uint32_t member, uint32_t line, uint32_t sink);
int reference_writable(uint32_t member, uint32_t address);
uint8_t reference_reserved(uint32_t member, uint32_t address);
uint8_t reference_reset_value(uint32_t member, uint32_t address);

#endif
