/* The calls of include/lp586x.h as a table of functions: one table of the library, one of the reference. */
#ifndef INTERFACE_H
#define INTERFACE_H

#include <stddef.h>
#include <stdint.h>

struct interface {
    const char *name;
    uint32_t (*open)(uint8_t *record, size_t record_size, uint32_t member, uint32_t bus, uint32_t pins);
    uint32_t (*set_register)(uint8_t *record, size_t record_size, uint32_t address, uint32_t value);
    uint32_t (*lamp)(uint8_t *record, size_t record_size, uint32_t line, uint32_t sink, uint32_t level);
    uint32_t (*group)(uint8_t *record, size_t record_size, uint32_t line, uint32_t sink, uint32_t group);
    uint32_t (*set_switch)(uint8_t *record, size_t record_size, uint32_t line, uint32_t sink, uint32_t state);
    uint32_t (*scene)(uint8_t *record, size_t record_size, const uint8_t *scene, size_t scene_size);
    uint32_t (*power_lost)(uint8_t *record, size_t record_size);
    uint32_t (*lock)(uint8_t *record, size_t record_size);
    uint32_t (*update)(uint8_t *record, size_t record_size, uint8_t *buffer, size_t buffer_size, uint32_t *n, uint32_t *t,
                       uint32_t *stored, uint32_t *needed);
    uint32_t (*reset)(uint8_t *record, size_t record_size, uint8_t *buffer, size_t buffer_size, uint32_t *n, uint32_t *t);
    uint32_t (*clear)(const uint8_t *record, size_t record_size, uint8_t *buffer, size_t buffer_size, uint32_t *n, uint32_t *t);
    uint32_t (*round)(uint8_t *records, size_t records_size, uint32_t present, uint32_t limit, uint8_t *buffer, size_t buffer_size,
                      uint32_t *n, uint32_t *t);
    uint32_t (*transaction)(const uint8_t *list, size_t list_size, uint32_t index, uint32_t *offset, uint32_t *length);
    uint32_t (*faults)(const uint8_t *record, size_t record_size, const uint8_t *bytes, size_t bytes_size, uint8_t *result,
                       size_t result_size, uint32_t *opens_agree, uint32_t *shorts_agree);
    uint32_t (*chip_at_reset)(uint8_t *chip, size_t chip_size, uint32_t member, uint32_t bus, uint32_t pins);
    uint32_t (*chip_power_lost)(uint8_t *chip, size_t chip_size);
    uint32_t (*chip_feed)(uint8_t *chip, size_t chip_size, const uint8_t *list, size_t list_size);
};

extern const struct interface library, reference;

#endif
