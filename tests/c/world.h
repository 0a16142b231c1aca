/* A record and the chip that it stands for. Each call is made by the library and by the reference; what an accepted call leaves is kept. */
#ifndef WORLD_H
#define WORLD_H

#include "lp586x.h"
#include "stage.h"

struct world {
    uint8_t record[LP586X_RECORD_SIZE];
    uint8_t chip[LP586X_CHIP_SIZE];
};

enum { MARKS = 3, SETTINGS = 4, IMAGE = 4 + LP586X_REGISTERS, CHIP_REGISTERS = 3 };

/* What stands at MARKS. */
enum { FREE = 0, LOCKED = 1 };

/* 003h and 004h, which a lock is over. */
int is_trim(uint32_t address);

/* Opens a record and gives the chip power; both must be accepted. */
void world_open(struct world *world, uint32_t member, uint32_t bus, uint32_t pins);

/* The data mode, or the level of every lamp, in the settings; each call must be accepted. */
void world_mode(struct world *world, uint32_t mode);
void world_lamps(struct world *world, uint32_t level);

/* A record on I2C whose settings and chip have this data mode, and this level for every lamp. */
void world_lit(struct world *world, uint32_t member, uint32_t mode, uint32_t level);

/* OPEN to SWITCH, POWER_LOST and LOCK, with the call's numbers. */
uint32_t world_set(struct world *world, enum kind kind, uint32_t first, uint32_t second, uint32_t third);
uint32_t world_scene(struct world *world, const uint8_t *scene, size_t scene_size);

/* UPDATE to CLEAR. */
struct outcome world_list(struct world *world, enum kind kind, size_t buffer_size);

uint32_t world_feed(struct world *world, const uint8_t *list, size_t list_size);
uint32_t world_chip_power_lost(struct world *world);

/* Any bytes at 064h to 0A6h of the chip. */
void world_any_faults(struct world *world);

/* Random values in the writable bits of an image: one address in so many. */
void scatter(uint32_t member, uint8_t *image, uint32_t times);

/* An update that must be accepted and is fed to the chip. */
struct outcome world_sync(struct world *world);

/* A record whose chip is on, with a value at 003h and at 004h that is not the reset value, locked; the chip holds the settings. */
void world_locked(struct world *world, uint32_t member, uint32_t bus, uint32_t pins);

/* The settings get what the chip image has at 003h and 004h, so that a locked record is sound. */
void trims_from_image(uint8_t *record);

/* The calls of a struct call on the record or the chip as they stand. */
struct call record_call(const struct world *world, enum kind kind, uint32_t first, uint32_t second, uint32_t third);
struct call list_call_of(const struct world *world, enum kind kind, size_t buffer_size);
struct call scene_call(const struct world *world, const uint8_t *scene, size_t scene_size);
struct call feed_call(const struct world *world, const uint8_t *list, size_t list_size);
struct call transaction_call(const uint8_t *list, size_t list_size, uint32_t index);
struct call faults_call(const struct world *world, const uint8_t *bytes, size_t bytes_size, size_t result_size);

#endif
