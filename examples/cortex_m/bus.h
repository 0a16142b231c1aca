/* The panel's I2C bus. Here a model of the chip hangs on it, and it fails when it is told to; on a board this is the driver of the
 * controller's I2C unit. */
#ifndef BUS_H
#define BUS_H

#include <stdint.h>

/* Writes bytes to a 7-bit address. Answers 1 where all were acknowledged. */
int bus_write(uint8_t address, const uint8_t *bytes, uint32_t length);

/* So many writes go through; then so many fail, each once the chip has heard its register and so many bytes of data. */
void bus_fail(uint32_t after, uint32_t times, uint32_t heard);

/* Whether each register of the chip is as the settings of the record say. */
int bus_chip_is_as_set(const uint8_t *record);

#endif
