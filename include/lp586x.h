/* Host driver for TI's LP586x LED-matrix chips (LP5860, LP5861T, LP5864, LP5867, LP5868T): a record of one chip, its settings,
 * updates as lists of bus writes, fault reading, and a model of the chip for tests.
 *
 * Every call answers 0 where it was accepted, or the number of its refusal:
 *    1 member above 4       2 bus above 1            3 pins above 3, or not 0 on SPI
 *    4 address not writable 5 reserved bits differ   6 no such dot
 *    7 level too high       8 group above 3 or state above 1
 *    9 length of a scene   10 buffer too short      11 sizes of a list do not add up
 *   13 fault bytes not 67  14 unsound record or chip, or its size is wrong
 *   15 limit of a round    16 record on SPI, or its pins are not its place
 *   17 register locked     18 not lockable: locked already, chip off, or 003h or 004h not as set
 *   26 no such transaction
 * A call checks in the order in which its refusals stand below. A refused call changes no byte that was lent to it, n, t and stored
 * among them; 10 of lp586x_update alone stores the length needed.
 *
 * A record is LP586X_RECORD_SIZE bytes in the caller's memory, a chip of the model LP586X_CHIP_SIZE: static storage, a stack or a file
 * will do. Nothing is allocated and nothing is kept between calls. The memory of two arguments of one call must not overlap, and no
 * pointer may be null, even with length 0.
 *
 * Threads: a call uses the memory that it is lent and its own stack, and nothing else. The last line of its comment says which memory it
 * changes, which it only reads, and that none of these pointers may be null. Calls may run at the same time, in interrupts too, unless one
 * of them changes what another one is lent: on one record one call at a time, on different records side by side. lp586x_clear and
 * lp586x_faults only read the record, so that any number of these two may run side by side on one.
 *
 * Targets: rt's own archive is for x86-64 with the System V calling convention, and tools/port compiles the same module for other
 * little-endian processors, with a size_t of 64 or of 32 bits. The promises are proved of the source, on a machine with 64-bit addresses;
 * that the code for a processor keeps them is tested: README.md, "Targets", says for which, and what a program must supply. Records, chips
 * and lists are the same bytes on each of them. A uint32_t that is lent is aligned as C has it, bytes need not be. Nothing that is lent may
 * stand at address 0, which is the null pointer on a controller too.
 *
 * Bytes of a record: member, bus, pins, marks, 908 settings, 908 of the chip as the host believes it (the chip image). Of a chip: member,
 * bus, pins, 908 registers. They are the driver's to change. They are sound if lp586x_open takes the member, bus and pins, and reserved
 * bits and addresses that are not writable hold their reset values; a chip's fault bytes 064h to 0A6h may hold anything. The marks of a
 * record are 0, free, or 1, locked (lp586x_lock). With any other value it is unsound, and so is a locked record whose settings and chip
 * image differ at 003h or 004h. Where 14 stands with "(size)" below, the size alone is tested.
 */
#ifndef LP586X_H
#define LP586X_H

#include <stddef.h>
#include <stdint.h>

#ifdef __cplusplus
extern "C" {
#endif

#define LP586X_VERSION "5.0.0"
#define LP586X_VERSION_MAJOR 5
#define LP586X_VERSION_MINOR 0
#define LP586X_VERSION_PATCH 0

/* Members and buses. */
#define LP586X_LP5860 0u
#define LP586X_LP5861T 1u
#define LP586X_LP5864 2u
#define LP586X_LP5867 3u
#define LP586X_LP5868T 4u
#define LP586X_I2C 0u
#define LP586X_SPI 1u

/* The answers. */
#define LP586X_OK 0u
#define LP586X_NO_MEMBER 1u
#define LP586X_NO_BUS 2u
#define LP586X_NO_PINS 3u
#define LP586X_NOT_WRITABLE 4u
#define LP586X_RESERVED_BIT 5u
#define LP586X_NO_DOT 6u
#define LP586X_LEVEL_TOO_HIGH 7u
#define LP586X_NO_GROUP_OR_STATE 8u
#define LP586X_SCENE_LENGTH 9u
#define LP586X_BUFFER_SHORT 10u
#define LP586X_LIST_SIZES 11u
#define LP586X_FAULT_LENGTH 13u
#define LP586X_UNSOUND 14u
#define LP586X_ROUND_LIMIT 15u
#define LP586X_WRONG_PLACE 16u
#define LP586X_LOCKED 17u
#define LP586X_NOT_LOCKABLE 18u
#define LP586X_NO_TRANSACTION 26u

#define LP586X_RECORD_SIZE 1820u
#define LP586X_CHIP_SIZE 911u
#define LP586X_REGISTERS 908u
/* Four records back to back, for lp586x_round. */
#define LP586X_RECORDS_SIZE (4u * LP586X_RECORD_SIZE)

/* A buffer of this size is never too short for lp586x_update. */
#define LP586X_UPDATE_SIZE 1174u
/* A buffer of this size is never too short for lp586x_round. */
#define LP586X_ROUND_SIZE 4684u
/* The size of the list of lp586x_reset. */
#define LP586X_COMMAND_SIZE 9u
/* The size of the list of lp586x_clear. */
#define LP586X_CLEAR_SIZE 10u
/* Fault bytes 064h to 0A6h, and a reading for each dot 18 x line + sink. */
#define LP586X_FAULT_BYTES 67u
#define LP586X_DOTS 198u

/* ---- The record and its settings */

/* A new record: member 0 LP5860, 1 LP5861T, 2 LP5864, 3 LP5867, 4 LP5868T; bus 0 I2C with the chip's two address pins, 1 SPI with pins 0.
 * Settings and chip image start at the member's reset values: nothing lights before 000h is 01h. The pins are 2 x ADDR1 + ADDR0. The
 * record is not locked. 14 (size), 1, 2, 3.
 * Changes record, not null. */
uint32_t lp586x_open(uint8_t *record, size_t record_size, uint32_t member, uint32_t bus, uint32_t pins);

/* One whole register of the settings. 14, 4, 17 (003h or 004h of a locked record), 5 (a value above 255 too).
 * Changes record, not null. */
uint32_t lp586x_register(uint8_t *record, size_t record_size, uint32_t address, uint32_t value);

/* The level of a dot: 8 bits at data mode 0 or 1 of the settings, else 16 bits. A new record has data mode 3, where 65,535 is full and 255
 * is dim, and where the chip shows levels at a pulse on its VSYNC pin; in data mode 0 it shows them at once. 14, 6, 7.
 * Changes record, not null. */
uint32_t lp586x_lamp(uint8_t *record, size_t record_size, uint32_t line, uint32_t sink, uint32_t level);

/* The brightness group of a dot, 1 to 3, or 0 for none. 14, 6, 8.
 * Changes record, not null. */
uint32_t lp586x_group(uint8_t *record, size_t record_size, uint32_t line, uint32_t sink, uint32_t group);

/* A dot on (1) or off (0). 14, 6, 8.
 * Changes record, not null. */
uint32_t lp586x_switch(uint8_t *record, size_t record_size, uint32_t line, uint32_t sink, uint32_t state);

/* Many levels: a count n of two bytes, n dot numbers 18 x line + sink of one byte, n levels of two bytes, low byte first. All or nothing;
 * a dot twice takes the last level. 14, 9 (size under 2 or not 2 + 3n), 6 (any dot), 7 (any level).
 * Changes record, reads scene, neither null. */
uint32_t lp586x_scene(uint8_t *record, size_t record_size, const uint8_t *scene, size_t scene_size);

/* The chip has lost its power: it holds its reset values. The settings are kept, so that the next update sends them. A locked record is
 * free again. 14.
 * Changes record, not null. */
uint32_t lp586x_power_lost(uint8_t *record, size_t record_size);

/* Locks 003h and 004h, which are trimmed to each panel: set them, send an update, then lock the record. As long as it is locked,
 * lp586x_register answers 17 for these two, whatever the value, and no write goes to them or across them. An accepted lp586x_reset or
 * lp586x_power_lost frees the record: the settings keep the trim, the next update sends it, and then the record can be locked again. A new
 * record is free, and no other call changes the marks. 14, 18 (the record is locked already, or bit 0 of 000h is clear in the chip image,
 * or settings and chip image differ at 003h or 004h).
 * Changes record, of it the marks alone, not null. */
uint32_t lp586x_lock(uint8_t *record, size_t record_size);

/* ---- Lists of bus writes
 *
 * A list is n, t, n lengths (two bytes each, low byte first), then n transactions of t bytes together: two head bytes and the data. Send
 * each transaction as it stands. Exactly 4 + 2n + t bytes of the buffer are written. The record takes the chip to have heard them.
 *
 * On I2C the first head byte is the bus's own address byte, with the write bit. A bus driver that takes a 7-bit address gets the first
 * byte >> 1 (40h + 4 x pins + bits 9-8 of the register, so one chip has four) and the bytes from the second on. On SPI each transaction
 * is one chip select. After the write that turns a chip on, alone and the first to this chip in its list, the data sheet has a wait of
 * 100 us (t_CHIP_EN).
 *
 * Where a transaction fails, the chip is not what the record takes it for, and no later update mends it, since an update sends only what
 * the record takes to differ. Before the next list of this record is made, do one of these:
 *   - send the same list again, from its first transaction on;
 *   - if no byte of data was sent (the first transaction was not begun, or its head was not acknowledged): put back a copy of the
 *     record from before the call; its changes are still pending;
 *   - lp586x_reset, its list again and again until it is sent, then lp586x_update. It is dark in between, and right whatever was heard.
 * lp586x_power_lost does not do: a register whose setting is its reset value would keep what it has. See examples/bus_failure.c. */

/* The shortest list that brings the chip to the settings; t is at most 702. While the settings have the chip off (000h bit 0 clear), it
 * only turns the chip off, and other settings wait. No write runs across a register that is locked (lp586x_lock): n is then at most one
 * more than that of the free record, and t is the same. Into the record it copies nothing but the bytes that it sends: stored is how many
 * bytes of the chip image it has stored, the data bytes of the list, t - 2n. 0 stores n, t and stored; 10 stores the length needed.
 * 14, 10 (buffer under 4 + 2n + t).
 * Changes record, buffer, n, t, stored and needed, none null. */
uint32_t lp586x_update(uint8_t *record, size_t record_size, uint8_t *buffer, size_t buffer_size, uint32_t *n, uint32_t *t,
                       uint32_t *stored, uint32_t *needed);

/* Every register of the chip to its reset value; the settings are kept, so that the next update sends them. A locked record is free again.
 * 0 stores n and t. Once its list was sent whole, the record is right again, whatever the chip had heard of lists before.
 * 14, 10 (buffer under 9).
 * Changes record, buffer, n and t, none null. */
uint32_t lp586x_reset(uint8_t *record, size_t record_size, uint8_t *buffer, size_t buffer_size, uint32_t *n, uint32_t *t);

/* The open bits and the short bits of the chip to 0, by one write. 0 stores n and t. 14, 10 (buffer under 10).
 * Reads record and changes buffer, n and t, none null. */
uint32_t lp586x_clear(const uint8_t *record, size_t record_size, uint8_t *buffer, size_t buffer_size, uint32_t *n, uint32_t *t);

/* One turn of a bus that up to four chips on I2C share: a list of at most limit bus bytes (t), 12 to 4,096, which brings them nearer to
 * their settings. The records stand back to back, the one at place k for the chip with pins k. Bit k of present says that the record at
 * place k takes part; the others may hold anything, and are neither looked at nor changed.
 * A chip's portion within some bytes is the longest beginning of the list that lp586x_update would give now; its last write is cut where
 * needed, though not below one byte of data. Each chip gets its portion within limit / 4. What limit has left then goes round in the order
 * of the places: each portion is found anew within its bytes and what is still left. The list has the portions in that order, and each chip
 * image takes what its chip is sent. A chip is at its settings, or off as they say, once lp586x_update would have an empty list for it.
 * While the settings stand still, and with no reset or power loss, this takes at most as many rounds with the chip present as it has
 * differing registers. Where a transaction fails, what is said above is due for each record whose transactions were not all sent.
 * 0 stores n and t. 14 (a present record, records_size, or present above 15), 15 (limit), 16 (a present record on SPI, or whose pins are
 * not its place), 10 (buffer under 4 + 2n + t of this list).
 * Changes records, buffer, n and t, none null. */
uint32_t lp586x_round(uint8_t *records, size_t records_size, uint32_t present, uint32_t limit, uint8_t *buffer, size_t buffer_size,
                      uint32_t *n, uint32_t *t);

/* Where a transaction stands in a list: length bytes from offset on. The index counts from 0, and the list's size is 4 + 2n + t, not that
 * of a buffer that holds it. 0 stores both. 11 (as lp586x_chip_feed), 26 (an index of n or more).
 * Reads list, changes offset and length, none null. */
uint32_t lp586x_transaction(const uint8_t *list, size_t list_size, uint32_t index, uint32_t *offset, uint32_t *length);

/* ---- Lamp faults */

/* The 67 bytes 064h to 0A6h as read from the record's chip: the first 198 bytes of the result become, by dot number, 0 sound,
 * 1 open, 2 short, 3 both, 4 no such dot, 5 untested. Untested is a lamp with both bits clear whose level in the chip image is
 * below 25, or 6,400 at data mode 2 or 3 of the chip image: there the chip does not look for faults. Settings that no update has
 * sent are no matter, so call this before the update that follows the read. opens_agree is 1 if bit 1 of 064h says whether a dot
 * is open, shorts_agree if bit 0 does for short, else 0. 14, 13, 10 (result under 198).
 * Reads record and bytes, changes result, opens_agree and shorts_agree, none null. */
uint32_t lp586x_faults(const uint8_t *record, size_t record_size, const uint8_t *bytes, size_t bytes_size, uint8_t *result,
                       size_t result_size, uint32_t *opens_agree, uint32_t *shorts_agree);

/* ---- The chip model, for tests */

/* A chip that was just given power. 14 (size), 1, 2, 3.
 * Changes chip, not null. */
uint32_t lp586x_chip_at_reset(uint8_t *chip, size_t chip_size, uint32_t member, uint32_t bus, uint32_t pins);

/* A loss of power; a chip whose member is above 4 stays as it is. 14 (size).
 * Changes chip, not null. */
uint32_t lp586x_chip_power_lost(uint8_t *chip, size_t chip_size);

/* A list, transaction by transaction, as the chip hears it on the bus: reads and writes to other chips pass by. 14, 11 (size under 4, a
 * length below 3, lengths that do not add up to t, or a size other than 4 + 2n + t).
 * Changes chip, reads list, neither null. */
uint32_t lp586x_chip_feed(uint8_t *chip, size_t chip_size, const uint8_t *list, size_t list_size);

#ifdef __cplusplus
}
#endif

#endif
