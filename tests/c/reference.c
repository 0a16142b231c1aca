#include "reference.h"

#include <string.h>

#include "lp586x.h"

enum refusal {
    ACCEPTED = 0,
    BAD_MEMBER = 1,
    BAD_BUS = 2,
    BAD_PINS = 3,
    NOT_WRITABLE = 4,
    RESERVED_BITS = 5,
    NO_DOT = 6,
    LEVEL_TOO_HIGH = 7,
    BAD_VALUE = 8,
    SCENE_LENGTH = 9,
    BUFFER_SHORT = 10,
    LIST_SIZES = 11,
    FAULT_BYTES = 13,
    UNSOUND = 14,
    BAD_LIMIT = 15,
    WRONG_PLACE = 16,
    LOCKED_ADDRESS = 17,
    NOT_LOCKABLE = 18,
    NO_TRANSACTION = 26
};

enum {
    MEMBERS = 5,
    LINES = 11,
    SINKS = 18,
    FIRST_REGISTERS = 12,
    REGISTERS = LP586X_REGISTERS,
    CHIP_ENABLE = 0x000,
    DEVICE_INITIAL = 0x001,
    FIRST_TRIM = 0x003,
    SECOND_TRIM = 0x004,
    GROUPS = 0x00C,
    SWITCHES = 0x043,
    FAULT_STATE = 0x064,
    OPENS = 0x065,
    SHORTS = 0x086,
    LOD_CLEAR = 0x0A7,
    LSD_CLEAR = 0x0A8,
    RESET = 0x0A9,
    CURRENTS = 0x100,
    PWM = 0x200,
    FAULT_MAP_BYTES = 33,
    I2C = 0,
    SPI = 1,
    /* t is never above 702, and a write takes three bytes or more. */
    MOST_WRITES = 234
};

/* ---- Members and addresses */

struct member {
    uint32_t lines;
    uint32_t columns;      /* bit s is 1 where the member has sink s */
    uint32_t switch_bytes; /* as many as its summary table lists; the LP5864's lists one of line 4 */
    uint8_t reserved[FIRST_REGISTERS];
};

static const struct member members[MEMBERS] = {
    /* LP5860 */ {11, 0x3FFFF, 33, {0xFE, 0x80, 0xF0, 0, 0, 0, 0, 0, 0, 0x80, 0x80, 0x80}},
    /* LP5861T */ {1, 0x3FFFF, 3, {0xFE, 0xF8, 0xF9, 0x03, 0xF1, 0, 0, 0, 0, 0x80, 0x80, 0x80}},
    /* LP5864 */ {4, 0x3FFFF, 13, {0xFE, 0x80, 0xF0, 0, 0, 0, 0, 0, 0, 0x80, 0x80, 0x80}},
    /* LP5867 */ {7, 0x30303, 21, {0xFE, 0x80, 0xF0, 0, 0, 0, 0, 0, 0, 0x80, 0x80, 0x80}},
    /* LP5868T */ {8, 0x3FFFF, 24, {0xFE, 0x80, 0xF0, 0, 0, 0, 0, 0, 0, 0x80, 0x80, 0x80}},
};

/* All five summary tables agree here. */
static const uint8_t first_reset[FIRST_REGISTERS] = {0x00, 0x5E, 0x00, 0x00, 0x47, 0xFF, 0xFF, 0xFF, 0xFF, 0x40, 0x40, 0x40};

static const uint8_t switch_reset[3] = {0xFF, 0xFF, 0x03};

/* The reserved bits of each address, all eight where it is not writable, and its reset value. */
struct map {
    uint8_t reserved[REGISTERS];
    uint8_t reset[REGISTERS];
};

static struct map maps[MEMBERS];

static int dot_exists(const struct member *member, uint32_t line, uint32_t sink)
{
    return line < member->lines && sink < SINKS && (member->columns >> sink & 1);
}

static uint32_t dot_number(uint32_t line, uint32_t sink)
{
    return SINKS * line + sink;
}

static uint32_t group_address(uint32_t line, uint32_t sink)
{
    return GROUPS + 5 * line + sink / 4;
}

static uint32_t switch_address(uint32_t line, uint32_t sink)
{
    return SWITCHES + 3 * line + sink / 8;
}

/* "carries a bit for one of its dots as group, switch, current or PWM in either data mode" */
static void carry_dot(struct map *map, uint32_t line, uint32_t sink)
{
    uint32_t dot = dot_number(line, sink);

    map->reserved[group_address(line, sink)] &= ~(3 << 2 * (sink % 4));
    map->reserved[switch_address(line, sink)] &= ~(1 << sink % 8);
    map->reserved[CURRENTS + dot] = 0;
    map->reserved[PWM + dot] = 0;
    map->reserved[PWM + 2 * dot] = 0;
    map->reserved[PWM + 2 * dot + 1] = 0;
}

static void fill_reserved(struct map *map, const struct member *member)
{
    memset(map->reserved, 0xFF, REGISTERS);
    memcpy(map->reserved, member->reserved, FIRST_REGISTERS);
    for (uint32_t line = 0; line < LINES; line++)
        for (uint32_t sink = 0; sink < SINKS; sink++)
            if (dot_exists(member, line, sink))
                carry_dot(map, line, sink);
}

/* The LP5867's table lists the currents of absent sinks with 80h too, so currents go by lines. */
static void fill_reset(struct map *map, const struct member *member)
{
    memset(map->reset, 0, REGISTERS);
    memcpy(map->reset, first_reset, FIRST_REGISTERS);
    for (uint32_t i = 0; i < member->switch_bytes; i++)
        map->reset[SWITCHES + i] = switch_reset[i % 3];
    memset(map->reset + CURRENTS, 0x80, SINKS * member->lines);
}

void reference_prepare(void)
{
    for (uint32_t member = 0; member < MEMBERS; member++) {
        fill_reserved(&maps[member], &members[member]);
        fill_reset(&maps[member], &members[member]);
    }
}

static int writable(const struct map *map, uint32_t address)
{
    return address < REGISTERS && map->reserved[address] != 0xFF;
}

int reference_dot(uint32_t member, uint32_t line, uint32_t sink)
{
    return dot_exists(&members[member], line, sink);
}

int reference_writable(uint32_t member, uint32_t address)
{
    return writable(&maps[member], address);
}

uint8_t reference_reserved(uint32_t member, uint32_t address)
{
    return maps[member].reserved[address];
}

uint8_t reference_reset_value(uint32_t member, uint32_t address)
{
    return maps[member].reset[address];
}

/* ---- The record */

enum { FREE = 0, LOCKED = 1 };

struct record {
    uint8_t member, bus, pins, marks;
    uint8_t settings[REGISTERS];
    uint8_t image[REGISTERS];
};

struct chip {
    uint8_t member, bus, pins;
    uint8_t registers[REGISTERS];
};

_Static_assert(sizeof(struct record) == LP586X_RECORD_SIZE, "a record has no padding");
_Static_assert(sizeof(struct chip) == LP586X_CHIP_SIZE, "a chip has no padding");

static enum refusal open_refusal(uint32_t member, uint32_t bus, uint32_t pins)
{
    if (member >= MEMBERS)
        return BAD_MEMBER;
    if (bus > SPI)
        return BAD_BUS;
    if (pins > 3 || (bus == SPI && pins != 0))
        return BAD_PINS;
    return ACCEPTED;
}

/* Reset values in reserved bits and outside the writable addresses, from one address up to another. The second form is for the
 * speed comparison: with no way out before the end the compiler tests several bytes at once. */
#ifndef SOUND_TO_THE_END
static int range_sound(const struct map *map, const uint8_t *image, uint32_t from, uint32_t to)
{
    for (uint32_t address = from; address < to; address++)
        if ((image[address] ^ map->reset[address]) & map->reserved[address])
            return 0;
    return 1;
}
#else
static int range_sound(const struct map *map, const uint8_t *image, uint32_t from, uint32_t to)
{
    uint8_t wrong = 0;

    for (uint32_t address = from; address < to; address++)
        wrong |= (image[address] ^ map->reset[address]) & map->reserved[address];
    return wrong == 0;
}
#endif

static int is_trim(uint32_t address)
{
    return address == FIRST_TRIM || address == SECOND_TRIM;
}

static int trims_alike(const struct record *record)
{
    return record->settings[FIRST_TRIM] == record->image[FIRST_TRIM] && record->settings[SECOND_TRIM] == record->image[SECOND_TRIM];
}

/* "a locked record whose images differ at these two is unsound" */
static int marks_sound(const struct record *record)
{
    return record->marks == FREE || (record->marks == LOCKED && trims_alike(record));
}

static int record_sound(const uint8_t *bytes, size_t size)
{
    const struct record *record = (const struct record *)bytes;

    if (size != LP586X_RECORD_SIZE || open_refusal(record->member, record->bus, record->pins) != ACCEPTED || !marks_sound(record))
        return 0;
    return range_sound(&maps[record->member], record->settings, 0, REGISTERS) &&
           range_sound(&maps[record->member], record->image, 0, REGISTERS);
}

uint32_t reference_open(uint8_t *bytes, size_t size, uint32_t member, uint32_t bus, uint32_t pins)
{
    struct record *record = (struct record *)bytes;
    enum refusal refusal;

    if (size != LP586X_RECORD_SIZE)
        return UNSOUND;
    refusal = open_refusal(member, bus, pins);
    if (refusal != ACCEPTED)
        return refusal;
    record->member = (uint8_t)member;
    record->bus = (uint8_t)bus;
    record->pins = (uint8_t)pins;
    record->marks = FREE;
    memcpy(record->settings, maps[member].reset, REGISTERS);
    memcpy(record->image, maps[member].reset, REGISTERS);
    return ACCEPTED;
}

/* ---- Settings */

uint32_t reference_register(uint8_t *bytes, size_t size, uint32_t address, uint32_t value)
{
    struct record *record = (struct record *)bytes;
    const struct map *map;

    if (!record_sound(bytes, size))
        return UNSOUND;
    map = &maps[record->member];
    if (!writable(map, address))
        return NOT_WRITABLE;
    if (record->marks == LOCKED && is_trim(address))
        return LOCKED_ADDRESS;
    if (value > 255 || ((value ^ map->reset[address]) & map->reserved[address]))
        return RESERVED_BITS;
    record->settings[address] = (uint8_t)value;
    return ACCEPTED;
}

/* Data mode 2 or 3 holds 16 bits. */
static int wide(const uint8_t *registers)
{
    return (registers[DEVICE_INITIAL] >> 1 & 3) >= 2;
}

static uint32_t highest_level(const uint8_t *settings)
{
    return wide(settings) ? 65535 : 255;
}

static void put_level(uint8_t *settings, uint32_t dot, uint32_t level)
{
    if (wide(settings)) {
        settings[PWM + 2 * dot] = (uint8_t)level;
        settings[PWM + 2 * dot + 1] = (uint8_t)(level >> 8);
    } else {
        settings[PWM + dot] = (uint8_t)level;
    }
}

uint32_t reference_lamp(uint8_t *bytes, size_t size, uint32_t line, uint32_t sink, uint32_t level)
{
    struct record *record = (struct record *)bytes;

    if (!record_sound(bytes, size))
        return UNSOUND;
    if (!dot_exists(&members[record->member], line, sink))
        return NO_DOT;
    if (level > highest_level(record->settings))
        return LEVEL_TOO_HIGH;
    put_level(record->settings, dot_number(line, sink), level);
    return ACCEPTED;
}

uint32_t reference_group(uint8_t *bytes, size_t size, uint32_t line, uint32_t sink, uint32_t group)
{
    struct record *record = (struct record *)bytes;
    uint32_t shift = 2 * (sink % 4);
    uint8_t *byte;

    if (!record_sound(bytes, size))
        return UNSOUND;
    if (!dot_exists(&members[record->member], line, sink))
        return NO_DOT;
    if (group > 3)
        return BAD_VALUE;
    byte = &record->settings[group_address(line, sink)];
    *byte = (uint8_t)((*byte & ~(3u << shift)) | group << shift);
    return ACCEPTED;
}

uint32_t reference_switch(uint8_t *bytes, size_t size, uint32_t line, uint32_t sink, uint32_t state)
{
    struct record *record = (struct record *)bytes;
    uint32_t shift = sink % 8;
    uint8_t *byte;

    if (!record_sound(bytes, size))
        return UNSOUND;
    if (!dot_exists(&members[record->member], line, sink))
        return NO_DOT;
    if (state > 1)
        return BAD_VALUE;
    byte = &record->settings[switch_address(line, sink)];
    *byte = (uint8_t)((*byte & ~(1u << shift)) | state << shift);
    return ACCEPTED;
}

static uint32_t get_two(const uint8_t *at)
{
    return at[0] | (uint32_t)at[1] << 8;
}

static void put_two(uint8_t *at, uint32_t value)
{
    at[0] = (uint8_t)value;
    at[1] = (uint8_t)(value >> 8);
}

/* "Then all dot numbers, 6; then all levels, 7." */
static enum refusal scene_refusal(const struct record *record, const uint8_t *dots, const uint8_t *levels, uint32_t n)
{
    const struct member *member = &members[record->member];
    uint32_t highest = highest_level(record->settings);

    for (uint32_t i = 0; i < n; i++)
        if (!dot_exists(member, dots[i] / SINKS, dots[i] % SINKS))
            return NO_DOT;
    for (uint32_t i = 0; i < n; i++)
        if (get_two(levels + 2 * i) > highest)
            return LEVEL_TOO_HIGH;
    return ACCEPTED;
}

uint32_t reference_scene(uint8_t *bytes, size_t size, const uint8_t *scene, size_t scene_size)
{
    struct record *record = (struct record *)bytes;
    const uint8_t *dots, *levels;
    enum refusal refusal;
    uint32_t n;

    if (!record_sound(bytes, size))
        return UNSOUND;
    if (scene_size < 2 || scene_size != 2 + 3 * (size_t)get_two(scene))
        return SCENE_LENGTH;
    n = get_two(scene);
    dots = scene + 2;
    levels = dots + n;
    refusal = scene_refusal(record, dots, levels, n);
    if (refusal != ACCEPTED)
        return refusal;
    for (uint32_t i = 0; i < n; i++)
        put_level(record->settings, dots[i], get_two(levels + 2 * i));
    return ACCEPTED;
}

/* "Reset and Power lost release it." */
static void chip_at_reset_values(struct record *record)
{
    memcpy(record->image, maps[record->member].reset, REGISTERS);
    record->marks = FREE;
}

uint32_t reference_power_lost(uint8_t *bytes, size_t size)
{
    struct record *record = (struct record *)bytes;

    if (!record_sound(bytes, size))
        return UNSOUND;
    chip_at_reset_values(record);
    return ACCEPTED;
}

/* "locking a locked record, or one whose chip image is off or differs from the settings at 003h or 004h" */
uint32_t reference_lock(uint8_t *bytes, size_t size)
{
    struct record *record = (struct record *)bytes;

    if (!record_sound(bytes, size))
        return UNSOUND;
    if (record->marks == LOCKED || !(record->image[CHIP_ENABLE] & 1) || !trims_alike(record))
        return NOT_LOCKABLE;
    record->marks = LOCKED;
    return ACCEPTED;
}

/* ---- Burst lists */

struct write {
    uint16_t start, length;
};

static void put_head(uint8_t *at, uint32_t bus, uint32_t pins, uint32_t address)
{
    if (bus == SPI) {
        at[0] = (uint8_t)(address >> 2);
        at[1] = (uint8_t)((address & 3) << 6 | 0x20);
    } else {
        at[0] = (uint8_t)(0x80 | pins << 3 | (address >> 8) << 1);
        at[1] = (uint8_t)address;
    }
}

/* "The test of whether an address may be written now looks at the lock" */
static int may_be_written(const struct record *record, uint32_t address)
{
    return writable(&maps[record->member], address) && !(record->marks == LOCKED && is_trim(address));
}

/* "at most two addresses lie between them, all writable" */
static int share_a_write(const struct record *record, uint32_t last, uint32_t next)
{
    if (next - last > 3)
        return 0;
    for (uint32_t address = last + 1; address < next; address++)
        if (!may_be_written(record, address))
            return 0;
    return 1;
}

/* The differing addresses from 001h up as writes, behind those that are planned. A sound record's images differ only at addresses that
 * may be written. */
static uint32_t plan_registers(const struct record *record, struct write *writes, uint32_t n)
{
    uint32_t last = 0;

    for (uint32_t address = DEVICE_INITIAL; address < REGISTERS; address++) {
        if (record->settings[address] == record->image[address])
            continue;
        if (last != 0 && share_a_write(record, last, address))
            writes[n - 1].length = (uint16_t)(address + 1 - writes[n - 1].start);
        else
            writes[n++] = (struct write){(uint16_t)address, 1};
        last = address;
    }
    return n;
}

static uint32_t plan_writes(const struct record *record, struct write *writes)
{
    int settings_on = record->settings[CHIP_ENABLE] & 1;
    int chip_on = record->image[CHIP_ENABLE] & 1;
    uint32_t n = 0;

    if (settings_on != chip_on)
        writes[n++] = (struct write){CHIP_ENABLE, 1};
    if (settings_on)
        n = plan_registers(record, writes, n);
    return n;
}

/* n writes, their lengths at one place and their bytes at another; the chip image takes their data and nothing else. Answers how many
 * bytes it has stored. */
static uint32_t put_writes(struct record *record, const struct write *writes, uint32_t n, uint8_t *lengths, uint8_t *at)
{
    uint32_t stored = 0;

    for (uint32_t i = 0; i < n; i++) {
        uint32_t start = writes[i].start, length = writes[i].length;

        put_two(lengths + 2 * i, 2 + length);
        put_head(at, record->bus, record->pins, start);
        memcpy(at + 2, record->settings + start, length);
        memcpy(record->image + start, record->settings + start, length);
        stored += length;
        at += 2 + length;
    }
    return stored;
}

uint32_t reference_update(uint8_t *bytes, size_t size, uint8_t *buffer, size_t buffer_size, uint32_t *n, uint32_t *t,
                          uint32_t *stored, uint32_t *needed)
{
    struct record *record = (struct record *)bytes;
    struct write writes[MOST_WRITES];
    uint32_t count, total = 0;

    if (!record_sound(bytes, size))
        return UNSOUND;
    count = plan_writes(record, writes);
    for (uint32_t i = 0; i < count; i++)
        total += 2u + writes[i].length;
    if (buffer_size < 4 + 2 * count + total) {
        *needed = 4 + 2 * count + total;
        return BUFFER_SHORT;
    }
    put_two(buffer, count);
    put_two(buffer + 2, total);
    *stored = put_writes(record, writes, count, buffer + 4, buffer + 4 + 2 * count);
    *n = count;
    *t = total;
    return ACCEPTED;
}

/* ---- Rounds */

enum { PLACES = 4, LEAST_LIMIT = 12, MOST_LIMIT = 4096 };

/* The writes that an update of the record at one place would send, and how many bus bytes of them the round sends. */
struct pending {
    struct write writes[MOST_WRITES];
    uint32_t n, sent;
};

static int is_present(uint32_t present, uint32_t place)
{
    return present >> place & 1;
}

static int records_sound(const uint8_t *bytes, size_t size, uint32_t present)
{
    if (size != LP586X_RECORDS_SIZE || present > 15)
        return 0;
    for (uint32_t place = 0; place < PLACES; place++)
        if (is_present(present, place) && !record_sound(bytes + place * LP586X_RECORD_SIZE, LP586X_RECORD_SIZE))
            return 0;
    return 1;
}

static enum refusal round_refusal(const uint8_t *bytes, size_t size, uint32_t present, uint32_t limit)
{
    const struct record *records = (const struct record *)bytes;

    if (!records_sound(bytes, size, present))
        return UNSOUND;
    if (limit < LEAST_LIMIT || limit > MOST_LIMIT)
        return BAD_LIMIT;
    for (uint32_t place = 0; place < PLACES; place++)
        if (is_present(present, place) && (records[place].bus == SPI || records[place].pins != place))
            return WRONG_PLACE;
    return ACCEPTED;
}

/* "the longest beginning of its pending list ... that fits, with the last write cut where needed but never below one data byte":
 * its bytes. A write that is cut fills the room. */
static uint32_t portion(const struct pending *pending, uint32_t room)
{
    uint32_t bytes = 0;

    for (uint32_t i = 0; i < pending->n; i++) {
        uint32_t cost = 2u + pending->writes[i].length;

        if (bytes + cost > room)
            return room - bytes > 2 ? room : bytes;
        bytes += cost;
    }
    return bytes;
}

/* Leaves the writes of that many bytes, the last one shorter where they end in it. */
static void cut(struct pending *pending, uint32_t bytes)
{
    uint32_t n = 0;

    pending->sent = bytes;
    while (bytes > 0) {
        struct write *last = &pending->writes[n++];

        if (2u + last->length > bytes)
            last->length = (uint16_t)(bytes - 2);
        bytes -= 2u + last->length;
    }
    pending->n = n;
}

/* "First each chip's portion within its share is found. What B has left over then goes round in pin order." */
static void share_out(struct pending *pending, uint32_t limit)
{
    uint32_t first[PLACES], left = limit;

    for (uint32_t place = 0; place < PLACES; place++) {
        first[place] = portion(&pending[place], limit / PLACES);
        left -= first[place];
    }
    for (uint32_t place = 0; place < PLACES; place++) {
        uint32_t room = first[place] + left;

        cut(&pending[place], portion(&pending[place], room));
        left = room - pending[place].sent;
    }
}

static void put_round(struct record *records, const struct pending *pending, uint32_t n, uint32_t t, uint8_t *buffer)
{
    uint8_t *lengths = buffer + 4, *at = lengths + 2 * n;

    put_two(buffer, n);
    put_two(buffer + 2, t);
    for (uint32_t place = 0; place < PLACES; place++) {
        put_writes(&records[place], pending[place].writes, pending[place].n, lengths, at);
        lengths += 2 * pending[place].n;
        at += pending[place].sent;
    }
}

uint32_t reference_round(uint8_t *bytes, size_t size, uint32_t present, uint32_t limit, uint8_t *buffer, size_t buffer_size,
                         uint32_t *n, uint32_t *t)
{
    struct record *records = (struct record *)bytes;
    enum refusal refusal = round_refusal(bytes, size, present, limit);
    struct pending pending[PLACES];
    uint32_t count = 0, total = 0;

    if (refusal != ACCEPTED)
        return refusal;
    for (uint32_t place = 0; place < PLACES; place++)
        pending[place].n = is_present(present, place) ? plan_writes(&records[place], pending[place].writes) : 0;
    share_out(pending, limit);
    for (uint32_t place = 0; place < PLACES; place++) {
        count += pending[place].n;
        total += pending[place].sent;
    }
    if (buffer_size < 4 + 2 * count + total)
        return BUFFER_SHORT;
    put_round(records, pending, count, total, buffer);
    *n = count;
    *t = total;
    return ACCEPTED;
}

/* ---- Commands */

/* The list of one write: a value so many times, from an address on. */
static uint32_t put_command(const uint8_t *bytes, size_t size, uint8_t *buffer, size_t buffer_size, uint32_t *n, uint32_t *t,
                            uint32_t address, uint8_t value, uint32_t count)
{
    const struct record *record = (const struct record *)bytes;
    uint32_t length = 2 + count;

    if (!record_sound(bytes, size))
        return UNSOUND;
    if (buffer_size < 6 + length)
        return BUFFER_SHORT;
    put_two(buffer, 1);
    put_two(buffer + 2, length);
    put_two(buffer + 4, length);
    put_head(buffer + 6, record->bus, record->pins, address);
    memset(buffer + 8, value, count);
    *n = 1;
    *t = length;
    return ACCEPTED;
}

uint32_t reference_reset(uint8_t *bytes, size_t size, uint8_t *buffer, size_t buffer_size, uint32_t *n, uint32_t *t)
{
    struct record *record = (struct record *)bytes;
    uint32_t answer = put_command(bytes, size, buffer, buffer_size, n, t, RESET, 0xFF, 1);

    if (answer == ACCEPTED)
        chip_at_reset_values(record);
    return answer;
}

/* LOD_CLEAR and LSD_CLEAR, which are adjacent. */
uint32_t reference_clear(const uint8_t *bytes, size_t size, uint8_t *buffer, size_t buffer_size, uint32_t *n, uint32_t *t)
{
    return put_command(bytes, size, buffer, buffer_size, n, t, LOD_CLEAR, 0x0F, 2);
}

/* ---- The chip model */

/* "sound as above save that 064h-0A6h may hold any bytes" */
static int chip_sound(const uint8_t *bytes, size_t size)
{
    const struct chip *chip = (const struct chip *)bytes;

    if (size != LP586X_CHIP_SIZE || open_refusal(chip->member, chip->bus, chip->pins) != ACCEPTED)
        return 0;
    return range_sound(&maps[chip->member], chip->registers, 0, FAULT_STATE) &&
           range_sound(&maps[chip->member], chip->registers, LOD_CLEAR, REGISTERS);
}

uint32_t reference_chip_at_reset(uint8_t *bytes, size_t size, uint32_t member, uint32_t bus, uint32_t pins)
{
    struct chip *chip = (struct chip *)bytes;
    enum refusal refusal;

    if (size != LP586X_CHIP_SIZE)
        return UNSOUND;
    refusal = open_refusal(member, bus, pins);
    if (refusal != ACCEPTED)
        return refusal;
    chip->member = (uint8_t)member;
    chip->bus = (uint8_t)bus;
    chip->pins = (uint8_t)pins;
    memcpy(chip->registers, maps[member].reset, REGISTERS);
    return ACCEPTED;
}

uint32_t reference_chip_power_lost(uint8_t *bytes, size_t size)
{
    struct chip *chip = (struct chip *)bytes;

    if (size != LP586X_CHIP_SIZE)
        return UNSOUND;
    if (chip->member < MEMBERS)
        memcpy(chip->registers, maps[chip->member].reset, REGISTERS);
    return ACCEPTED;
}

static int sizes_add_up(const uint8_t *list, size_t size)
{
    uint32_t n, t, sum = 0;

    if (size < 4)
        return 0;
    n = get_two(list);
    t = get_two(list + 2);
    if (size != 4 + 2 * (size_t)n + t)
        return 0;
    for (uint32_t i = 0; i < n; i++) {
        uint32_t length = get_two(list + 4 + 2 * i);

        if (length < 3)
            return 0;
        sum += length;
    }
    return sum == t;
}

uint32_t reference_transaction(const uint8_t *list, size_t list_size, uint32_t index, uint32_t *offset, uint32_t *length)
{
    uint32_t n, at;

    if (!sizes_add_up(list, list_size))
        return LIST_SIZES;
    n = get_two(list);
    if (index >= n)
        return NO_TRANSACTION;
    at = 4 + 2 * n;
    for (uint32_t i = 0; i < index; i++)
        at += get_two(list + 4 + 2 * i);
    *offset = at;
    *length = get_two(list + 4 + 2 * index);
    return ACCEPTED;
}

/* "Each transaction is a write to this chip or passes by": 1 for a write, with its start address. */
static int is_write(const struct chip *chip, const uint8_t *head, uint32_t *start)
{
    uint32_t called = head[0] >> 3;

    if (chip->bus == SPI) {
        *start = (uint32_t)head[0] << 2 | head[1] >> 6;
        return head[1] >> 5 & 1;
    }
    *start = (head[0] >> 1 & 3u) << 8 | head[1];
    return (called == (0x10u | chip->pins) || called == 0x15) && !(head[0] & 1);
}

static void clear_faults(struct chip *chip, uint32_t from, uint8_t state_bit)
{
    memset(chip->registers + from, 0, FAULT_MAP_BYTES);
    chip->registers[FAULT_STATE] &= (uint8_t)~state_bit;
}

/* The data of one transaction. Standby is judged as it starts; data beyond 38Bh are dropped. */
static void apply_data(struct chip *chip, uint32_t start, const uint8_t *data, uint32_t count)
{
    const struct map *map = &maps[chip->member];
    int awake = chip->registers[CHIP_ENABLE] & 1;

    for (uint32_t i = 0; i < count && start + i < REGISTERS; i++) {
        uint32_t address = start + i;
        uint8_t *byte = &chip->registers[address];
        uint8_t kept = map->reserved[address];

        if (!awake && address != CHIP_ENABLE && address != RESET)
            continue;
        if (address == RESET && data[i] == 0xFF) {
            memcpy(chip->registers, map->reset, REGISTERS);
            return;
        }
        if (address == LOD_CLEAR && data[i] == 0x0F)
            clear_faults(chip, OPENS, 2);
        if (address == LSD_CLEAR && data[i] == 0x0F)
            clear_faults(chip, SHORTS, 1);
        *byte = (uint8_t)((*byte & kept) | (data[i] & ~kept));
    }
}

uint32_t reference_chip_feed(uint8_t *bytes, size_t size, const uint8_t *list, size_t list_size)
{
    struct chip *chip = (struct chip *)bytes;
    const uint8_t *at;
    uint32_t n, start;

    if (!chip_sound(bytes, size))
        return UNSOUND;
    if (!sizes_add_up(list, list_size))
        return LIST_SIZES;
    n = get_two(list);
    at = list + 4 + 2 * n;
    for (uint32_t i = 0; i < n; i++) {
        uint32_t length = get_two(list + 4 + 2 * i);

        if (is_write(chip, at, &start))
            apply_data(chip, start, at + 2, length - 2);
        at += length;
    }
    return ACCEPTED;
}

/* ---- Lamp faults */

/* Document 002, lines 622 and 633: "only performed when PWM >= 25 (Mode 1 and Mode 2) or PWM >= 6400 (Mode 3)" */
enum { TESTED_FROM_8_BITS = 25, TESTED_FROM_16_BITS = 6400 };

/* Readings: opens in bit 0, shorts in bit 1, or one of these. */
enum { ABSENT = 4, UNTESTED = 5 };

static int tested(const uint8_t *image, uint32_t dot)
{
    if (wide(image))
        return get_two(image + PWM + 2 * dot) >= TESTED_FROM_16_BITS;
    return image[PWM + dot] >= TESTED_FROM_8_BITS;
}

uint32_t reference_faults(const uint8_t *record_bytes, size_t record_size, const uint8_t *bytes, size_t bytes_size,
                          uint8_t *result, size_t result_size, uint32_t *opens_agree, uint32_t *shorts_agree)
{
    const struct record *record = (const struct record *)record_bytes;
    const uint8_t *opens, *shorts;
    uint8_t seen = 0;

    if (!record_sound(record_bytes, record_size))
        return UNSOUND;
    if (bytes_size != LP586X_FAULT_BYTES)
        return FAULT_BYTES;
    if (result_size < LP586X_DOTS)
        return BUFFER_SHORT;
    opens = bytes + (OPENS - FAULT_STATE);
    shorts = bytes + (SHORTS - FAULT_STATE);
    for (uint32_t line = 0; line < LINES; line++) {
        for (uint32_t sink = 0; sink < SINKS; sink++) {
            uint32_t dot = dot_number(line, sink), byte = 3 * line + sink / 8, bit = sink % 8;
            uint8_t reading = (uint8_t)((opens[byte] >> bit & 1) | (shorts[byte] >> bit & 1) << 1);

            if (!dot_exists(&members[record->member], line, sink)) {
                result[dot] = ABSENT;
                continue;
            }
            result[dot] = reading == 0 && !tested(record->image, dot) ? UNTESTED : reading;
            seen |= reading;
        }
    }
    *opens_agree = (bytes[0] >> 1 & 1) == (seen & 1);
    *shorts_agree = (bytes[0] & 1) == seen >> 1;
    return ACCEPTED;
}
