#include "ledger.h"

#include "reference.h"

void ledger_start(struct ledger *ledger, uint32_t member)
{
    ledger->member = member;
    for (uint32_t address = 0; address < LP586X_REGISTERS; address++)
        ledger->bytes[address] = reference_reset_value(member, address);
}

/* "the ledger is told of each 17, of no other answer, and such a Register changes nothing there" */
void ledger_register(struct ledger *ledger, uint32_t address, uint32_t value, int answered_17)
{
    uint32_t member = ledger->member;

    if (answered_17 || address >= LP586X_REGISTERS || value > 255 || !reference_writable(member, address))
        return;
    if ((value & reference_reserved(member, address)) ==
        (uint32_t)(reference_reset_value(member, address) & reference_reserved(member, address)))
        ledger->bytes[address] = (uint8_t)value;
}

/* "The mode is read from the ledger's own 001h." */
static int takes_lamp(const struct ledger *ledger, uint32_t line, uint32_t sink, uint32_t level)
{
    uint32_t mode = (ledger->bytes[0x001] & 0x06) / 2;

    return reference_dot(ledger->member, line, sink) && level <= (mode < 2 ? 255u : 65535u);
}

void ledger_lamp(struct ledger *ledger, uint32_t line, uint32_t sink, uint32_t level)
{
    uint32_t mode = (ledger->bytes[0x001] & 0x06) / 2;
    uint32_t dot = 18 * line + sink;

    if (!takes_lamp(ledger, line, sink, level))
        return;
    if (mode < 2) {
        ledger->bytes[0x200 + dot] = (uint8_t)level;
        return;
    }
    ledger->bytes[0x200 + 2 * dot] = (uint8_t)(level % 256);
    ledger->bytes[0x201 + 2 * dot] = (uint8_t)(level / 256);
}

/* The bits of a byte from a place up take a value; the others stay. */
static void put_bits(uint8_t *byte, uint32_t place, uint32_t width, uint32_t value)
{
    for (uint32_t i = 0; i < width; i++) {
        uint8_t bit = (uint8_t)(1 << (place + i));

        *byte = (uint8_t)(value >> i & 1 ? *byte | bit : *byte & ~bit);
    }
}

void ledger_group(struct ledger *ledger, uint32_t line, uint32_t sink, uint32_t group)
{
    if (reference_dot(ledger->member, line, sink) && group <= 3)
        put_bits(&ledger->bytes[0x00C + 5 * line + sink / 4], 2 * (sink % 4), 2, group);
}

void ledger_switch(struct ledger *ledger, uint32_t line, uint32_t sink, uint32_t state)
{
    if (reference_dot(ledger->member, line, sink) && state <= 1)
        put_bits(&ledger->bytes[0x043 + 3 * line + sink / 8], sink % 8, 1, state);
}

/* "if its length is at least 2 and is 2 + 3 x n, and each entry meets Lamp's condition, the entries act as Lamps in order" */
void ledger_scene(struct ledger *ledger, const uint8_t *scene, size_t scene_size)
{
    size_t n;

    if (scene_size < 2)
        return;
    n = scene[0] + 256 * (size_t)scene[1];
    if (scene_size != 2 + 3 * n)
        return;
    for (int act = 0; act < 2; act++) {
        for (size_t i = 0; i < n; i++) {
            uint32_t dot = scene[2 + i];
            uint32_t level = scene[2 + n + 2 * i] + 256u * scene[3 + n + 2 * i];

            if (act)
                ledger_lamp(ledger, dot / 18, dot % 18, level);
            else if (!takes_lamp(ledger, dot / 18, dot % 18, level))
                return;
        }
    }
}

int ledger_wants_on(const struct ledger *ledger)
{
    return ledger->bytes[0x000] & 1;
}
