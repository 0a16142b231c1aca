/* One call, made by the library and by the reference on equal memory.
 *
 * Each range of bytes that a call is lent stands alone: canaries in front of it, and behind it either canaries or the end of the
 * memory that the program may touch. After the call both sides must agree in the answer and in every lent byte; a refused call
 * must have changed no byte, but for the length needed that refusal 10 of Update stores; behind its list the buffer must hold what
 * it held; no canary may have changed. After an accepted Update the chip image must have taken the data bytes of the list, the rest of
 * the record must be what it was, and stored must be their count; of a locked record none of them may go to 003h or 004h. An accepted
 * Open, Reset or Power lost leaves a free record, an accepted Lock has changed the marks alone, and no other call changes them.
 */
#ifndef STAGE_H
#define STAGE_H

#include <stddef.h>
#include <stdint.h>

enum kind {
    OPEN,
    REGISTER,
    LAMP,
    GROUP,
    SWITCH,
    SCENE,
    POWER_LOST,
    LOCK,
    UPDATE,
    RESET,
    CLEAR,
    FAULTS,
    CHIP_AT_RESET,
    CHIP_POWER_LOST,
    FEED,
    TRANSACTION,
    ROUND
};

struct call {
    enum kind kind;
    uint32_t numbers[3];  /* those of the call, in the header's order */
    const uint8_t *state; /* the record, the four records or the chip that is lent, as it stands before */
    size_t state_size;
    const uint8_t *input; /* scene, list or fault bytes */
    size_t input_size;
    size_t buffer_size; /* buffer or result */
};

/* What the library answered. The pointers hold until the next call. */
struct outcome {
    uint32_t answer;
    /* FAULTS: opens_agree, shorts_agree; TRANSACTION: offset, length; OUT_UNTOUCHED where nothing was stored */
    uint32_t n, t, stored, needed;
    const uint8_t *state;
    const uint8_t *buffer;
};

#define OUT_UNTOUCHED 0xA5A5A5A5u

void stage_prepare(void);

struct outcome both(const struct call *call);

/* How many calls were made, each counted once for the two sides. */
unsigned long calls_made(void);

/* A call in words, for messages. */
const char *call_text(const struct call *call);

#endif
