/* The region in which the program is kept over a loss of power: its bytes are the same on the chip and in a file of the desk. */
#ifndef NAKTHAWAENG_KEEP_H
#define NAKTHAWAENG_KEEP_H

#include "../board.h"

typedef struct keep_region {
    uint32_t mark; /* KEEP_MARK, if the rest is whole */
    uint32_t sum;  /* over what follows, as far as it is in use */
    uint32_t used, records, axes;
    uint8_t bytes[BOARD_STORE];
} keep_region;

#define KEEP_MARK 0x4B455054u
#define KEEP_ERASED 0xFFFFFFFFu

/* Where it lies. */
volatile keep_region *keep_at(void);

#endif
