/* What the calls are lent, each with one byte or entry more than a call wants; a copy tells whether a call has changed any of it. */
#ifndef LENT_H
#define LENT_H

#include "../board.h"

typedef struct lent {
    uint8_t reply[BOARD_REPLY + 1];
    uint8_t store[BOARD_STORE + 1];
    uint8_t more[BOARD_STORE + 1];
    uint8_t text[BOARD_TEXT];
    uint16_t table[BOARD_TABLE + 1];
    uint16_t used, records;
    uint8_t axes;
    int64_t thousandths[1001];
    int32_t distances[1001];
} lent;

#endif
