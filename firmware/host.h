/* What the main loop of loop.c asks of the hardware below it: the line, the time, the pins, and a place where the program is kept. */
#ifndef NAKTHAWAENG_HOST_H
#define NAKTHAWAENG_HOST_H

#include "board.h"

/* The line. Putting waits for room where the line has none, so that no byte of a reply is lost. */
int host_get(void); /* a byte that has come, or -1 */
void host_put(uint8_t byte);

/* The time. A wait counts from when the call before it was due, so that the mean holds. At the start nothing is waited for. */
int host_due(void);             /* 1 if the wait is over */
void host_wait(uint16_t speed); /* the next clock call is due one speed-th of a second later */
void host_rest(int runs);       /* returns when a byte may have come or, while something runs, when a clock call may be due */

/* The pins. A pulse is two bits for each axis, x lowest: 0 at rest, 1 a step forward, 3 a step back. */
void host_pulse(uint8_t pins);
void host_output(uint8_t byte);
uint32_t host_ports(void); /* the four input ports, the first in the lowest byte */

/* The program over a loss of power. */
int host_kept(board_held *held, uint8_t *store); /* reads back what was kept; 0 if there is nothing */
void host_keep(const board_held *held, const uint8_t *store);

/* A call was refused, which no state of a board leads to: nothing may move any more. It does not return. */
void host_halt(uint16_t refusal);

/* The main loop, which a host calls once it is set up. It does not return. */
void loop(void);

#endif
