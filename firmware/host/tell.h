/* What `calls` prints of the board's answers and of its state. */
#ifndef TELL_H
#define TELL_H

#include "../board.h"

/* A reply, or its refusal. */
void tell_heard(const board_heard *heard, const uint8_t *reply);

/* The answer of a clock call, or its refusal. */
void tell_clocked(const board_clocked *clocked);

/* The lines of a listing, or its refusal. */
void tell_listing(const board_written *written, const uint8_t *text);

/* Behind a call of a run: the job, the place before it and after it, and the origin. */
void tell_place(const board_state *state, uint16_t from);

/* The state as one line. */
void tell_state(const board_shown *shown);

#endif
