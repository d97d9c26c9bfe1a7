/* A state field by field: its padding, which calls do not keep, is never looked at. */
#ifndef STATE_H
#define STATE_H

#include "../board.h"

/* Whether two states have the same in every field. */
int state_same(const board_state *one, const board_state *other);

/* A digest with every field of a state more. */
uint32_t state_digest(uint32_t digest, const board_state *state);

#endif
