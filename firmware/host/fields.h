/* The fields of a state that a script for `calls` sets by name. */
#ifndef FIELDS_H
#define FIELDS_H

#include "../board.h"
#include "script.h"

/* Sets the field of this name; 0 if there is none, or if it cannot hold the number: then the state stays. */
int field_set(board_state *state, const field *name, int64_t number);

#endif
