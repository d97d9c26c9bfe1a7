/* What a program here stands on: where its bytes come from and go to. */
#ifndef DESK_H
#define DESK_H

#include <stdint.h>

/* The next byte of the input, or -1 at its end. */
int get(void);

/* One byte of the output. */
void put(uint8_t byte);

/* The program: one input to its end, from a fresh start each time. */
void run(void);

#endif
