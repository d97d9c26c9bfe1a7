/* What a bare chip asks of the emulator that it runs in (Arm semihosting): files of the machine outside, and an end. */
#ifndef EMULATOR_H
#define EMULATOR_H

#include <stdint.h>

/* Asks for something, with what belongs to it; what comes back depends on it. */
uint32_t ask_emulator(uint32_t what, const void *with);

/* Ends the emulator: well, or with status 1. */
void leave(int well);

#endif
