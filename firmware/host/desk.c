/* A program on a machine with files: its standard input is the one input. */
#include "desk.h"

#include <stdio.h>

int get(void) { return getchar(); }

void put(uint8_t byte) { putchar(byte); }

int main(void) {
    run();
    return fflush(stdout) != 0;
}
