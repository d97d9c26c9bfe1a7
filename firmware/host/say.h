/* Text and numbers of the output. */
#ifndef SAY_H
#define SAY_H

#include "../board.h"

/* A text. */
void say(const char *text);

/* A number of 32 bits in decimal digits. */
void say_number(uint32_t n);

/* A number with a minus if it is below 0. */
void say_signed(int32_t n);

/* A text, a number behind it and a line feed. */
void say_line(const char *text, uint32_t n);

/* Eight hexadecimal digits. */
void say_hex(uint32_t n);

/* The sign of an axis in a pulse: - . + */
void say_sign(int8_t sign);

#endif
