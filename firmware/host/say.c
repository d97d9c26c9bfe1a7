/* Text and numbers of the output. */
#include "say.h"

#include "desk.h"

void say(const char *text) {
    while (*text) put((uint8_t)*text++);
}

void say_number(uint32_t n) {
    char digits[10];
    int count = 0;
    do {
        digits[count++] = (char)('0' + n % 10);
        n /= 10;
    } while (n);
    while (count) put((uint8_t)digits[--count]);
}

void say_signed(int32_t n) {
    if (n < 0) put('-');
    say_number(n < 0 ? 0u - (uint32_t)n : (uint32_t)n);
}

void say_line(const char *text, uint32_t n) {
    say(text);
    say_number(n);
    put('\n');
}

void say_hex(uint32_t n) {
    for (int shift = 28; shift >= 0; shift -= 4) put((uint8_t)"0123456789abcdef"[n >> shift & 15]);
}

void say_sign(int8_t sign) { put(sign < 0 ? '-' : sign > 0 ? '+' : '.'); }
