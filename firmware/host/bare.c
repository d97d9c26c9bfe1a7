/* A program on a bare chip in an emulator. The file `sent` has its inputs, each as four bytes of length, the lowest first, and its bytes;
   the output of each goes to the file `came` in the same way. */
#include "desk.h"
#include "emulator.h"

#define OPEN 0x01
#define WRITE 0x05
#define READ 0x06

static uint8_t input[4096];
static uint32_t input_at, input_len;
static uint8_t output[4 + 2000000];
static uint32_t output_len;
static uint32_t left; /* bytes of the present input */
static uint32_t sent, came;

static uint32_t open_file(const char *name, uint32_t len, uint32_t mode) {
    const uint32_t with[3] = {(uint32_t)(uintptr_t)name, mode, len};
    return ask_emulator(OPEN, with);
}

/* The next byte of the file `sent`, or -1 at its end. */
static int next(void) {
    if (input_at == input_len) {
        const uint32_t with[3] = {sent, (uint32_t)(uintptr_t)input, sizeof input};
        input_len = sizeof input - ask_emulator(READ, with);
        input_at = 0;
        if (input_len == 0) return -1;
    }
    return input[input_at++];
}

int get(void) {
    if (left == 0) return -1;
    left--;
    return next();
}

void put(uint8_t byte) {
    if (output_len == sizeof output) leave(0);
    output[output_len++] = byte;
}

/* The length of the next input; 0 if there is none. */
static int begins(void) {
    left = 0;
    for (int shift = 0; shift < 32; shift += 8) {
        int byte = next();
        if (byte < 0) return 0;
        left |= (uint32_t)byte << shift;
    }
    return 1;
}

static void send_output(void) {
    const uint32_t with[3] = {came, (uint32_t)(uintptr_t)output, output_len};
    for (int i = 0; i < 4; i++) output[i] = (uint8_t)((output_len - 4) >> 8 * i);
    if (ask_emulator(WRITE, with) != 0) leave(0);
}

int main(void) {
    sent = open_file("sent", 4, 1);
    came = open_file("came", 4, 5);
    while (begins()) {
        output_len = 4;
        run();
        while (get() >= 0) {}
        send_output();
    }
    leave(1);
    return 0;
}
