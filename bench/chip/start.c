/* A proved program on the emulated board mps2-an385 (Cortex-M3): how it starts and ends, and what stands behind its read and write.
   Over the first UART the host sends how many bytes follow, as four bytes with the lowest first, and then these bytes; what the
   program writes comes back. At the end the deepest stack is told on the emulator's own channel. Lengths have 64 bits on every
   processor. */
#include "../bare.c"

#define UART 0x40004000u
#define DATA (*(volatile uint32_t *)(UART + 0x00))
#define STATE (*(volatile uint32_t *)(UART + 0x04)) /* bit 0: the last byte is not sent yet; bit 1: a byte has come */
#define CONTROL (*(volatile uint32_t *)(UART + 0x08)) /* bits 0 and 1: it sends, it receives */
#define DIVIDER (*(volatile uint32_t *)(UART + 0x10))
#define PAINT 0xA5A5A5A5u

int main(void);
extern uint32_t stack_top, stack_low;

static uint32_t left; /* bytes of the input that are still to come */

static uint8_t get(void) {
    while (!(STATE & 2)) {}
    return DATA;
}

int64_t read(int32_t from, uint8_t *to, uint64_t room) {
    uint32_t n = room < left ? room : left;
    for (uint32_t i = 0; i < n; i++) to[i] = get();
    left -= n;
    return from == 0 ? (int64_t)n : -1;
}

int64_t write(int32_t to, const uint8_t *from, uint64_t n) {
    for (uint64_t i = 0; i < n; i++) {
        while (STATE & 1) {}
        DATA = from[i];
    }
    return to == 1 ? (int64_t)n : -1;
}

static void ask_emulator(uint32_t what, uint32_t with) {
    register uint32_t r0 __asm__("r0") = what;
    register uint32_t r1 __asm__("r1") = with;
    __asm__ volatile("bkpt 0xab" : "+r"(r0) : "r"(r1) : "memory");
}

static void leave(uint32_t why) {
    for (;;) ask_emulator(0x18, why);
}

/* the words that are still painted were never used */
static void tell_stack(void) {
    char text[16];
    char *at = text + sizeof text;
    uint32_t *p = &stack_low;
    while (*p == PAINT) p++;
    uint32_t used = (uint32_t)&stack_top - (uint32_t)p;
    *--at = 0;
    *--at = '\n';
    do *--at = '0' + used % 10;
    while (used /= 10);
    ask_emulator(0x04, (uint32_t)at);
}

static void fault(void) { leave(0x20023); }

__attribute__((noreturn)) void reset(void) {
    uint32_t *here = __builtin_frame_address(0);
    for (uint32_t *p = &stack_low; p < here - 64; p++) *(volatile uint32_t *)p = PAINT;
    DIVIDER = 16;
    CONTROL = 3;
    (void)DATA; /* a byte from before is none of ours; and the emulator looks for the next one only when this is read */
    left = 0;
    for (int i = 0; i < 32; i += 8) left |= (uint32_t)get() << i;
    int status = main();
    tell_stack();
    leave(status == 0 ? 0x20026 : 0x20023);
    __builtin_unreachable();
}

__attribute__((section(".vectors"), used)) static void *const vectors[16] = {&stack_top, reset, fault, fault, fault, fault, fault};
