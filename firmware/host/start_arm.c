/* How a program starts on the emulated boards mps2-an385 (Cortex-M3) and mps2-an386 (Cortex-M4), and asks the emulator. */
#include "emulator.h"

int main(void);
void beat(void);
extern uint32_t stack_top, bss_low, bss_high;

uint32_t ask_emulator(uint32_t what, const void *with) {
    register uint32_t r0 __asm__("r0") = what;
    register const void *r1 __asm__("r1") = with;
    __asm__ volatile("bkpt 0xab" : "+r"(r0) : "r"(r1) : "memory");
    return r0;
}

void leave(int well) {
    for (;;) ask_emulator(0x18, (const void *)(well ? 0x20026u : 0x20023u));
}

static void fault(void) { leave(0); }

/* What the timer of the processor calls, if a program has it. */
__attribute__((weak)) void beat(void) { fault(); }

static void reset(void) {
    for (volatile uint32_t *word = &bss_low; word < &bss_high; word++) *word = 0;
    main();
}

__attribute__((section(".vectors"), used)) static const void *const vectors[16] = {
    &stack_top, (const void *)reset, (const void *)fault, (const void *)fault, (const void *)fault, (const void *)fault,
    (const void *)fault, 0, 0, 0, 0, (const void *)fault, 0, 0, (const void *)fault, (const void *)beat,
};
