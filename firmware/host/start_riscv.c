/* How a program starts on the emulated board virt (RISC-V of 32 bits), and asks the emulator. */
#include "emulator.h"

int main(void);
extern uint32_t bss_low, bss_high;

/* The emulator knows the three instructions by each other. */
__attribute__((noinline, aligned(16))) uint32_t ask_emulator(uint32_t what, const void *with) {
    register uint32_t a0 __asm__("a0") = what;
    register const void *a1 __asm__("a1") = with;
    __asm__ volatile(".option push\n.option norvc\n.balign 16\n"
                     "slli zero, zero, 0x1f\nebreak\nsrai zero, zero, 7\n.option pop"
                     : "+r"(a0)
                     : "r"(a1)
                     : "memory");
    return a0;
}

void leave(int well) {
    for (;;) ask_emulator(0x18, (const void *)(well ? 0x20026u : 0x20023u));
}

/* Where a trap goes. */
__attribute__((aligned(4))) static void fault(void) { leave(0); }

__attribute__((used)) static void reset(void) {
    __asm__ volatile(".insn i 0x73, 1, x0, %0, 0x305" ::"r"(fault)); /* csrw mtvec */
    for (volatile uint32_t *word = &bss_low; word < &bss_high; word++) *word = 0;
    main();
}

__attribute__((naked, section(".start"), used)) void start(void) { __asm__ volatile("la sp, stack_top\nj reset"); }
