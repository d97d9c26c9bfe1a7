/* How the chip starts, what lies where in its memory, and how it ends if nothing may go on: the emulator with status 1, or with PLAIN
   standing still. */
#include "../host.h"
#include "chip.h"
#include "keep.h"

extern uint32_t stack_top, bss_low, bss_top;
extern volatile keep_region kept_here;

volatile keep_region *keep_at(void) { return &kept_here; }

static void fault(void) {
#ifndef PLAIN
    register uint32_t r0 __asm__("r0") = 0x18;
    register uint32_t r1 __asm__("r1") = 0x20023;
    __asm__ volatile("bkpt 0xab" : "+r"(r0) : "r"(r1) : "memory");
#endif
    __asm__ volatile("cpsid i");
    for (;;) {}
}

void host_halt(uint16_t refusal) {
    (void)refusal;
    fault();
}

void reset(void) {
    for (volatile uint32_t *p = &bss_low; p < &bss_top; p++) *p = 0;
    pins_start();
    timer_start();
    uart_start();
    loop();
}

/* Sixteen of the processor, then those of the chip. One that is empty leads to the third, a fault. */
__attribute__((section(".vectors"), used)) static void *const vectors[16 + TICKED + 1] = {
    &stack_top, reset, fault, fault, fault, fault, fault,
    [16 + RECEIVED] = uart_received,
    [16 + SENT] = uart_sent,
    [16 + TICKED] = timer_ticked,
};
