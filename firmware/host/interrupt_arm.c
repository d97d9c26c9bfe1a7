/* Interrupts on a Cortex-M: those of its own timer. */
#include "interrupt.h"

#include <stdint.h>

#define CONTROL (*(volatile uint32_t *)0xE000E010u) /* bits 0 to 2: it counts, it interrupts, by the processor's clock */
#define RELOAD (*(volatile uint32_t *)0xE000E014u)
#define CURRENT (*(volatile uint32_t *)0xE000E018u)

void beat(void);

static void (*what)(void);

void beat(void) { what(); }

void interrupt_start(void (*then)(void)) {
    what = then;
    RELOAD = 5000;
    CURRENT = 0;
    CONTROL = 7;
}

void interrupt_stop(void) { CONTROL = 0; }
