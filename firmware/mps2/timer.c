/* The time, without a division: each tick adds the speed to a sum, and a clock call is due when the sum reaches the ticks of a second. */
#include "../host.h"
#include "chip.h"

#define TIMER 0x40000000u
#define ON WORD(TIMER + 0x00) /* 9: it counts, with interrupts */
#define RELOAD WORD(TIMER + 0x08)
#define TOLD WORD(TIMER + 0x0C)
#define BEATS 1250u /* of 25,000,000 a second, from tick to tick */
#define RATE 20000u /* so many ticks a second, twice the highest speed */

/* How many times as fast as real time it runs, 0 for as fast as it can: set from outside with a mark above it, and else 1. */
#define GIVEN 0xFACE0000u
extern volatile uint32_t given_pace;
static uint32_t pace;

/* Below RATE the sum belongs to the interrupt, from RATE on to the loop: so neither has to lock the other out. */
static volatile uint32_t sum, step;

void timer_start(void) {
    pace = 1;
#ifndef PLAIN
    if ((given_pace & 0xFFFF0000u) == GIVEN) pace = given_pace & 0xFFFFu;
#endif
    sum = RATE;
    RELOAD = BEATS - 1;
    ENABLE(TICKED);
}

void timer_ticked(void) {
    TOLD = 1;
    if (sum < RATE) sum += step;
}

int host_due(void) { return sum >= RATE; }

/* What is left over belongs to the old speed: it is a part of one tick, and is kept only where the speed stays. */
void host_wait(uint16_t speed) {
    uint32_t next = speed * pace;
    if (pace == 0) return;
    if (next == step) {
        sum -= RATE;
    } else {
        step = next;
        sum = 0;
    }
}

/* Interrupts are held back from the look to the sleep, which one that is held back ends. While nothing runs there are no ticks. */
void host_rest(int runs) {
    ON = runs ? 9 : 0;
    __asm__ volatile("cpsid i" ::: "memory");
    if (!uart_waits() && !(runs && host_due())) __asm__ volatile("wfi" ::: "memory");
    __asm__ volatile("cpsie i" ::: "memory");
}
