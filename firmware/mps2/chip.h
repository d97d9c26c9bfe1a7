/* The registers of the emulated board mps2-an385 that this folder uses, and what its files call of each other. */
#ifndef NAKTHAWAENG_CHIP_H
#define NAKTHAWAENG_CHIP_H

#include <stdint.h>

#define WORD(at) (*(volatile uint32_t *)(at))

/* A UART of the chip. */
#define UART0 0x40004000u
#define UART1 0x40005000u
#define UART2 0x40006000u
#define DATA(uart) WORD((uart) + 0x00)
#define STATE(uart) WORD((uart) + 0x04)   /* bit 0: the last byte is not sent yet; bit 1: a byte has come */
#define CONTROL(uart) WORD((uart) + 0x08) /* bits 0 and 1: it sends, it receives; bits 2 and 3: with interrupts */
#define CLEAR(uart) WORD((uart) + 0x0C)   /* bits 0 and 1: the interrupts of sending and receiving */
#define DIVIDER(uart) WORD((uart) + 0x10)

/* Interrupts by their number, which is below 32. */
#define RECEIVED 0
#define SENT 1
#define TICKED 8
#define ENABLE(number) (WORD(0xE000E100u) = 1u << (number))
#define DISABLE(number) (WORD(0xE000E180u) = 1u << (number))
#define CALL(number) (WORD(0xE000E200u) = 1u << (number))

void uart_start(void);
int uart_waits(void); /* 1 if a byte has come that was not taken */
void uart_received(void);
void uart_sent(void);

void timer_start(void);
void timer_ticked(void);

void pins_start(void);

#endif
