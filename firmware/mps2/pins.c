/* The pins: pulses go to the second UART and the output byte to the third, so that a test reads each from a line of the emulator. */
#include "../host.h"
#include "chip.h"

#define INPUT(port) (WORD(0x40010000u + 0x1000u * (port)) & 0xFFu)

void pins_start(void) {
    DIVIDER(UART1) = DIVIDER(UART2) = 16;
    CONTROL(UART1) = CONTROL(UART2) = 1;
}

static void write(uint32_t uart, uint8_t byte) {
    while (STATE(uart) & 1) {}
    DATA(uart) = byte;
}

void host_pulse(uint8_t pins) { write(UART1, pins); }

void host_output(uint8_t byte) { write(UART2, byte); }

uint32_t host_ports(void) { return INPUT(0) | INPUT(1) << 8 | INPUT(2) << 16 | INPUT(3) << 24; }
