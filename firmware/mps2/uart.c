/* The line: the first UART, with a ring of bytes for each way. Only who puts moves a ring's head, and only who takes moves its tail. */
#include "../host.h"
#include "chip.h"

/* 255 bytes at most: the counts go around by themselves. */
typedef struct ring {
    volatile uint8_t bytes[256];
    volatile uint8_t head, tail;
} ring;

static ring come, go;

static int full(const ring *r) { return (uint8_t)(r->head + 1) == r->tail; }

static int empty(const ring *r) { return r->head == r->tail; }

static void put(ring *r, uint8_t byte) {
    r->bytes[r->head] = byte;
    r->head++;
}

static uint8_t take(ring *r) {
    uint8_t byte = r->bytes[r->tail];
    r->tail++;
    return byte;
}

/* 19,200 bits a second of a clock of 25 MHz. */
void uart_start(void) {
    DIVIDER(UART0) = 1302;
    CONTROL(UART0) = 15;
    (void)DATA(UART0); /* the emulator looks for a byte only when this is read */
    ENABLE(RECEIVED);
    ENABLE(SENT);
}

int uart_waits(void) { return !empty(&come); }

/* Without room the interrupt stays raised, but is off until a byte is taken; one byte waits in the UART, and the others on the line. */
void uart_received(void) {
    if (full(&come)) {
        DISABLE(RECEIVED);
        return;
    }
    CLEAR(UART0) = 2;
    if (STATE(UART0) & 2) put(&come, DATA(UART0));
}

void uart_sent(void) {
    CLEAR(UART0) = 1;
    if (!empty(&go) && !(STATE(UART0) & 1)) DATA(UART0) = take(&go);
}

int host_get(void) {
    if (empty(&come)) return -1;
    uint8_t byte = take(&come);
    ENABLE(RECEIVED);
    return byte;
}

void host_put(uint8_t byte) {
    while (full(&go)) {}
    put(&go, byte);
    CALL(SENT);
}
