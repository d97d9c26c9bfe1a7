/* The main loop of a board (docs/FIRMWARE.md). All calls of the proved board are made here, one after another, so no two share a state. */
#include "host.h"

static board it;
static uint8_t store[BOARD_STORE], reply[BOARD_REPLY];
static uint16_t table[BOARD_TABLE];
static uint16_t used;  /* the bytes of the program that is kept */
static uint8_t stored; /* 1 if the store was written to since */
static uint8_t output; /* what the output pins show */

static void begin(void) {
    board_held held;
    board_fresh_in(&it.state);
    if (host_kept(&held, store) && !board_fill_in(held.used, held.records, held.axes, store, BOARD_STORE, table, BOARD_TABLE))
        it.state.held = held;
    used = it.state.held.used;
    output = it.state.output;
    host_output(output);
}

/* What a call may alter: the output pins, and the program, which is kept once it is stored or emptied. */
static void follow(void) {
    if (it.state.output != output) host_output(output = it.state.output);
    if (it.state.job == BOARD_STORING) {
        stored = 1;
    } else if (stored || it.state.held.used != used) {
        host_keep(&it.state.held, store);
        used = it.state.held.used;
        stored = 0;
    }
}

/* A program is kept before its end line is answered. */
static void hear(uint8_t byte) {
    board_receive_in(&it.heard, byte, host_ports(), reply, BOARD_REPLY, store, BOARD_STORE, table, BOARD_TABLE);
    if (it.heard.refusal) host_halt(it.heard.refusal);
    follow();
    for (uint64_t i = 0; i < it.heard.len; i++) host_put(reply[i]);
}

static uint8_t pins(int8_t way) { return way == 0 ? 0 : way > 0 ? 1 : 3; }

static void tick(void) {
    board_clocked *c = &it.clocked;
    board_clock_in(c, store, BOARD_STORE, table, BOARD_TABLE);
    if (c->refusal) host_halt(c->refusal);
    if (c->kind == BOARD_PULSE) {
        host_pulse(pins(c->x) | pins(c->y) << 2 | pins(c->z) << 4 | pins(c->a) << 6);
        host_wait(c->value);
    }
    if (c->kind == BOARD_PAUSE) host_wait(10);
    if (c->kind == BOARD_SEND) host_put(c->value);
    follow();
}

static int runs(void) { return it.state.job >= BOARD_DIRECT && it.state.job <= BOARD_DELAY && !it.state.standing; }

/* A byte goes before a clock call, so a stop that has come is heard before the next pulse; many bytes make pulses late, and change none. */
void loop(void) {
    begin();
    for (;;) {
        int byte = host_get();
        if (byte >= 0) hear(byte);
        else if (runs() && host_due()) tick();
        else host_rest(runs());
    }
}
