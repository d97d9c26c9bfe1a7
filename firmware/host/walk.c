/* What the proved program `walk` does, by the board's calls from C: each byte is received, clock calls follow until nothing runs, and the
   replies and pulses are printed. */
#include "desk.h"
#include "doorway.h"
#include "memory.h"
#include "say.h"

#define MOST 100000 /* the clock calls for each byte */

static board board_here;
static uint8_t reply[BOARD_REPLY];
static uint8_t store[BOARD_STORE];
static uint16_t table[BOARD_TABLE];

/* Whether the A axis is set, so that its sign and position are printed. */
static int turns(void) { return board_here.state.axes >= 8; }

static void say_reply(const uint8_t *bytes, uint64_t len) {
    if (len == 0) return;
    say("R ");
    for (uint64_t i = 0; i < len; i++) put(bytes[i]);
    put('\n');
}

static void say_pulse(const board_clocked *clocked) {
    say("P ");
    say_sign(clocked->x);
    say_sign(clocked->y);
    say_sign(clocked->z);
    if (turns()) say_sign(clocked->a);
    say_line(" ", clocked->value);
}

/* Clock calls until one answers nothing: whether that came within the limit. */
static int run_out(void) {
    for (uint32_t calls = 0; calls < MOST; calls++) {
        call_clock(&board_here, store, sizeof store, table, BOARD_TABLE);
        board_clocked clocked = board_here.clocked;
        uint8_t sent = (uint8_t)clocked.value;
        if (clocked.kind == BOARD_NOTHING) return 1;
        if (clocked.kind == BOARD_PULSE) say_pulse(&clocked);
        if (clocked.kind == BOARD_SEND) say_reply(&sent, 1);
    }
    call_show(&board_here);
    return !board_here.shown.runs;
}

static void say_end(void) {
    call_show(&board_here);
    board_point at = board_here.shown.position;
    say("E ");
    say_signed(at.x);
    put(' ');
    say_signed(at.y);
    put(' ');
    say_signed(at.z);
    if (turns()) {
        put(' ');
        say_signed(at.a);
    }
    put('\n');
}

void run(void) {
    int byte, over = 1;
    memset(store, 0, sizeof store);
    memset(table, 0, sizeof table);
    call_fresh(&board_here);
    say("walk\n");
    while (over && (byte = get()) >= 0) {
        call_receive(&board_here, (uint8_t)byte, 0, reply, sizeof reply, store, sizeof store, table, BOARD_TABLE);
        say_reply(reply, board_here.heard.len);
        over = run_out();
    }
    if (!over) say("L 100000\n");
    say_end();
}
