/* What the proved program `calls` does, by the board's calls from C: drives a board call by call from a script (trial/README.md), and prints
   what each call answers. */
#include "desk.h"
#include "doorway.h"
#include "fields.h"
#include "memory.h"
#include "say.h"
#include "script.h"
#include "tell.h"

/* The board, and what it is lent: of each buffer the first bytes or entries, as many as the lengths say. */
static board here;
static uint8_t reply[65536];
static uint8_t store[65536];
static uint16_t table[2000];
static uint8_t text[BOARD_TEXT];

/* The lengths that the next call is lent, the input ports, whether the last run is over, and whether the script goes on. */
static uint64_t reply_len, store_len, table_len;
static uint32_t ports;
static int over, more;

/* The next call is lent what is usual. */
static void lend_usual(void) {
    reply_len = BOARD_REPLY;
    store_len = BOARD_STORE;
    table_len = BOARD_TABLE;
}

static void receive(uint8_t byte) {
    call_receive(&here, byte, ports, reply, reply_len, store, store_len, table, table_len);
    tell_heard(&here.heard, reply);
    lend_usual();
}

static void clock_once(void) {
    call_clock(&here, store, store_len, table, table_len);
    lend_usual();
}

static void clock_many(uint32_t calls) {
    for (; calls > 0; calls--) {
        clock_once();
        tell_clocked(&here.clocked);
    }
}

/* Whether a pulse just made was the first of its phase or arc. */
static int is_first(const board_state *state) {
    if (state->job != BOARD_DIRECT && state->job != BOARD_MOVING) return 0;
    return (state->kind == 0 ? state->straight.made : state->round.made) == 1;
}

/* A call of a run and what is printed of it: whether it ended the run. */
static int step(void) {
    uint16_t from = here.state.place;
    clock_once();
    const board_clocked *clocked = &here.clocked;
    if (clocked->refusal || clocked->kind != BOARD_NOTHING) tell_clocked(clocked);
    if (clocked->kind == BOARD_NOTHING) return 1;
    if (clocked->kind != BOARD_PULSE || is_first(&clocked->state)) tell_place(&clocked->state, from);
    return 0;
}

/* Whether a run that was not over in its calls is over now: one more call, whose state is not kept. */
static int look(void) {
    board_state kept = here.state;
    clock_once();
    int nothing = here.clocked.kind == BOARD_NOTHING;
    here.state = kept;
    return nothing;
}

static void run_until(uint32_t calls) {
    over = 0;
    for (; calls > 0 && !over; calls--) over = step();
    if (!over) over = look();
    say(over ? "Q over\n" : "Q more\n");
}

static void list(void) {
    call_list(&here, store, store_len, text, sizeof text);
    tell_listing(&here.written, text);
    lend_usual();
}

static void fill(void) {
    board_held held = here.state.held;
    uint16_t refusal = call_fill(held.used, held.records, held.axes, store, store_len, table, table_len);
    if (refusal == BOARD_UNREADABLE) say("F G\n");
    else say_line("F ", refusal);
    lend_usual();
}

static void set_held(const row *row) {
    here.state.held.used = (uint16_t)row_number(row, 1);
    here.state.held.records = (uint16_t)row_number(row, 2);
    here.state.held.axes = (uint8_t)row_number(row, 3);
}

static void show(void) {
    call_show(&here);
    tell_state(&here.shown);
}

/* A line that makes a call. */
static int make_call(uint8_t letter, uint32_t n) {
    switch (letter) {
    case 'B': receive((uint8_t)n); return 1;
    case 'C': clock_many(n); return 1;
    case 'F': fill(); return 1;
    case 'L': list(); return 1;
    case 'Q': run_until(n); return 1;
    case 'S': show(); return 1;
    default: return 0;
    }
}

/* A line that makes none: 0 if it is wrong. */
static int prepare(uint8_t letter, const row *row, uint32_t n) {
    switch (letter) {
    case 'E': more = over; return 1;
    case 'H': return field_set(&here.state, &row->at[1], row->at[2].number);
    case 'I': ports = n | row_number(row, 2) << 8 | row_number(row, 3) << 16 | row_number(row, 4) << 24; return 1;
    case 'K': set_held(row); return 1;
    case 'M': store_len = n; return 1;
    case 'N': say_line("N ", n); return 1;
    case 'R': reply_len = n; return 1;
    case 'T': table[n] = (uint16_t)row_number(row, 2); return 1;
    case 'U': table_len = n; return 1;
    case 'V': say_line("V ", table[n]); return 1;
    case 'W': store[n] = (uint8_t)row_number(row, 2); return 1;
    default: return 0;
    }
}

void run(void) {
    row row;
    memset(store, 0, sizeof store);
    memset(table, 0, sizeof table);
    call_fresh(&here);
    lend_usual();
    ports = 0;
    over = more = 1;
    for (uint32_t number = 1; more && row_read(&row); number++) {
        uint8_t letter = row_letter(&row);
        uint32_t n = row.fields > 1 ? row_number(&row, 1) : 0;
        if (!make_call(letter, n) && !prepare(letter, &row, n)) say_line("? ", number);
    }
}
