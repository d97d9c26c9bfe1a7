/* Each refusal of each call, made from C: it prints which came, and whether the state and all that was lent stayed as they were. */
#include <stddef.h>

#include "desk.h"
#include "doorway.h"
#include "lent.h"
#include "memory.h"
#include "say.h"
#include "state.h"

static board here;
static board_state was;
static lent now, before;

/* ---- what is printed */

static void begin(const char *call, const char *why) {
    memcpy(&before, &now, sizeof now);
    was = here.state;
    say(call);
    say(", ");
    say(why);
    say(": ");
}

/* A refusal by its number or its letter, and whether it has changed anything; beside it the call must answer nothing. */
static void end(uint16_t refusal, int silent) {
    int same = silent && memcmp(&before, &now, sizeof now) == 0 && state_same(&was, &here.state);
    if (refusal < 100 && refusal > 0) put((uint8_t)refusal);
    else say_number(refusal);
    if (refusal) say(same ? ", nothing changed" : ", something changed");
    put('\n');
    memcpy(&now, &before, sizeof now);
    here.state = was;
}

/* ---- the calls */

static void receive(const char *why, uint64_t reply, uint64_t store, uint64_t table) {
    begin("receive", why);
    call_receive(&here, 255, 0, now.reply, reply, now.store, store, now.table, table);
    end(here.heard.refusal, here.heard.len == 0);
}

static void clock_once(const char *why, uint64_t store, uint64_t table) {
    begin("clock", why);
    call_clock(&here, now.store, store, now.table, table);
    end(here.clocked.refusal, here.clocked.kind == BOARD_NOTHING);
}

static void list(const char *why, uint64_t store, uint64_t text) {
    begin("list", why);
    call_list(&here, now.store, store, now.text, text);
    end(here.written.refusal, here.written.len == 0);
}

static void show(const char *why) {
    begin("show", why);
    call_show(&here);
    end(here.shown.refusal, here.shown.runs == 0);
}

static void fill(const char *why, uint64_t store, uint64_t table) {
    board_held held = here.state.held;
    begin("fill", why);
    end(call_fill(held.used, held.records, held.axes, now.store, store, now.table, table), 1);
}

/* The program in the store joined with the same, under its axes or others. */
static void join(const char *why, uint64_t store, uint64_t table, uint64_t more, uint8_t axes) {
    board_held held = here.state.held;
    now.used = held.used;
    now.records = held.records;
    now.axes = held.axes;
    begin("join", why);
    end(call_join(&now.used, &now.records, &now.axes, now.store, store, now.table, table, held.used, held.records, axes, now.more, more), 1);
}

static void chain(const char *why, double lead, int64_t second, uint64_t count, uint64_t distances) {
    now.thousandths[0] = 1000;
    now.thousandths[1] = second;
    begin("chain", why);
    end(call_chain(lead, 400.0, 1.0, now.thousandths, count, now.distances, distances), 1);
}

/* ---- boards to call */

static void hear(const char *line) {
    for (; *line; line++) {
        call_receive(&here, (uint8_t)*line, 0, now.reply, BOARD_REPLY, now.store, BOARD_STORE, now.table, BOARD_TABLE);
    }
}

static void ticks(int calls) {
    for (; calls > 0; calls--) call_clock(&here, now.store, BOARD_STORE, now.table, BOARD_TABLE);
}

/* A board with a program, and nothing in what is lent that a call would write by chance. */
static void stored(void) {
    memset(&now, 0xA5, sizeof now);
    call_fresh(&here);
    hear("@07\r@0i\r0 5,800,0,800,-4,300,4,300\r3 4,-1\r9\r");
    memcpy(now.more, now.store, sizeof now.more);
}

/* A program of 600 records. */
static void stored_long(void) {
    stored();
    hear("@0i\r");
    for (int i = 0; i < 600; i++) hear("5 1\r");
    hear("9\r");
    memcpy(now.more, now.store, sizeof now.more);
}

/* ---- the refusals */

static void lengths(void) {
    stored();
    receive("as it should be", 32, 16384, 1000);
    receive("a reply of 31 bytes", 31, 16384, 1000);
    receive("no reply", 0, 16384, 1000);
    receive("a store of 16,383 bytes", 32, 16383, 1000);
    receive("a store of 16,385 bytes", 32, 16385, 1000);
    receive("a table of 999 entries", 32, 16384, 999);
    receive("a table of 1,001 entries", 32, 16384, 1001);
    receive("all three wrong", 31, 16383, 999);
    receive("store and table wrong", 32, 16383, 999);
    clock_once("as it should be", 16384, 1000);
    clock_once("a store of 16,383 bytes", 16383, 1000);
    clock_once("a store of 16,385 bytes", 16385, 1000);
    clock_once("a table of 999 entries", 16384, 999);
    clock_once("a table of 1,001 entries", 16384, 1001);
    clock_once("both wrong", 0, 0);
    list("as it should be", 16384, 32768);
    list("a store of 16,383 bytes", 16383, 32768);
    list("a store of 16,385 bytes", 16385, 32768);
    list("a text of 32,767 bytes", 16384, 32767);
    list("both wrong", 16383, 32767);
    show("as it should be");
}

/* A byte of the state that is altered, and to what. */
typedef struct alteration {
    const char *why;
    size_t at;
    uint8_t to;
} alteration;

#define IN(member) offsetof(board_state, member)

/* Every call refuses an altered state, also with a buffer that is refused after it, and not before one that is refused first. */
static void alter(const alteration *altered, size_t count) {
    const board_state right = here.state;
    for (size_t i = 0; i < count; i++) {
        ((uint8_t *)&here.state)[altered[i].at] = altered[i].to;
        receive(altered[i].why, 32, 16384, 1000);
        receive("and no table", 32, 16384, 0);
        receive("and a short reply", 31, 16384, 1000);
        clock_once(altered[i].why, 16384, 1000);
        clock_once("and no table", 16384, 0);
        clock_once("and no store", 0, 1000);
        list(altered[i].why, 16384, 32768);
        list("and no text", 16384, 0);
        show(altered[i].why);
        here.state = right;
    }
}

static void states(void) {
    static const alteration running[] = {
        {"job 7", IN(job), 7},
        {"kind 2", IN(kind), 2},
        {"over 2", IN(over), 2},
        {"standing 2", IN(standing), 2},
        {"three 2", IN(three), 2},
        {"plane 3", IN(plane), 3},
        {"direction 2", IN(direction), 2},
        {"axes 2", IN(axes), 2},
        {"a line of 81 bytes", IN(len), 81},
        {"x of more than 24 bits", IN(at.x) + 3, 1},
        {"an origin of more than 24 bits", IN(origin.a) + 3, 1},
        {"a movement's start elsewhere", IN(straight.start.y), 77},
        {"its phase 3", IN(straight.phase), 3},
        {"more pulses made than it has", IN(straight.made), 200},
    };
    static const alteration arc[] = {
        {"an arc's plane 3", IN(round.plane), 3},
        {"its direction 2", IN(round.direction), 2},
        {"its centre elsewhere", IN(round.centre.first) + 3, 1},
        {"more pulses made than it has", IN(round.made), 200},
    };
    stored();
    hear("@0S\r");
    ticks(3);
    alter(running, sizeof running / sizeof running[0]);
    hear("\377@0y16,600,0,2,0,-1,-1\r");
    ticks(3);
    alter(arc, sizeof arc / sizeof arc[0]);
}

static void stores(void) {
    stored();
    fill("as it should be", 16384, 1000);
    fill("a store of 16,383 bytes", 16383, 1000);
    fill("a table of 1,001 entries", 16384, 1001);
    fill("both wrong", 16385, 999);
    join("as it should be", 16384, 1000, 16384, 7);
    join("a first store of 16,383 bytes", 16383, 1000, 16384, 7);
    join("a second store of 16,385 bytes", 16384, 1000, 16385, 7);
    join("a table of 999 entries", 16384, 999, 16384, 7);
    join("other axes", 16384, 1000, 16384, 3);
    now.more[0] ^= 255;
    join("a second store that cannot be read", 16384, 1000, 16384, 7);
    now.store[0] ^= 255;
    join("neither store", 16384, 1000, 16384, 7);
    list("a store that cannot be read", 16384, 32768);
    fill("a store that cannot be read", 16384, 1000);
    stored_long();
    join("two programs of 600 records", 16384, 1000, 16384, 7);
}

static void chains(void) {
    stored();
    chain("as it should be", 5.0, 2000, 2, 2);
    chain("an output of three numbers", 5.0, 2000, 2, 3);
    chain("1,001 distances", 5.0, 2000, 1001, 1001);
    chain("a lead of 0", 0.0, 2000, 2, 2);
    chain("a distance of more than 1,000,000 mm", 5.0, 1000000001, 2, 2);
    chain("a distance of more than 24 bits", 5.0, 900000000, 2, 2);
}

void run(void) {
    lengths();
    states();
    stores();
    chains();
}
