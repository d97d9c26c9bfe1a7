/* Two boards in one program: each does alone what it does beside the other, call by call, and when its calls come as interrupts in the
   middle of the other's. */
#include "desk.h"
#include "digest.h"
#include "doorway.h"
#include "interrupt.h"
#include "memory.h"
#include "say.h"
#include "state.h"

#define INTERRUPTIONS 300 /* calls of the first board in whose middle one of the second is made */
#define RUNS 5            /* runs of the second board that interrupts make */

/* A board with what it is lent and what it hears; how far it has come, and the digest of all that its calls came to. */
typedef struct player {
    const char *script;
    const char *next;
    board board;
    uint8_t reply[BOARD_REPLY];
    uint8_t store[BOARD_STORE];
    uint16_t table[BOARD_TABLE];
    uint32_t digest;
    int runs;               /* the last clock call did something */
    volatile uint32_t busy; /* 1 in the middle of a call */
} player;

static player first, second;
static uint32_t first_alone, second_alone;
static volatile uint32_t met, finished, differ;

static void begin(player *p) {
    memset(p->store, 0, sizeof p->store);
    memset(p->table, 0, sizeof p->table);
    p->next = p->script;
    p->digest = DIGEST_START;
    p->runs = 0;
    call_fresh(&p->board);
}

static void clock_once(player *p) {
    p->busy = 1;
    call_clock(&p->board, p->store, sizeof p->store, p->table, BOARD_TABLE);
    p->busy = 0;
    p->runs = p->board.clocked.kind != BOARD_NOTHING;
    p->digest = digest_number(p->digest, p->board.clocked.kind | (uint32_t)p->board.clocked.value << 16);
}

static void hear_next(player *p) {
    uint8_t byte = (uint8_t)*p->next++;
    p->busy = 1;
    call_receive(&p->board, byte, 0, p->reply, sizeof p->reply, p->store, sizeof p->store, p->table, BOARD_TABLE);
    p->busy = 0;
    p->runs = 1;
    p->digest = digest_bytes(p->digest, p->reply, p->board.heard.len);
}

/* The next call: a clock call while something runs, else the next byte. 0 if there is none. */
static int step(player *p) {
    if (!p->runs && !*p->next) return 0;
    if (p->runs) clock_once(p);
    else hear_next(p);
    p->digest = state_digest(p->digest, &p->board.state);
    return 1;
}

/* The digest of a run that is over. */
static uint32_t result(const player *p) {
    uint32_t digest = digest_bytes(p->digest, p->store, sizeof p->store);
    for (uint32_t i = 0; i < BOARD_TABLE; i++) digest = digest_number(digest, p->table[i]);
    return digest;
}

static uint32_t alone(player *p) {
    begin(p);
    while (step(p)) {}
    return result(p);
}

static int interleaved(void) {
    int goes = 1;
    begin(&first);
    begin(&second);
    while (goes) {
        goes = step(&first);
        goes |= step(&second);
    }
    return result(&first) == first_alone && result(&second) == second_alone;
}

/* The interrupt: a call of the second board, or the next run of it begins. */
static void interrupt(void) {
    met += first.busy;
    if (step(&second)) return;
    if (result(&second) != second_alone) differ++;
    finished++;
    begin(&second);
}

/* The first board runs again and again until it was interrupted often enough. */
static int interrupted(void) {
    uint32_t runs = 0;
    met = finished = differ = 0;
    begin(&second);
    interrupt_start(interrupt);
    while ((met < INTERRUPTIONS || finished < RUNS) && runs < 20000) {
        if (alone(&first) != first_alone) differ++;
        runs++;
    }
    interrupt_stop();
    return differ == 0 && met >= INTERRUPTIONS && finished >= RUNS;
}

void run(void) {
    first.script = "@07\r@0i\r0 5,800,4,700,-4,300,4,300\r3 4,-1\r1 65\r5 2\r3 3,-4\r9\r@0S\r@0P\r@0i\r";
    second.script = "@03\r@0e0\r@0i\ry 40,600,0,5,0,1,-1\rz 1\r0 -7,900,9,900\r3 6,-3\r9\r@0S\r@0P\r@0k\r";
    first_alone = alone(&first);
    second_alone = alone(&second);
    say("alone: ");
    say_hex(first_alone);
    put(' ');
    say_hex(second_alone);
    put('\n');
    say(interleaved() ? "call by call: the same\n" : "call by call: not the same\n");
    say(interrupted() ? "in the middle of calls: the same\n" : "in the middle of calls: not the same, or too few\n");
}
