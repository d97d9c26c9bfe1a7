/* The proved board for C and C++: its state as a plain struct, and each call over it (docs/FIRMWARE.md). Every function is one of
   crates/port or crates/inplace. They keep nothing between calls and have no data of their own, so any number of boards may stand in one
   program, and a call may interrupt another as long as the two lend no byte in common. Lengths have 64 bits on every processor. */
#ifndef NAKTHAWAENG_BOARD_H
#define NAKTHAWAENG_BOARD_H

#include <stdint.h>

#ifdef __cplusplus
extern "C" {
#endif

/* What a host lends: a reply buffer of at least BOARD_REPLY bytes, a store of BOARD_STORE bytes, a table of BOARD_TABLE entries, and to the
   lister a text buffer of at least BOARD_TEXT bytes. */
#define BOARD_REPLY 32
#define BOARD_STORE 16384
#define BOARD_TABLE 1000
#define BOARD_TEXT 32768

/* Positions, origins or resting points by axis, as counts: the number 0 is the count BOARD_ZERO. */
#define BOARD_ZERO 8388608
typedef struct board_counters {
    uint32_t x, y, z, a;
} board_counters;

/* The same as numbers. */
typedef struct board_point {
    int32_t x, y, z, a;
} board_point;

/* A straight movement under way. */
typedef struct board_move {
    board_counters start;                 /* where it starts */
    board_counters first, second, third;  /* where its phases end */
    uint16_t speed1, speed2, speed3;      /* and their speeds */
    uint8_t phase;                        /* the phase under way, from 0 on */
    uint32_t made;                        /* the pulses made in it */
} board_move;

/* A point of a plane by its first and second axis. */
typedef struct board_pair {
    uint32_t first, second;
} board_pair;

/* An arc under way. */
typedef struct board_round {
    board_pair centre;  /* as counts */
    board_pair start;   /* counted from the centre */
    uint32_t length;    /* its pulses */
    uint32_t made;      /* and how many are made */
    uint16_t speed;
    uint8_t plane;      /* 0 x and y, 1 x and z, 2 y and z */
    uint8_t direction;  /* 0 clockwise, 1 counter-clockwise */
} board_round;

/* The store's part in use. Beside the store itself it is all that a host keeps over a loss of power. */
typedef struct board_held {
    uint16_t used;     /* its bytes */
    uint16_t records;  /* its records */
    uint8_t axes;      /* the axes that it was written under */
} board_held;

/* An open loop: its place, and how often it still goes back. */
typedef struct board_loop {
    uint16_t place, left;
} board_loop;

/* The open loops: the one opened last stands at depth - 1. */
typedef struct board_loops {
    board_loop at[7];
    uint8_t depth;
} board_loops;

/* What is under way. */
enum {
    BOARD_IDLE = 0,     /* nothing */
    BOARD_STORING = 1,  /* a program is being stored */
    BOARD_DIRECT = 2,   /* a movement or circle that a line began */
    BOARD_READY = 3,    /* a program, between two records */
    BOARD_MOVING = 4,   /* a program, in a movement or circle */
    BOARD_DELAY = 5,    /* a program, in a delay */
    BOARD_WAIT = 6      /* a program that waits for a character */
};

/* The state of a board. A host may read every field. It may also alter one: a code or flag that stands for nothing is refused with 103, and
   so is a state that no board comes to; any other field that the job has no use for is not looked at, and stays. */
typedef struct board_state {
    board_counters at;     /* the positions */
    board_counters origin; /* the origins */
    board_move straight;   /* what moves, if kind is 0 */
    board_round round;     /* what moves, if kind is 1 */
    board_held held;       /* the store's part in use */
    uint16_t place;        /* the place of the next record */
    uint16_t number;       /* of a delay the pauses after the next one, of a wait its target */
    board_loops loops;     /* the open loops */
    uint8_t line[80];      /* the line being gathered */
    uint8_t len;           /* and its bytes */
    uint8_t over;          /* 1 if more than 80 came */
    uint8_t standing;      /* 1 while it stands stopped */
    uint8_t axes;          /* the axes set: 0, 1, 3, 7, 8 or 15 */
    uint8_t three;         /* 1 for movements of three axes at once */
    uint8_t plane;         /* of circles to come, as in board_round */
    uint8_t direction;     /* the same */
    uint8_t output;        /* the output byte */
    uint8_t job;           /* what is under way: BOARD_IDLE to BOARD_WAIT */
    uint8_t kind;          /* at BOARD_DIRECT and BOARD_MOVING: 0 straight, 1 round */
    uint8_t byte;          /* the character of a wait */
} board_state;

/* What a received byte comes to. */
typedef struct board_heard {
    board_state state; /* the next state */
    uint64_t len;      /* the bytes of the reply */
    uint16_t refusal;  /* 0, or what refused the call */
} board_heard;

/* The answers of a clock call. */
enum {
    BOARD_PULSE = 1,   /* x, y, z and a say which way each axis goes, value is the speed in steps per second */
    BOARD_PAUSE = 2,   /* a tenth of a second of a delay */
    BOARD_SEND = 3,    /* value is a byte to send */
    BOARD_DONE = 4,    /* a record was done that shows nothing */
    BOARD_NOTHING = 5  /* nothing runs, or it stands stopped */
};

/* What a clock call comes to. */
typedef struct board_clocked {
    board_state state; /* the next state */
    uint8_t kind;      /* the answer: BOARD_PULSE to BOARD_NOTHING */
    int8_t x, y, z, a; /* 1, 0 or -1 */
    uint16_t value;    /* a speed or a byte */
    uint16_t refusal;  /* 0, or what refused the call */
} board_clocked;

/* What listing comes to. */
typedef struct board_written {
    board_state state; /* as it was */
    uint32_t len;      /* the bytes of the text */
    uint16_t refusal;  /* 0, or what refused the call */
} board_written;

/* What a host shows of a state, beside what stands in it. */
typedef struct board_shown {
    board_state state;    /* as it was */
    board_point position; /* the positions as numbers */
    board_point origin;   /* the origins as numbers */
    uint8_t runs;         /* 1 if the next clock call has something to do */
    uint16_t refusal;     /* 103 if the calls refuse the state, else 0 */
} board_shown;

/* The refusals of calls. What a call refuses it leaves as it was: the state, and every buffer. */
enum {
    BOARD_SHORT_REPLY = 101,
    BOARD_WRONG_STORE = 102,
    BOARD_WRONG_STATE = 103,
    BOARD_WRONG_TABLE = 104,
    BOARD_WRONG_CHAIN = 105,
    BOARD_SHORT_TEXT = 106,
    BOARD_UNREADABLE = 'G'
};

/* ---- with the state by value, for x86-64 and Arm's 32-bit processors: libport.a */

#if defined(__x86_64__) || defined(__arm__)

/* A fresh board: no axes set, an empty store. */
board_state board_fresh(void);

/* A byte was received; ports are the four input ports, the first in the lowest byte. 101, 102, 103, 104. */
board_heard board_receive(board_state state, uint8_t byte, uint32_t ports, uint8_t *reply, uint64_t reply_len, uint8_t *store,
                          uint64_t store_len, uint16_t *table, uint64_t table_len);

/* One clock call. 102, 103, 104. */
board_clocked board_clock(board_state state, const uint8_t *store, uint64_t store_len, const uint16_t *table, uint64_t table_len);

/* The stored program as text. 102, 103, 106, G. */
board_written board_list(board_state state, const uint8_t *store, uint64_t store_len, uint8_t *text, uint64_t text_len);

/* What a host shows. */
board_shown board_show(board_state state);

/* Fills the table of a store that was kept. 102, 104, or G if the store cannot be read as this part in use: then it counts as empty. */
uint16_t board_fill(uint16_t used, uint16_t records, uint8_t axes, const uint8_t *store, uint64_t store_len, uint16_t *table,
                    uint64_t table_len);

/* Puts a second program behind a first, whose part in use, store and table are the destination. 102, 104, '3', G, '6'. */
uint16_t board_join(uint16_t *used, uint16_t *records, uint8_t *axes, uint8_t *store, uint64_t store_len, uint16_t *table,
                    uint64_t table_len, uint16_t more_used, uint16_t more_records, uint8_t more_axes, const uint8_t *more,
                    uint64_t more_len);

/* Distances in thousandths of a mm as relative distances in steps, for an axis of this lead, these steps per turn and this gear.
   105, 201, 202, 203. */
uint16_t board_chain(double lead, double steps, double gear, const int64_t *thousandths, uint64_t count, int32_t *distances,
                     uint64_t distances_len);

#endif

/* ---- with the state in place, for every processor: libinplace.a. A call takes the state that stands in front of its struct, and leaves
   its result in the struct's place; it is otherwise the call of the same name above. */

/* All that a host holds of a board. */
typedef union board {
    board_state state;
    board_heard heard;
    board_clocked clocked;
    board_written written;
    board_shown shown;
} board;

void board_fresh_in(board_state *at);
void board_receive_in(board_heard *at, uint8_t byte, uint32_t ports, uint8_t *reply, uint64_t reply_len, uint8_t *store, uint64_t store_len,
                      uint16_t *table, uint64_t table_len);
void board_clock_in(board_clocked *at, const uint8_t *store, uint64_t store_len, const uint16_t *table, uint64_t table_len);
void board_list_in(board_written *at, const uint8_t *store, uint64_t store_len, uint8_t *text, uint64_t text_len);
void board_show_in(board_shown *at);
uint16_t board_fill_in(uint16_t used, uint16_t records, uint8_t axes, const uint8_t *store, uint64_t store_len, uint16_t *table,
                       uint64_t table_len);
uint16_t board_join_in(uint16_t *used, uint16_t *records, uint8_t *axes, uint8_t *store, uint64_t store_len, uint16_t *table,
                       uint64_t table_len, uint16_t more_used, uint16_t more_records, uint8_t more_axes, const uint8_t *more,
                       uint64_t more_len);
uint16_t board_chain_in(double lead, double steps, double gear, const int64_t *thousandths, uint64_t count, int32_t *distances,
                        uint64_t distances_len);

#ifdef __cplusplus
}
#endif

#endif
