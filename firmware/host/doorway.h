/* One name for each call of the board, through either doorway: with BY_VALUE it takes the state and hands the next one back, otherwise it
   works in place. */
#ifndef DOORWAY_H
#define DOORWAY_H

#include "../board.h"

#ifdef BY_VALUE

static inline void call_fresh(board *at) { at->state = board_fresh(); }

static inline void call_receive(board *at, uint8_t byte, uint32_t ports, uint8_t *reply, uint64_t reply_len, uint8_t *store,
                                uint64_t store_len, uint16_t *table, uint64_t table_len) {
    at->heard = board_receive(at->state, byte, ports, reply, reply_len, store, store_len, table, table_len);
}

static inline void call_clock(board *at, const uint8_t *store, uint64_t store_len, const uint16_t *table, uint64_t table_len) {
    at->clocked = board_clock(at->state, store, store_len, table, table_len);
}

static inline void call_list(board *at, const uint8_t *store, uint64_t store_len, uint8_t *text, uint64_t text_len) {
    at->written = board_list(at->state, store, store_len, text, text_len);
}

static inline void call_show(board *at) { at->shown = board_show(at->state); }

#define call_fill board_fill
#define call_join board_join
#define call_chain board_chain

#else

static inline void call_fresh(board *at) { board_fresh_in(&at->state); }

static inline void call_receive(board *at, uint8_t byte, uint32_t ports, uint8_t *reply, uint64_t reply_len, uint8_t *store,
                                uint64_t store_len, uint16_t *table, uint64_t table_len) {
    board_receive_in(&at->heard, byte, ports, reply, reply_len, store, store_len, table, table_len);
}

static inline void call_clock(board *at, const uint8_t *store, uint64_t store_len, const uint16_t *table, uint64_t table_len) {
    board_clock_in(&at->clocked, store, store_len, table, table_len);
}

static inline void call_list(board *at, const uint8_t *store, uint64_t store_len, uint8_t *text, uint64_t text_len) {
    board_list_in(&at->written, store, store_len, text, text_len);
}

static inline void call_show(board *at) { board_show_in(&at->shown); }

#define call_fill board_fill_in
#define call_join board_join_in
#define call_chain board_chain_in

#endif

#endif
