/* The bytes of the input given to a board from C, and after each the clock calls until one answers nothing, at most 100,000: what
   bench/doorway counts. BY_VALUE makes the calls by value. It writes how many calls it made. */
#include "../../firmware/board.h"

int64_t read(int32_t from, uint8_t *to, uint64_t room);
int64_t write(int32_t to, const uint8_t *from, uint64_t n);

static uint8_t input[4096], store[BOARD_STORE], reply[BOARD_REPLY];
static uint16_t table[BOARD_TABLE];
static board now;

#ifdef BY_VALUE
static void fresh(void) { now.state = board_fresh(); }
static void hear(uint8_t byte) { now.heard = board_receive(now.state, byte, 0, reply, sizeof reply, store, sizeof store, table, BOARD_TABLE); }
static void tick(void) { now.clocked = board_clock(now.state, store, sizeof store, table, BOARD_TABLE); }
#else
static void fresh(void) { board_fresh_in(&now.state); }
static void hear(uint8_t byte) { board_receive_in(&now.heard, byte, 0, reply, sizeof reply, store, sizeof store, table, BOARD_TABLE); }
static void tick(void) { board_clock_in(&now.clocked, store, sizeof store, table, BOARD_TABLE); }
#endif

static void tell(uint32_t n) {
    uint8_t text[12];
    uint8_t *at = text + sizeof text;
    *--at = '\n';
    do *--at = '0' + n % 10;
    while (n /= 10);
    write(1, at, text + sizeof text - at);
}

int main(void) {
    uint32_t calls = 0;
    int64_t n = read(0, input, sizeof input);
    fresh();
    for (int64_t i = 0; i < n; i++) {
        hear(input[i]);
        calls++;
        for (int left = 100000; left > 0; left--) {
            tick();
            calls++;
            if (now.clocked.kind == BOARD_NOTHING) break;
        }
    }
    tell(calls);
    return 0;
}
