// The board called from C++: it asks for the positions, lists an empty store and is shown.
#include "board.h"

#include <cstring>

static uint8_t reply[BOARD_REPLY], store[BOARD_STORE], text[BOARD_TEXT];
static uint16_t table[BOARD_TABLE];

int main() {
    board here;
    uint64_t len = 0;
    board_fresh_in(&here.state);
    for (const char *at = "@07\r@0P\r"; *at; at++) {
        board_receive_in(&here.heard, static_cast<uint8_t>(*at), 0, reply, sizeof reply, store, sizeof store, table, BOARD_TABLE);
        len = here.heard.len;
    }
    if (len != 19 || std::memcmp(reply, "0000000000000000000", 19) != 0) return 1;
    board_list_in(&here.written, store, sizeof store, text, sizeof text);
    if (here.written.refusal != 0 || here.written.len != 2) return 2;
    board_show_in(&here.shown);
    return here.shown.refusal == 0 && here.shown.runs == 0 && here.shown.state.axes == 7 ? 0 : 3;
}
