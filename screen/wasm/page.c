/* What the page lends to the board, and where the fields stand that it reads: no call of the board is made here, and none is changed.
   firmware/board.h is held to the proved sources by tests/firmware/run. */
#include "board.h"

/* The board, and all that its calls are lent. */
board here;
uint8_t reply[BOARD_REPLY];
_Alignas(8) uint8_t store[BOARD_STORE];
_Alignas(8) uint16_t table[BOARD_TABLE];
uint8_t text[BOARD_TEXT];

/* A chain of distances and its steps. */
int64_t thousandths[BOARD_TABLE];
int32_t distances[BOARD_TABLE];

/* The count of the number 0. */
const uint32_t zero = BOARD_ZERO;

/* The fields of `here` by name: where each begins, and how many bytes it has, with a minus if it may be negative. */
typedef struct field {
    char name[16];
    uint32_t at;
    int32_t size;
} field;

#define AT(member) (uint32_t) __builtin_offsetof(board, member)
#define SIZE(member) (int32_t)sizeof((&here)->member)
#define FIELD(name, member) {name, AT(member), SIZE(member)}
#define SIGNED(name, member) {name, AT(member), -SIZE(member)}
#define POINT(name, member) \
    SIGNED(name "x", member.x), SIGNED(name "y", member.y), SIGNED(name "z", member.z), SIGNED(name "a", member.a)

const field fields[] = {
    FIELD("state", state),
    FIELD("job", state.job),
    FIELD("kind", state.kind),
    FIELD("standing", state.standing),
    FIELD("axes", state.axes),
    FIELD("three", state.three),
    FIELD("plane", state.plane),
    FIELD("direction", state.direction),
    FIELD("output", state.output),
    FIELD("place", state.place),
    FIELD("number", state.number),
    FIELD("byte", state.byte),
    FIELD("len", state.len),
    FIELD("over", state.over),
    FIELD("line", state.line),
    FIELD("used", state.held.used),
    FIELD("records", state.held.records),
    FIELD("store axes", state.held.axes),
    FIELD("loop", state.loops.at[0]),
    FIELD("depth", state.loops.depth),
    FIELD("count", state.at),
    FIELD("home", state.origin),
    FIELD("straight made", state.straight.made),
    FIELD("round made", state.round.made),
    FIELD("round length", state.round.length),
    FIELD("round start", state.round.start),
    FIELD("round plane", state.round.plane),
    FIELD("round direction", state.round.direction),
    FIELD("heard len", heard.len),
    FIELD("heard refusal", heard.refusal),
    FIELD("answer", clocked.kind),
    POINT("sign ", clocked),
    FIELD("value", clocked.value),
    FIELD("clock refusal", clocked.refusal),
    FIELD("written len", written.len),
    FIELD("list refusal", written.refusal),
    POINT("position ", shown.position),
    POINT("origin ", shown.origin),
    FIELD("runs", shown.runs),
    FIELD("show refusal", shown.refusal),
    {"", 0, 0},
};
