/* The fields of a state that a script for `calls` sets by name: where each stands, and what it holds. */
#include "fields.h"

#include <stddef.h>

#include "memory.h"

/* What a field holds: as many values as its type has, or fewer. */
enum holds {
    FLAG,  /* 0 or 1 */
    PLANE, /* 0 to 2 */
    TURN,  /* 0 or -1, kept as 0 or 1 */
    BYTE,
    HALF,
    WORD,
    COUNT /* a number kept as a count of 32 bits */
};

typedef struct named {
    const char *name;
    enum holds holds;
    size_t offset;
} named;

#define IN(member) offsetof(board_state, member)
#define POINT(name, member) \
    {name "x", COUNT, IN(member.x)}, {name "y", COUNT, IN(member.y)}, {name "z", COUNT, IN(member.z)}, {name "a", COUNT, IN(member.a)}

static const named always[] = {
    POINT("", at),
    POINT("o", origin),
    {"axes", BYTE, IN(axes)},
    {"depth", BYTE, IN(loops.depth)},
    {"len", BYTE, IN(len)},
    {"over", FLAG, IN(over)},
    {"standing", FLAG, IN(standing)},
    {"place", HALF, IN(place)},
    {"plane", PLANE, IN(plane)},
    {"turn", TURN, IN(direction)},
};

static const named straight[] = {
    POINT("start", straight.start),
    POINT("first", straight.first),
    POINT("second", straight.second),
    POINT("third", straight.third),
    {"speed1", HALF, IN(straight.speed1)},
    {"speed2", HALF, IN(straight.speed2)},
    {"speed3", HALF, IN(straight.speed3)},
    {"phase", BYTE, IN(straight.phase)},
    {"made", WORD, IN(straight.made)},
};

static const named bent[] = {
    {"centre1", COUNT, IN(round.centre.first)},
    {"centre2", COUNT, IN(round.centre.second)},
    {"start1", COUNT, IN(round.start.first)},
    {"start2", COUNT, IN(round.start.second)},
    {"arcspeed", HALF, IN(round.speed)},
    {"length", WORD, IN(round.length)},
    {"made", WORD, IN(round.made)},
    {"arcplane", PLANE, IN(round.plane)},
    {"arcturn", TURN, IN(round.direction)},
};

/* How many values a field holds, counted from 0 on as they are kept. */
static int64_t values_of(enum holds holds) {
    switch (holds) {
    case FLAG:
    case TURN: return 2;
    case PLANE: return 3;
    case BYTE: return 256;
    case HALF: return 65536;
    default: return 4294967296;
    }
}

/* A number as a field keeps it. */
static int64_t kept_as(enum holds holds, int64_t number) {
    if (number == NO_NUMBER) return -1;
    if (holds == TURN) return -number;
    return holds == COUNT ? number + BOARD_ZERO : number;
}

static void keep(board_state *state, const named *in, int64_t kept) {
    uint8_t *at = (uint8_t *)state + in->offset;
    uint8_t byte = (uint8_t)kept;
    uint16_t half = (uint16_t)kept;
    uint32_t word = (uint32_t)kept;
    if (in->holds == WORD || in->holds == COUNT) memcpy(at, &word, sizeof word);
    else if (in->holds == HALF) memcpy(at, &half, sizeof half);
    else memcpy(at, &byte, sizeof byte);
}

static int is_name(const char *name, const field *field) {
    uint32_t i = 0;
    while (i < field->len && name[i] && (uint8_t)name[i] == field->bytes[i]) i++;
    return i == field->len && !name[i];
}

static int set_among(board_state *state, const named *fields, size_t count, const field *name, int64_t number) {
    for (size_t i = 0; i < count; i++) {
        if (!is_name(fields[i].name, name)) continue;
        int64_t kept = kept_as(fields[i].holds, number);
        if (kept < 0 || kept >= values_of(fields[i].holds)) return 0;
        keep(state, &fields[i], kept);
        return 1;
    }
    return 0;
}

int field_set(board_state *state, const field *name, int64_t number) {
    int moves = state->job == BOARD_DIRECT || state->job == BOARD_MOVING;
    if (set_among(state, always, sizeof always / sizeof always[0], name, number)) return 1;
    if (moves && state->kind == 0) return set_among(state, straight, sizeof straight / sizeof straight[0], name, number);
    if (moves && state->kind == 1) return set_among(state, bent, sizeof bent / sizeof bent[0], name, number);
    return 0;
}
