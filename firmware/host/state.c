/* A state field by field, as a row of numbers. */
#include "state.h"

#include "digest.h"

#define NUMBERS 149

static uint32_t *put_counters(uint32_t *to, const board_counters *counters) {
    *to++ = counters->x;
    *to++ = counters->y;
    *to++ = counters->z;
    *to++ = counters->a;
    return to;
}

static uint32_t *put_move(uint32_t *to, const board_move *move) {
    to = put_counters(to, &move->start);
    to = put_counters(to, &move->first);
    to = put_counters(to, &move->second);
    to = put_counters(to, &move->third);
    *to++ = move->speed1;
    *to++ = move->speed2;
    *to++ = move->speed3;
    *to++ = move->phase;
    *to++ = move->made;
    return to;
}

static uint32_t *put_round(uint32_t *to, const board_round *round) {
    *to++ = round->centre.first;
    *to++ = round->centre.second;
    *to++ = round->start.first;
    *to++ = round->start.second;
    *to++ = round->length;
    *to++ = round->made;
    *to++ = round->speed;
    *to++ = round->plane;
    *to++ = round->direction;
    return to;
}

static uint32_t *put_run(uint32_t *to, const board_state *state) {
    *to++ = state->held.used;
    *to++ = state->held.records;
    *to++ = state->held.axes;
    *to++ = state->place;
    *to++ = state->number;
    for (int i = 0; i < 7; i++) {
        *to++ = state->loops.at[i].place;
        *to++ = state->loops.at[i].left;
    }
    *to++ = state->loops.depth;
    return to;
}

static uint32_t *put_bytes(uint32_t *to, const board_state *state) {
    for (int i = 0; i < 80; i++) *to++ = state->line[i];
    *to++ = state->len;
    *to++ = state->over;
    *to++ = state->standing;
    *to++ = state->axes;
    *to++ = state->three;
    *to++ = state->plane;
    *to++ = state->direction;
    *to++ = state->output;
    *to++ = state->job;
    *to++ = state->kind;
    *to++ = state->byte;
    return to;
}

static void put_state(uint32_t to[NUMBERS], const board_state *state) {
    to = put_counters(to, &state->at);
    to = put_counters(to, &state->origin);
    to = put_move(to, &state->straight);
    to = put_round(to, &state->round);
    to = put_run(to, state);
    put_bytes(to, state);
}

int state_same(const board_state *one, const board_state *other) {
    uint32_t a[NUMBERS], b[NUMBERS];
    put_state(a, one);
    put_state(b, other);
    for (int i = 0; i < NUMBERS; i++)
        if (a[i] != b[i]) return 0;
    return 1;
}

uint32_t state_digest(uint32_t digest, const board_state *state) {
    uint32_t numbers[NUMBERS];
    put_state(numbers, state);
    for (int i = 0; i < NUMBERS; i++) digest = digest_number(digest, numbers[i]);
    return digest;
}
