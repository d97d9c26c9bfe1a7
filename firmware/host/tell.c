/* What `calls` prints of the board's answers and of its state. */
#include "tell.h"

#include "desk.h"
#include "say.h"

void tell_heard(const board_heard *heard, const uint8_t *reply) {
    if (heard->refusal) {
        say_line("B ", heard->refusal);
        return;
    }
    say(heard->len ? "B " : "B -");
    for (uint64_t i = 0; i < heard->len; i++) put(reply[i]);
    put('\n');
}

static void tell_pulse(const board_clocked *clocked) {
    say("C Pulse ");
    say_sign(clocked->x);
    say_sign(clocked->y);
    say_sign(clocked->z);
    say_sign(clocked->a);
    say_line(" ", clocked->value);
}

void tell_clocked(const board_clocked *clocked) {
    if (clocked->refusal) {
        say_line("C ", clocked->refusal);
        return;
    }
    switch (clocked->kind) {
    case BOARD_PULSE: tell_pulse(clocked); break;
    case BOARD_PAUSE: say("C Pause\n"); break;
    case BOARD_SEND: say_line("C Send ", clocked->value); break;
    case BOARD_DONE: say("C Done\n"); break;
    case BOARD_NOTHING: say("C Nothing\n"); break;
    default: say_line("C ?", clocked->kind);
    }
}

void tell_listing(const board_written *written, const uint8_t *text) {
    int begins = 1;
    if (written->refusal == BOARD_UNREADABLE) say("L G\n");
    else if (written->refusal) say_line("L ", written->refusal);
    for (uint32_t i = 0; i < written->len; i++) {
        if (begins && text[i] != '\r') say("L ");
        begins = text[i] == '\r';
        put(begins ? '\n' : text[i]);
    }
}

/* A count as its number, also one of more than 24 bits. */
static void tell_count(uint32_t count) {
    say(count < BOARD_ZERO ? " -" : " ");
    say_number(count < BOARD_ZERO ? BOARD_ZERO - count : count - BOARD_ZERO);
}

static void tell_counters(const char *name, const board_counters *counters) {
    say(name);
    tell_count(counters->x);
    tell_count(counters->y);
    tell_count(counters->z);
    tell_count(counters->a);
}

static void tell_point(const char *name, const board_point *point) {
    const int32_t numbers[4] = {point->x, point->y, point->z, point->a};
    say(name);
    for (int i = 0; i < 4; i++) {
        put(' ');
        say_signed(numbers[i]);
    }
}

static void tell_named(const char *name, uint32_t n) {
    say(name);
    say_number(n);
}

static void tell_job(uint8_t job) {
    static const char *const names[] = {"Idle", "Storing", "Direct", "Ready", "Moving", "Delay", "Wait"};
    say(" job ");
    say(job <= BOARD_WAIT ? names[job] : "?");
}

void tell_place(const board_state *state, uint16_t from) {
    say("T");
    tell_job(state->job);
    tell_named(" from ", from);
    tell_named(" place ", state->place);
    tell_counters(" origin", &state->origin);
    put('\n');
}

void tell_state(const board_shown *shown) {
    const board_state *state = &shown->state;
    tell_named("S axes ", state->axes);
    if (shown->refusal) {
        tell_counters(" position", &state->at);
        tell_counters(" origin", &state->origin);
    } else {
        tell_point(" position", &shown->position);
        tell_point(" origin", &shown->origin);
    }
    tell_named(" three ", state->three);
    tell_named(" output ", state->output);
    tell_named(" used ", state->held.used);
    tell_named(" records ", state->held.records);
    tell_named(" store_axes ", state->held.axes);
    tell_job(state->job);
    tell_named(" standing ", state->standing);
    tell_named(" loops ", state->loops.depth);
    tell_named(" plane ", state->plane);
    say(state->direction ? " direction -1\n" : " direction 0\n");
}
