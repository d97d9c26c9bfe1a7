/* The time: when the next clock call is due by the clock of this machine. */
#include "desk.h"

#include <time.h>

#include "../host.h"

#define SECOND 1000000000
#define LATEST (SECOND / 10) /* so much delay by other programs is caught up with, and no more */

static uint32_t pace; /* how many times as fast as real time it runs, 0 for as fast as it can */
static int64_t next;

int64_t time_now(void) {
    struct timespec now;
    clock_gettime(CLOCK_MONOTONIC, &now);
    return (int64_t)now.tv_sec * SECOND + now.tv_nsec;
}

void time_start(uint32_t given) {
    pace = given;
    next = time_now();
}

int host_due(void) { return time_now() >= next; }

void host_wait(uint16_t speed) {
    int64_t now = time_now();
    if (pace == 0) return;
    if (now - next > LATEST) next = now;
    next += SECOND / ((int64_t)speed * pace);
}

/* What begins to run is due at once, and has nothing to catch up with. */
void host_rest(int runs) {
    pty_rest(runs ? next : time_now() + SECOND);
    if (!runs && next < time_now()) next = time_now();
}
