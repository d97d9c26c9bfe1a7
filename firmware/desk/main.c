/* The board as a program of this machine, on a pseudo-terminal; tools/desk starts it. The words: PACE STORE PULSES OUTPUTS, - for none. */
#include "desk.h"

#include <errno.h>
#include <signal.h>
#include <stdio.h>
#include <stdlib.h>
#include <string.h>
#include <unistd.h>

#include "../host.h"

void fail(const char *what) {
    fprintf(stderr, "desk: %s: %s\n", what, strerror(errno));
    exit(1);
}

void host_halt(uint16_t refusal) {
    fprintf(stderr, "desk: the board refused a call with %d\n", refusal);
    exit(1);
}

/* What was written is in the files already. */
static void end(int signal) {
    (void)signal;
    _exit(0);
}

static const char *file(const char *word) { return strcmp(word, "-") == 0 ? NULL : word; }

int main(int count, char **words) {
    if (count != 5) {
        fputs("usage: desk PACE STORE PULSES OUTPUTS\n", stderr);
        return 2;
    }
    struct sigaction ends = {.sa_handler = end};
    sigaction(SIGINT, &ends, NULL);
    sigaction(SIGTERM, &ends, NULL);
    sigaction(SIGHUP, &ends, NULL);
    time_start(strtoul(words[1], NULL, 10));
    keep_start(file(words[2]));
    pins_start(file(words[3]), file(words[4]));
    printf("desk: the board is on %s\n", pty_start());
    fflush(stdout);
    loop();
}
