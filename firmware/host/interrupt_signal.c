/* Interrupts on a machine with signals: a timer's. */
#define _XOPEN_SOURCE 700
#include "interrupt.h"

#include <signal.h>
#include <sys/time.h>

static void (*what)(void);

static void on_signal(int number) {
    (void)number;
    what();
}

static void set_timer(long microseconds) {
    struct itimerval every = {{0, microseconds}, {0, microseconds}};
    setitimer(ITIMER_REAL, &every, 0);
}

void interrupt_start(void (*then)(void)) {
    struct sigaction action = {0};
    what = then;
    action.sa_handler = on_signal;
    action.sa_flags = SA_RESTART;
    sigaction(SIGALRM, &action, 0);
    set_timer(50);
}

void interrupt_stop(void) {
    set_timer(0);
    signal(SIGALRM, SIG_IGN);
}
