/* The line: a pseudo-terminal that leaves every byte as it is. Without a client what is sent is lost, as on a line not plugged in. */
#include "desk.h"

#include <errno.h>
#include <fcntl.h>
#include <poll.h>
#include <stdlib.h>
#include <termios.h>
#include <time.h>
#include <unistd.h>

#include "../host.h"

static int line;
static uint8_t come[4096];
static ssize_t taken, count;

/* The settings stay with the terminal when this end of it is closed again. */
static void raw(const char *name) {
    struct termios t;
    int other = open(name, O_RDWR | O_NOCTTY);
    if (other < 0 || tcgetattr(other, &t) < 0) fail(name);
    t.c_iflag = t.c_oflag = t.c_lflag = 0;
    t.c_cflag = CS8 | CREAD | CLOCAL;
    t.c_cc[VMIN] = 1;
    t.c_cc[VTIME] = 0;
    cfsetispeed(&t, B19200);
    cfsetospeed(&t, B19200);
    if (tcsetattr(other, TCSANOW, &t) < 0) fail(name);
    close(other);
}

const char *pty_start(void) {
    line = posix_openpt(O_RDWR | O_NOCTTY);
    if (line < 0 || grantpt(line) < 0 || unlockpt(line) < 0) fail("a pseudo-terminal");
    const char *name = ptsname(line);
    if (!name) fail("the pseudo-terminal's name");
    raw(name);
    if (fcntl(line, F_SETFL, O_NONBLOCK) < 0) fail(name);
    return name;
}

static int plugged(void) {
    struct pollfd look = {.fd = line};
    return poll(&look, 1, 0) == 0 || !(look.revents & POLLHUP);
}

int host_get(void) {
    if (taken == count) {
        taken = 0;
        count = read(line, come, sizeof come);
    }
    if (count > 0) return come[taken++];
    count = 0;
    return -1;
}

void host_put(uint8_t byte) {
    while (plugged() && write(line, &byte, 1) != 1) {
        struct pollfd room = {.fd = line, .events = POLLOUT};
        poll(&room, 1, 10);
    }
}

/* Without a client the system would not wait, so it is looked for a hundred times a second. */
void pty_rest(int64_t until) {
    int64_t left = until - time_now();
    if (left <= 0) return;
    int here = plugged();
    if (!here && left > 10000000) left = 10000000;
    struct timespec wait = {.tv_sec = left / 1000000000, .tv_nsec = left % 1000000000};
    struct pollfd look = {.fd = line, .events = POLLIN};
    ppoll(&look, here, &wait, NULL);
}
