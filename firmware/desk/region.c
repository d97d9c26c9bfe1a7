/* The region of keep.c: a file that lies in memory, or memory alone if none is named. */
#include "desk.h"

#include <fcntl.h>
#include <sys/mman.h>
#include <unistd.h>

#include "../mps2/keep.h"

static keep_region here;
static volatile keep_region *at = &here;

void keep_start(const char *name) {
    if (!name) return;
    int file = open(name, O_RDWR | O_CREAT, 0666);
    if (file < 0 || ftruncate(file, sizeof here) < 0) fail(name);
    void *lies = mmap(NULL, sizeof here, PROT_READ | PROT_WRITE, MAP_SHARED, file, 0);
    if (lies == MAP_FAILED) fail(name);
    at = lies;
    close(file);
}

volatile keep_region *keep_at(void) { return at; }
