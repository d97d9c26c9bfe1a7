/* The pins: every pulse and every output byte goes to a file at once, if one is named. */
#include "desk.h"

#include <fcntl.h>
#include <unistd.h>

#include "../host.h"

static int pulses = -1, outputs = -1;

static int made(const char *name) {
    if (!name) return -1;
    int file = open(name, O_WRONLY | O_CREAT | O_TRUNC, 0666);
    if (file < 0) fail(name);
    return file;
}

void pins_start(const char *pulse_file, const char *output_file) {
    pulses = made(pulse_file);
    outputs = made(output_file);
}

static void add(int file, uint8_t byte) {
    if (file >= 0 && write(file, &byte, 1) != 1) fail("a file of pulses or outputs");
}

void host_pulse(uint8_t pins) { add(pulses, pins); }

void host_output(uint8_t byte) { add(outputs, byte); }

uint32_t host_ports(void) { return 0; }
