/* The lines of a script for `calls`: fields parted by one space each, and their numbers (trial/README.md). */
#ifndef SCRIPT_H
#define SCRIPT_H

#include <stdint.h>

#define FIELDS 5
#define NO_NUMBER INT64_MIN

/* A field of a line: its bytes, and the number that they are. */
typedef struct field {
    const uint8_t *bytes;
    uint32_t len;
    int64_t number; /* or NO_NUMBER */
} field;

/* A line: its fields up to the fifth, and how many it has. */
typedef struct row {
    uint8_t bytes[64];
    uint32_t len; /* of the line, also if it is longer than the 64 bytes kept */
    field at[FIELDS];
    uint32_t fields;
} row;

/* Reads the next line; 0 if there is none. */
int row_read(row *row);

/* The letter of a line that is right, or 0. Whether there is a field that H names is not asked here. */
uint8_t row_letter(const row *row);

/* A number of the line, which is right. */
uint32_t row_number(const row *row, uint32_t field);

#endif
