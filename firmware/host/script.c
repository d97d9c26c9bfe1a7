/* The lines of a script for `calls`, read and taken apart. */
#include "script.h"

#include "desk.h"

/* The number that the bytes of a field are: a minus or none, and 1 to 10 digits. */
static int64_t number_of(const uint8_t *bytes, uint32_t len) {
    uint32_t minus = len > 0 && bytes[0] == '-';
    int64_t size = 0;
    if (len == minus || len > minus + 10) return NO_NUMBER;
    for (uint32_t i = minus; i < len; i++) {
        if (bytes[i] < '0' || bytes[i] > '9') return NO_NUMBER;
        size = size * 10 + (bytes[i] - '0');
    }
    return minus ? -size : size;
}

static void close_field(row *row, uint32_t from, uint32_t to) {
    if (row->fields < FIELDS) {
        field *next = &row->at[row->fields];
        next->bytes = row->bytes + from;
        next->len = to - from;
        next->number = number_of(next->bytes, next->len);
    }
    row->fields++;
}

static void split(row *row) {
    uint32_t from = 0;
    row->fields = 0;
    for (uint32_t i = 0; i < row->len; i++) {
        if (row->bytes[i] != ' ') continue;
        close_field(row, from, i);
        from = i + 1;
    }
    close_field(row, from, row->len);
}

int row_read(row *row) {
    int byte;
    row->len = 0;
    row->fields = 0;
    while ((byte = get()) >= 0 && byte != '\n') {
        if (row->len < sizeof row->bytes) row->bytes[row->len] = (uint8_t)byte;
        row->len++;
    }
    if (byte < 0 && row->len == 0) return 0;
    if (row->len <= sizeof row->bytes) split(row);
    return 1;
}

/* Whether a field is a number from 0 to the largest. */
static int within(const row *row, uint32_t field, int64_t most) {
    return row->at[field].number >= 0 && row->at[field].number <= most;
}

static int is_right(const row *row, uint8_t letter) {
    switch (letter) {
    case 'B': return row->fields == 2 && within(row, 1, 255);
    case 'C':
    case 'N':
    case 'Q': return row->fields == 2 && within(row, 1, UINT32_MAX);
    case 'H': return row->fields == 3;
    case 'I': return row->fields == 5 && within(row, 1, 255) && within(row, 2, 255) && within(row, 3, 255) && within(row, 4, 255);
    case 'K': return row->fields == 4 && within(row, 1, 65535) && within(row, 2, 65535) && within(row, 3, 255);
    case 'E':
    case 'F':
    case 'L':
    case 'S': return row->fields == 1;
    case 'M':
    case 'R': return row->fields == 2 && within(row, 1, 65536);
    case 'T': return row->fields == 3 && within(row, 1, 999) && within(row, 2, 65535);
    case 'U': return row->fields == 2 && within(row, 1, 2000);
    case 'V': return row->fields == 2 && within(row, 1, 999);
    case 'W': return row->fields == 3 && within(row, 1, 16383) && within(row, 2, 255);
    default: return 0;
    }
}

uint8_t row_letter(const row *row) {
    if (row->fields == 0 || row->at[0].len != 1) return 0;
    return is_right(row, row->at[0].bytes[0]) ? row->at[0].bytes[0] : 0;
}

uint32_t row_number(const row *row, uint32_t field) { return (uint32_t)row->at[field].number; }
