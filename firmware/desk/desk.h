/* What the files of the board on this machine call of each other. */
#ifndef NAKTHAWAENG_DESK_H
#define NAKTHAWAENG_DESK_H

#include <stdint.h>

void fail(const char *what); /* says why the system refused this, and ends */

const char *pty_start(void);   /* the name of the board's line */
void pty_rest(int64_t until);  /* waits for a byte until this time */
void time_start(uint32_t pace);
int64_t time_now(void);        /* in thousand-millionths of a second */
void pins_start(const char *pulses, const char *outputs);
void keep_start(const char *file);

#endif
