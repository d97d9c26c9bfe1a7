/* Something that is done again and again in the middle of whatever else runs. */
#ifndef INTERRUPT_H
#define INTERRUPT_H

/* From now on it is done many times in a second. */
void interrupt_start(void (*then)(void));

/* It is done no more. */
void interrupt_stop(void);

#endif
