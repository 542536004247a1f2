/* The wish to end: SIGINT, SIGTERM and SIGHUP are noted, so that the line is put back in order. */
#ifndef ENDING_H
#define ENDING_H

#include <signal.h>
#include <stdbool.h>

/* From here on the three signals come through only where `ending_mask` is in force. */
void ending_prepare(void);

/* The signal mask to wait under: a signal can then not fall between a look and a wait. */
const sigset_t *ending_mask(void);

/* Whether one of the signals has come. */
bool ending_asked(void);

#endif
