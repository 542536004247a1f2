/* The line that the panel answers on: a pseudo-terminal of its own, or a serial device. */
#ifndef LINE_H
#define LINE_H

#include <stdbool.h>
#include <stddef.h>
#include <stdint.h>
#include <termios.h>

#include "options.h"

struct line {
    int file;       /* the pseudo-terminal's own end, or the device */
    bool pseudo;    /* whether it is a pseudo-terminal */
    bool abandoned; /* pseudo-terminal: no client has it open */
    char name[64];  /* pseudo-terminal: the clients' end */
    const char *link;
    struct termios before; /* device: its settings as they were found */
};

/* What listening brought. */
enum heard { HEARD_BYTES, HEARD_SILENCE, HEARD_END };

/* Opens the line asked for, and says on standard error why where it can't. */
bool line_open(struct line *line, const struct options *options);

/* In place of a time: as long as it takes. */
enum { NO_LIMIT = -1 };

/* Listens for bytes. With none in the time given it is silence, and so it is, perhaps sooner, while
   a pseudo-terminal has no client. The end is a signal, or a device that went away. */
enum heard line_hear(struct line *line, uint8_t *bytes, size_t room, int limit_ms, size_t *count);

/* Sends a reply, as far as there is somebody to take it. */
void line_send(const struct line *line, const uint8_t *bytes, size_t length);

/* Puts the device's settings back, removes the link and closes. */
void line_close(struct line *line);

#endif
