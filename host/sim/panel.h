/* The panel that is played: what the library is lent, the lamps, and how it is spoken to. */
#ifndef PANEL_H
#define PANEL_H

#include <stdbool.h>
#include <stddef.h>
#include <stdint.h>

#include "lamps.h"
#include "line.h"
#include "options.h"
#include "recording.h"
#include "vennebruis.h"

struct panel {
    int32_t table[VB_TABLE_ENTRIES];
    uint8_t state[VB_STATE_BYTES];
    uint8_t reply[VB_REPLY_BYTES];
    struct lamps lamps; /* both off at the start, as the start table has them */
};

/* Answers until the line ends. False where a frame could not be recorded: it is not answered, nor
   is any after it. */
bool serve_rtu(struct panel *panel, struct line *line, const struct options *options,
               struct recording *recording);

/* Each answers until the line ends. */
void serve_ascii(struct panel *panel, struct line *line, const struct options *options);
void serve_rkc(struct panel *panel, struct line *line, const struct options *options);

#endif
