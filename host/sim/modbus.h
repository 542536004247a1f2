/* A Modbus message that has come whole. */
#ifndef MODBUS_H
#define MODBUS_H

#include <stdint.h>
#include <stdio.h>

#include "line.h"
#include "options.h"
#include "panel.h"
#include "show.h"

/* What sets one mode apart from the other: the call that takes a message, and how one is shown. */
struct mode {
    uint32_t (*call)(int32_t *table, uint64_t tn, uint8_t *reply, uint64_t rn, uint8_t address,
                     const uint8_t *message, uint64_t n);
    void (*show)(FILE *to, const char *title, struct bytes bytes);
};

/* Hands a message to the panel, sends the reply, shows them where that is asked for, and lets the
   lamps follow. */
void modbus_answer(const struct mode *mode, struct panel *panel, const struct line *line,
                   const struct options *options, struct bytes message);

#endif
