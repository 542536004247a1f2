#include "modbus.h"

#include "vennebruis.h"

void modbus_answer(const struct mode *mode, struct panel *panel, const struct line *line,
                   const struct options *options, struct bytes message) {
    uint32_t result = mode->call(panel->table, VB_TABLE_ENTRIES, panel->reply, VB_REPLY_BYTES,
                                 options->address, message.first, message.length);
    size_t length = VB_LENGTH(result);
    line_send(line, panel->reply, length);
    if (options->show) {
        mode->show(stderr, "request", message);
        show_number(VB_NUMBER(result));
        mode->show(stderr, "reply", (struct bytes){panel->reply, length});
    }
    lamps_follow(&panel->lamps, panel->table, options->show);
}
