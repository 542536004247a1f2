/* The Modbus ASCII line: a colon starts a line and LF ends it, and gaps between its bytes mean
   nothing. */
#include "panel.h"

#include "modbus.h"
#include "show.h"
#include "vennebruis.h"

/* The longest line, and one byte more in it: that is still handed in whole. */
enum { LINE_ROOM = VB_LINE_BYTES + 2 };

static const struct mode ascii = {.call = vb_ascii, .show = show_line};

/* What has come since the last colon, or since the last line where none has come. */
struct text {
    uint8_t bytes[LINE_ROOM];
    size_t length;
};

/* Adds a byte as far as there is room. A line that is longer loses its LF too, and is refused for
   want of it. */
static void add(struct text *text, uint8_t byte) {
    if (byte == ':') {
        text->length = 0;
    }
    if (text->length < LINE_ROOM) {
        text->bytes[text->length] = byte;
        text->length += 1;
    }
}

void serve_ascii(struct panel *panel, struct line *line, const struct options *options) {
    struct text text = {.length = 0};
    uint8_t bytes[LINE_ROOM];
    size_t count;
    while (line_hear(line, bytes, sizeof bytes, NO_LIMIT, &count) != HEARD_END) {
        for (size_t i = 0; i < count; i++) {
            add(&text, bytes[i]);
            if (bytes[i] == '\n') {
                modbus_answer(&ascii, panel, line, options,
                              (struct bytes){text.bytes, text.length});
                text.length = 0;
            }
        }
    }
}
