/* The Modbus RTU line: a frame is what stands between two silences. */
#include "panel.h"

#include <string.h>

#include "modbus.h"
#include "show.h"
#include "vennebruis.h"

/* One byte more than the longest frame, so that a longer one is still seen to be too long. */
enum { FRAME_ROOM = 257 };

static const struct mode rtu = {.call = vb_rtu, .show = show_frame};

struct frame {
    uint8_t bytes[FRAME_ROOM];
    size_t length;
};

/* Adds bytes to the frame as far as there is room; what comes after that is not looked at. */
static void add(struct frame *frame, const uint8_t *bytes, size_t count) {
    size_t room = FRAME_ROOM - frame->length;
    size_t taken = count < room ? count : room;
    memcpy(frame->bytes + frame->length, bytes, taken);
    frame->length += taken;
}

bool serve_rtu(struct panel *panel, struct line *line, const struct options *options,
               struct recording *recording) {
    struct frame frame = {.length = 0};
    for (;;) {
        uint8_t bytes[FRAME_ROOM];
        size_t count;
        int limit = frame.length == 0 ? NO_LIMIT : options->silence_ms;
        switch (line_hear(line, bytes, sizeof bytes, limit, &count)) {
        case HEARD_BYTES:
            add(&frame, bytes, count);
            break;
        case HEARD_SILENCE:
            if (frame.length > 0) {
                /* Before the answer: what a host was told is then in the capture. */
                if (!recording_frame(recording, frame.bytes, frame.length)) {
                    return false;
                }
                modbus_answer(&rtu, panel, line, options,
                              (struct bytes){frame.bytes, frame.length});
                frame.length = 0;
            }
            break;
        case HEARD_END:
            return true;
        }
    }
}
