/* The RKC line: each byte is a step of the link, and so is the idle call. */
#include "panel.h"

#include <time.h>

#include "show.h"
#include "vennebruis.h"

/* How long to listen before the idle call is made again: the three seconds after which a silent
   host loses the line are then met within a tenth of a second, with room for a busy machine. */
enum { IDLE_MS = 50 };

/* Bytes remembered for showing: the longest exchange is far shorter. */
enum { REQUEST_ROOM = 64 };

struct request {
    uint8_t bytes[REQUEST_ROOM];
    size_t length;
};

/* The millisecond count that goes round. */
static uint32_t milliseconds(void) {
    struct timespec time;
    clock_gettime(CLOCK_MONOTONIC, &time);
    return (uint32_t)((uint64_t)time.tv_sec * 1000 + (uint64_t)time.tv_nsec / 1000000);
}

/* Shows what was heard since the last time, with what came of it. */
static void show(struct request *request, unsigned number, struct bytes reply) {
    show_characters("request", (struct bytes){request->bytes, request->length});
    show_number(number);
    show_characters("reply", reply);
    request->length = 0;
}

/* Sends what a step replied, shows a step that did something, and lets the lamps follow. */
static void finish(struct panel *panel, const struct line *line, const struct options *options,
                   struct request *request, uint32_t result) {
    unsigned number = VB_NUMBER(result);
    size_t length = VB_LENGTH(result);
    line_send(line, panel->reply, length);
    if (options->show && (number != 0 || length > 0 || request->length == REQUEST_ROOM)) {
        show(request, number, (struct bytes){panel->reply, length});
    }
    lamps_follow(&panel->lamps, panel->table, options->show);
}

static void take(struct panel *panel, const struct line *line, const struct options *options,
                 struct request *request, uint8_t byte) {
    uint32_t result =
        vb_byte(panel->state, VB_STATE_BYTES, panel->table, VB_TABLE_ENTRIES, panel->reply,
                VB_REPLY_BYTES, options->address, options->structure, milliseconds(), byte);
    if (options->show) {
        request->bytes[request->length] = byte;
        request->length += 1;
    }
    finish(panel, line, options, request, result);
}

static void idle(struct panel *panel, const struct line *line, const struct options *options,
                 struct request *request) {
    uint32_t result = vb_idle(panel->state, VB_STATE_BYTES, panel->reply, VB_REPLY_BYTES,
                              options->structure, milliseconds());
    finish(panel, line, options, request, result);
}

void serve_rkc(struct panel *panel, struct line *line, const struct options *options) {
    struct request request = {.length = 0};
    for (;;) {
        uint8_t bytes[REQUEST_ROOM];
        size_t count;
        enum heard heard = line_hear(line, bytes, sizeof bytes, IDLE_MS, &count);
        if (heard == HEARD_END) {
            return;
        }
        for (size_t i = 0; i < count; i++) {
            take(panel, line, options, &request, bytes[i]);
        }
        if (heard == HEARD_SILENCE && request.length > 0) {
            show(&request, 0, (struct bytes){NULL, 0});
        }
        idle(panel, line, options, &request);
    }
}
