/* Plays the panel on a pseudo-terminal or a serial device, over the library for firmware. */
#include <stdio.h>

#include "ending.h"
#include "line.h"
#include "options.h"
#include "panel.h"
#include "recording.h"
#include "vennebruis.h"

enum { STATUS_DONE = 0, STATUS_FAILED = 1, STATUS_BAD_USAGE = 2 };

/* Whether all went well until the line ended. */
static bool serve(struct line *line, const struct options *options, struct recording *recording) {
    struct panel panel = {.reply = {0}};
    vb_start_table(panel.table, VB_TABLE_ENTRIES);
    vb_start_link(panel.state, VB_STATE_BYTES);
    bool well = true;
    switch (options->speech) {
    case SPEECH_RTU:
        well = serve_rtu(&panel, line, options, recording);
        break;
    case SPEECH_ASCII:
        serve_ascii(&panel, line, options);
        break;
    case SPEECH_RKC:
        serve_rkc(&panel, line, options);
        break;
    }
    return well;
}

/* On a line that is open. The capture comes after it, so that an older one of the same name is not
   lost where there is no line. */
static bool play(struct line *line, const struct options *options) {
    struct recording recording;
    if (!recording_start(&recording, options->record)) {
        return false;
    }
    /* Whoever started it can go ahead from here. */
    puts(line->pseudo ? line->name : options->device);
    fflush(stdout);
    bool well = serve(line, options, &recording);
    recording_close(&recording);
    return well;
}

int main(int argc, char **argv) {
    struct options options;
    struct line line;
    switch (options_read(&options, argc, argv)) {
    case VERDICT_HELP:
        return STATUS_DONE;
    case VERDICT_BAD:
        return STATUS_BAD_USAGE;
    case VERDICT_START:
        break;
    }
    ending_prepare();
    if (!line_open(&line, &options)) {
        return STATUS_FAILED;
    }
    bool well = play(&line, &options);
    line_close(&line);
    return well ? STATUS_DONE : STATUS_FAILED;
}
