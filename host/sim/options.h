/* What the command line asks for. */
#ifndef OPTIONS_H
#define OPTIONS_H

#include <stdbool.h>
#include <stdint.h>
#include <termios.h>

enum speech { SPEECH_RTU, SPEECH_ASCII, SPEECH_RKC };

struct options {
    enum speech speech;
    const char *device; /* NULL: a new pseudo-terminal */
    const char *link;   /* NULL: no link to the pseudo-terminal */
    const char *record; /* NULL: no capture is recorded */
    uint8_t address;
    uint8_t structure;
    speed_t speed;
    int silence_ms; /* that ends an RTU frame */
    bool show;
};

/* What to do with a command line: start, or leave with a status after what was said. */
enum verdict { VERDICT_START, VERDICT_HELP, VERDICT_BAD };

enum verdict options_read(struct options *options, int argc, char **argv);

#endif
