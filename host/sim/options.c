#include "options.h"

#include <errno.h>
#include <getopt.h>
#include <stdarg.h>
#include <stdio.h>
#include <stdlib.h>
#include <string.h>

static const char help[] =
    "panel-sim: plays the panel indicator on a line\n"
    "\n"
    "usage: panel-sim rtu|ascii|rkc [DEVICE] [options]\n"
    "\n"
    "  rtu             answers Modbus RTU frames\n"
    "  ascii           answers Modbus ASCII lines, however slowly they come\n"
    "  rkc             answers RKC polling and selecting\n"
    "  DEVICE          a serial device, used with 8 data bits, no parity, one stop bit;\n"
    "                  without it a new pseudo-terminal\n"
    "\n"
    "  --address N     the panel's address: 1 to 99, on the RKC line 0 to 99 (1)\n"
    "  --structure S   RKC line structure: 0 eight bits, 1 even parity, 2 odd parity (0)\n"
    "  --baud B        the line's speed: 1200 to 115200 (9600)\n"
    "  --silence MS    what ends an RTU frame: 1 to 1000 ms (3.5 characters, and 5 ms at least);\n"
    "                  an adapter that hands bytes over late needs more\n"
    "  --record FILE   records the RTU frames as a capture for panel-playback, in place of what\n"
    "                  FILE holds; it ends with a message when 65536 bytes have no more room\n"
    "  --link PATH     a symbolic link to the pseudo-terminal, removed at the end\n"
    "  -v, --verbose   shows each request, its number and the reply on standard error, and both\n"
    "                  lamps when one changes\n"
    "  -h, --help      this text\n"
    "\n"
    "The name of the device or pseudo-terminal is printed when it is ready.\n"
    "It goes on until SIGINT, SIGTERM or SIGHUP comes or the device goes away, with status 0.\n"
    "Status 1: the line could not be had, or the capture could not be written.\n"
    "Status 2: a bad command line.\n";

/* Silence that ends an RTU frame: 3.5 characters of 11 bits, as the Modbus standard counts them. */
enum { SILENCE_HALF_CHARACTERS = 7, CHARACTER_BITS = 11 };

/* From 9600 baud up that is under the time in which the system may hand over a client's one frame
   in two lots, so silence is never taken to be shorter than this. */
enum { SILENCE_FLOOR_MS = 5, SILENCE_CEILING_MS = 1000 };

enum { DEFAULT_ADDRESS = 1, DEFAULT_BAUD = 9600, HIGHEST_ADDRESS = 99, HIGHEST_STRUCTURE = 2 };

static const struct speed_row {
    long baud;
    speed_t speed;
} speeds[] = {
    {1200, B1200},   {2400, B2400},   {4800, B4800},   {9600, B9600},
    {19200, B19200}, {38400, B38400}, {57600, B57600}, {115200, B115200},
};

/* What was given, before the parts are held against each other. -1: not given. */
struct given {
    long address;
    long structure;
    long baud;
    long silence;
};

static enum verdict refuse(const char *format, ...) {
    va_list rest;
    va_start(rest, format);
    fputs("panel-sim: ", stderr);
    vfprintf(stderr, format, rest);
    fputs("\n", stderr);
    va_end(rest);
    return VERDICT_BAD;
}

static bool whole_number(const char *text, long *number) {
    char *end;
    errno = 0;
    *number = strtol(text, &end, 10);
    return errno == 0 && end != text && *end == '\0' && *number >= 0;
}

static long silence_of(long baud) {
    long span = 1000L * SILENCE_HALF_CHARACTERS * CHARACTER_BITS;
    long silence = (span + 2 * baud - 1) / (2 * baud);
    return silence < SILENCE_FLOOR_MS ? SILENCE_FLOOR_MS : silence;
}

static bool find_speed(long baud, speed_t *speed) {
    for (size_t i = 0; i < sizeof speeds / sizeof speeds[0]; i++) {
        if (speeds[i].baud == baud) {
            *speed = speeds[i].speed;
            return true;
        }
    }
    return false;
}

/* The panel's part: address and structure, within the limits of its line. */
static enum verdict settle_panel(struct options *options, const struct given *given) {
    bool rkc = options->speech == SPEECH_RKC;
    long address = given->address < 0 ? DEFAULT_ADDRESS : given->address;
    if (address > HIGHEST_ADDRESS || (address == 0 && !rkc)) {
        return refuse("the address is %d to %d, not %ld", rkc ? 0 : 1, HIGHEST_ADDRESS, address);
    }
    if (given->structure >= 0 && !rkc) {
        return refuse("--structure belongs to rkc");
    }
    if (given->structure > HIGHEST_STRUCTURE) {
        return refuse("the structure is 0, 1 or 2, not %ld", given->structure);
    }
    options->address = (uint8_t)address;
    options->structure = given->structure < 0 ? 0 : (uint8_t)given->structure;
    return VERDICT_START;
}

/* The line's part: speed, silence, record and link. */
static enum verdict settle_line(struct options *options, const struct given *given) {
    long baud = given->baud < 0 ? DEFAULT_BAUD : given->baud;
    if (!find_speed(baud, &options->speed)) {
        return refuse("the speed %ld is not one of 1200, 2400, 4800 and so on to 115200", baud);
    }
    if (given->silence >= 0 && options->speech != SPEECH_RTU) {
        return refuse("--silence belongs to rtu");
    }
    if (options->record != NULL && options->speech != SPEECH_RTU) {
        return refuse("--record belongs to rtu");
    }
    long silence = given->silence < 0 ? silence_of(baud) : given->silence;
    if (silence < 1 || silence > SILENCE_CEILING_MS) {
        return refuse("the silence is 1 to %d ms, not %ld", SILENCE_CEILING_MS, silence);
    }
    if (options->link != NULL && options->device != NULL) {
        return refuse("--link belongs to a pseudo-terminal, and a device was given");
    }
    options->silence_ms = (int)silence;
    return VERDICT_START;
}

/* The words that are no options: the speech, then perhaps a device. */
static enum verdict read_words(struct options *options, int count, char **words) {
    if (count == 0) {
        return refuse("say rtu, ascii or rkc");
    }
    if (count > 2) {
        return refuse("'%s' is one word too many", words[2]);
    }
    if (strcmp(words[0], "rtu") == 0) {
        options->speech = SPEECH_RTU;
    } else if (strcmp(words[0], "ascii") == 0) {
        options->speech = SPEECH_ASCII;
    } else if (strcmp(words[0], "rkc") == 0) {
        options->speech = SPEECH_RKC;
    } else {
        return refuse("say rtu, ascii or rkc, not '%s'", words[0]);
    }
    options->device = count == 2 ? words[1] : NULL;
    return VERDICT_START;
}

static const struct option names[] = {
    {"address", required_argument, NULL, 'a'},
    {"structure", required_argument, NULL, 's'},
    {"baud", required_argument, NULL, 'b'},
    {"silence", required_argument, NULL, 'i'},
    {"record", required_argument, NULL, 'r'},
    {"link", required_argument, NULL, 'l'},
    {"verbose", no_argument, NULL, 'v'},
    {"help", no_argument, NULL, 'h'},
    {NULL, 0, NULL, 0},
};

/* The place of an option that takes a number, or NULL. */
static long *number_place(struct given *given, int letter) {
    switch (letter) {
    case 'a':
        return &given->address;
    case 's':
        return &given->structure;
    case 'b':
        return &given->baud;
    case 'i':
        return &given->silence;
    default:
        return NULL;
    }
}

/* One option. getopt_long has already said what is wrong with one that it doesn't know. */
static enum verdict read_option(struct options *options, struct given *given, int letter) {
    long *place = number_place(given, letter);
    if (place != NULL) {
        return whole_number(optarg, place) ? VERDICT_START
                                           : refuse("'%s' is not a whole number", optarg);
    }
    switch (letter) {
    case 'r':
        options->record = optarg;
        return VERDICT_START;
    case 'l':
        options->link = optarg;
        return VERDICT_START;
    case 'v':
        options->show = true;
        return VERDICT_START;
    case 'h':
        fputs(help, stdout);
        return VERDICT_HELP;
    default:
        return VERDICT_BAD;
    }
}

/* The whole command line, up to the first fault. */
static enum verdict read_all(struct options *options, int argc, char **argv) {
    struct given given = {-1, -1, -1, -1};
    enum verdict verdict = VERDICT_START;
    int letter;
    while (verdict == VERDICT_START &&
           (letter = getopt_long(argc, argv, "vh", names, NULL)) != -1) {
        verdict = read_option(options, &given, letter);
    }
    if (verdict == VERDICT_START) {
        verdict = read_words(options, argc - optind, argv + optind);
    }
    if (verdict == VERDICT_START) {
        verdict = settle_panel(options, &given);
    }
    if (verdict == VERDICT_START) {
        verdict = settle_line(options, &given);
    }
    return verdict;
}

enum verdict options_read(struct options *options, int argc, char **argv) {
    *options = (struct options){0};
    enum verdict verdict = read_all(options, argc, argv);
    if (verdict == VERDICT_BAD) {
        fputs("panel-sim --help shows the usage\n", stderr);
    }
    return verdict;
}
