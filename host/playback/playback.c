/* Plays a capture of RTU frames back, over the library for firmware: shows the table that the panel
   ended with, the last write to an item, or one of the frames. */
#include <errno.h>
#include <getopt.h>
#include <stdbool.h>
#include <stdint.h>
#include <stdio.h>
#include <stdlib.h>
#include <string.h>

#include "show.h"
#include "vennebruis.h"

enum { STATUS_DONE = 0, STATUS_FAILED = 1, STATUS_BAD_USAGE = 2 };

enum { DEFAULT_ADDRESS = 1, HIGHEST_ADDRESS = 99 };

static const char help[] =
    "panel-playback: plays a capture of Modbus RTU frames back\n"
    "\n"
    "usage: panel-playback FILE [--address N]\n"
    "       panel-playback FILE --last ITEM [--address N]\n"
    "       panel-playback FILE --frame K\n"
    "\n"
    "  FILE          a capture, as panel-sim rtu --record makes one\n"
    "\n"
    "  --address N   the address of the panel that is played: 1 to 99 (1)\n"
    "  --last ITEM   shows the last write to an item, such as PB, in place of the table\n"
    "  --frame K     shows a frame in place of the table; 1 is the first\n"
    "  -h, --help    this text\n"
    "\n"
    "The table is the one that a panel ends with which begins at the start values and is handed\n"
    "the frames one at a time: a line for each item, with its identifier and the number stored,\n"
    "the point left out. A frame is shown as its place in the file, from 0, its length and bytes.\n"
    "The last write that the panel took is shown as its value and the number of records from it\n"
    "to the end of the file, itself included; what stands in front of it is not looked at. Where\n"
    "there is none, that is said, with the number of all records.\n"
    "Status 1: the file could not be read, or was refused, with the number and its meaning.\n"
    "Status 2: a bad command line.\n";

static const char *const identifiers[VB_TABLE_ENTRIES] = {
    "M1", "AA", "AB", "B1", "ER", "S1", "A1", "A2", "PB", "PR", "F1", "TM", "XU",
};

/* The file, up to one byte more than the longest capture has, so that a longer one is still seen to
   be too long. */
static struct {
    uint8_t bytes[VB_CAPTURE_BYTES + 1];
    size_t length;
} capture;

/* What the command line asks for. -1: not given. */
struct wish {
    const char *file;
    long address;
    long item;
    long frame;
};

/* What to do with a command line: start, or leave with a status after what was said. */
enum verdict { VERDICT_START, VERDICT_HELP, VERDICT_BAD };

static enum verdict refuse(const char *why) {
    fprintf(stderr, "panel-playback: %s\n", why);
    return VERDICT_BAD;
}

static bool whole_number(const char *text, long lowest, long highest, long *number) {
    char *end;
    errno = 0;
    *number = strtol(text, &end, 10);
    return errno == 0 && end != text && *end == '\0' && *number >= lowest && *number <= highest;
}

/* The number of the item with this identifier. */
static bool find_item(const char *identifier, long *item) {
    for (size_t i = 0; i < VB_TABLE_ENTRIES; i++) {
        if (strcmp(identifier, identifiers[i]) == 0) {
            *item = (long)i + 1;
            return true;
        }
    }
    return false;
}

/* One option. getopt_long has already said what is wrong with one that it doesn't know. */
static enum verdict read_option(struct wish *wish, int letter) {
    switch (letter) {
    case 'a':
        return whole_number(optarg, 1, HIGHEST_ADDRESS, &wish->address)
                   ? VERDICT_START
                   : refuse("the address is 1 to 99");
    case 'l':
        return find_item(optarg, &wish->item) ? VERDICT_START
                                              : refuse("no item has this identifier");
    case 'f':
        return whole_number(optarg, 0, UINT32_MAX, &wish->frame)
                   ? VERDICT_START
                   : refuse("the number of a frame is a whole number");
    case 'h':
        fputs(help, stdout);
        return VERDICT_HELP;
    default:
        return VERDICT_BAD;
    }
}

/* The whole command line, up to the first fault. */
static enum verdict read_all(struct wish *wish, int argc, char **argv) {
    static const struct option names[] = {
        {"address", required_argument, NULL, 'a'},
        {"last", required_argument, NULL, 'l'},
        {"frame", required_argument, NULL, 'f'},
        {"help", no_argument, NULL, 'h'},
        {NULL, 0, NULL, 0},
    };
    int letter;
    while ((letter = getopt_long(argc, argv, "h", names, NULL)) != -1) {
        enum verdict verdict = read_option(wish, letter);
        if (verdict != VERDICT_START) {
            return verdict;
        }
    }
    if (argc - optind != 1) {
        return refuse("name one file");
    }
    if (wish->frame >= 0 && (wish->address >= 0 || wish->item >= 0)) {
        return refuse("--frame goes with neither --address nor --last");
    }
    wish->file = argv[optind];
    return VERDICT_START;
}

static bool complain(const char *what, const char *name) {
    fprintf(stderr, "panel-playback: %s %s: %s\n", what, name, strerror(errno));
    return false;
}

static bool read_capture(const char *name) {
    FILE *file = fopen(name, "rb");
    if (file == NULL) {
        return complain("cannot open", name);
    }
    capture.length = fread(capture.bytes, 1, sizeof capture.bytes, file);
    bool whole = !ferror(file) || complain("cannot read", name);
    fclose(file);
    return whole;
}

static uint32_t show_table(uint8_t address) {
    int32_t table[VB_TABLE_ENTRIES];
    uint32_t number = vb_playback(table, VB_TABLE_ENTRIES, address, capture.bytes, capture.length);
    for (size_t i = 0; number == 0 && i < VB_TABLE_ENTRIES; i++) {
        printf("%s %d\n", identifiers[i], table[i]);
    }
    return number;
}

static uint32_t show_last(uint8_t address, uint32_t item) {
    int32_t value;
    uint32_t records;
    uint32_t result = vb_last_write(capture.bytes, capture.length, address, item, &value, &records);
    if (VB_NUMBER(result) != 0) {
        return VB_NUMBER(result);
    }
    if (VB_FOUND(result)) {
        printf("value   %d\n", value);
    } else {
        printf("never written\n");
    }
    printf("records %u\n", records);
    return 0;
}

static uint32_t show_part(uint32_t frame) {
    uint32_t place;
    uint32_t length;
    uint32_t number = vb_show(capture.bytes, capture.length, frame, &place, &length);
    if (number == 0) {
        printf("place   %u\nlength  %u\n", place, length);
        show_frame(stdout, "bytes", (struct bytes){capture.bytes + place, length});
    }
    return number;
}

/* Shows what is wished for, or gives the number of the refusal. */
static uint32_t show_wished(const struct wish *wish) {
    if (wish->frame >= 0) {
        return show_part((uint32_t)wish->frame);
    }
    uint8_t address = (uint8_t)(wish->address < 0 ? DEFAULT_ADDRESS : wish->address);
    return wish->item < 0 ? show_table(address) : show_last(address, (uint32_t)wish->item);
}

/* The same, with the meaning of a refusal. */
static bool show(const struct wish *wish) {
    uint32_t number = show_wished(wish);
    if (number != 0) {
        show_number(number);
        return false;
    }
    return fflush(stdout) == 0 || complain("cannot write to", "standard output");
}

int main(int argc, char **argv) {
    struct wish wish = {.address = -1, .item = -1, .frame = -1};
    switch (read_all(&wish, argc, argv)) {
    case VERDICT_HELP:
        return STATUS_DONE;
    case VERDICT_BAD:
        fputs("panel-playback --help shows the usage\n", stderr);
        return STATUS_BAD_USAGE;
    case VERDICT_START:
        break;
    }
    return read_capture(wish.file) && show(&wish) ? STATUS_DONE : STATUS_FAILED;
}
