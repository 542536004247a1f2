#include "show.h"

#include <ctype.h>

struct row {
    unsigned number;
    const char *words;
};

static const struct row meanings[] = {
    {0, "no fault"},
    {1, "table not thirteen entries long"},
    {2, "table entry outside its range, or an alarm state that is not true"},
    {3, "reply buffer under 256 bytes"},
    {4, "address or structure outside its limits"},
    {5, "link state outside its limits"},
    {11, "line error in the block"},
    {12, "wrong BCC"},
    {13, "block of under two characters"},
    {14, "block for an unknown identifier"},
    {15, "over six data characters"},
    {16, "no number"},
    {17, "item is read-only"},
    {18, "value out of range"},
    {21, "frame too short or too long"},
    {22, "wrong CRC"},
    {23, "for another address"},
    {24, "wrong line, no colon, no CR LF, another character or length not allowed"},
    {25, "wrong LRC"},
    {31, "exception 1, unknown function"},
    {32, "exception 2, no such register, or not to be written"},
    {33, "exception 3, value, quantity, byte count, test code or length not allowed"},
    {41, "character that does not belong in a poll"},
    {42, "poll of an unknown identifier"},
    {43, "after a reply neither ACK, NAK, EOT nor the start of another poll"},
    {44, "host silent for three seconds"},
    {45, "end of the item list"},
    {46, "value does not fit six characters"},
    {51, "capture too short, too long or not well formed"},
    {52, "no frame of this number in the capture"},
};

static const struct row controls[] = {
    {0x02, "STX"}, {0x03, "ETX"}, {0x04, "EOT"}, {0x05, "ENQ"},
    {0x06, "ACK"}, {0x0A, "LF"},  {0x0D, "CR"},  {0x15, "NAK"},
};

static const char *find(const struct row *rows, size_t count, unsigned number) {
    for (size_t i = 0; i < count; i++) {
        if (rows[i].number == number) {
            return rows[i].words;
        }
    }
    return NULL;
}

static void show_title(FILE *to, const char *title, struct bytes bytes) {
    fprintf(to, "%-7s%s", title, bytes.length == 0 ? " none" : "");
}

static void show_hex(FILE *to, const char *title, struct bytes bytes) {
    show_title(to, title, bytes);
    for (size_t i = 0; i < bytes.length; i++) {
        fprintf(to, " %02X", bytes.first[i]);
    }
}

void show_frame(FILE *to, const char *title, struct bytes bytes) {
    show_hex(to, title, bytes);
    fputs("\n", to);
}

static void show_character(FILE *to, unsigned character) {
    const char *name = find(controls, sizeof controls / sizeof controls[0], character);
    if (name != NULL) {
        fprintf(to, "<%s>", name);
    } else {
        fputc(isprint((int)character) ? (int)character : '.', to);
    }
}

/* Bytes as characters, of each the bits in the mask, behind a gap where there are any. */
static void show_text(FILE *to, const char *gap, struct bytes bytes, unsigned mask) {
    fputs(bytes.length == 0 ? "" : gap, to);
    for (size_t i = 0; i < bytes.length; i++) {
        show_character(to, bytes.first[i] & mask);
    }
    fputs("\n", to);
}

void show_line(FILE *to, const char *title, struct bytes bytes) {
    show_title(to, title, bytes);
    show_text(to, " ", bytes, 0xFFu);
}

void show_characters(const char *title, struct bytes bytes) {
    show_hex(stderr, title, bytes);
    show_text(stderr, "  ", bytes, 0x7Fu);
}

void show_number(unsigned number) {
    const char *words = find(meanings, sizeof meanings / sizeof meanings[0], number);
    fprintf(stderr, "number  %u, %s\n", number, words != NULL ? words : "not in the list");
}

void show_lamps(int32_t alarm_1, int32_t alarm_2) {
    fprintf(stderr, "lamps   AA %d, AB %d\n", alarm_1, alarm_2);
}
