#include "lines.h"

enum { CRC_BYTES = 2 };

static void put(struct line *line, char character) { line->bytes[line->n++] = (uint8_t)character; }

static void put_hex(struct line *line, uint8_t byte) {
    static const char digits[] = "0123456789ABCDEF";
    put(line, digits[byte / 16]);
    put(line, digits[byte % 16]);
}

struct line line_of(const uint8_t *frame, size_t n) {
    struct line line = {.n = 0};
    uint8_t lrc = 0;
    put(&line, ':');
    for (size_t i = 0; i + CRC_BYTES < n; i++) {
        put_hex(&line, frame[i]);
        lrc = (uint8_t)(lrc - frame[i]);
    }
    put_hex(&line, lrc);
    put(&line, '\r');
    put(&line, '\n');
    return line;
}
