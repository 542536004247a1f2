#include "captures.h"

/* A number in some bytes, the high one first. */
static void put(struct capture *capture, size_t number, size_t bytes) {
    for (size_t i = bytes; i > 0; i--)
        capture->bytes[capture->n++] = (uint8_t)(number >> (8 * (i - 1)));
}

void capture_add(struct capture *capture, const uint8_t *frame, size_t n) {
    capture->frames++;
    capture->last = capture->n;
    for (size_t i = 0; i < n; i++)
        capture->bytes[capture->n++] = frame[i];
    put(capture, n, 2);
}

void capture_end(struct capture *capture) {
    put(capture, capture->frames, 2);
    put(capture, capture->last, 4);
}
