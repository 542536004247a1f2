/* Captures of RTU frames for the calls that are measured, made here frame by frame. */
#ifndef CAPTURES_H
#define CAPTURES_H

#include <stddef.h>
#include <stdint.h>

#include "vennebruis.h"

struct capture {
    uint8_t bytes[VB_CAPTURE_BYTES];
    size_t n;      /* bytes so far */
    size_t frames; /* frames so far */
    size_t last;   /* where the last frame begins */
};

/* Adds a frame, 1 to 256 bytes long, with its length. There has to be room for it. */
void capture_add(struct capture *capture, const uint8_t *frame, size_t n);

/* Adds the trailer, which ends the capture. */
void capture_end(struct capture *capture);

#endif
