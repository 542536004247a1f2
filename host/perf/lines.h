/* Lines of Modbus ASCII for the calls that are measured, made here of RTU frames. */
#ifndef LINES_H
#define LINES_H

#include <stddef.h>
#include <stdint.h>

#include "vennebruis.h"

struct line {
    uint8_t bytes[VB_LINE_BYTES];
    size_t n;
};

/* The message of a frame, at most 256 bytes long with its CRC, as a line. Without a CRC there is no
 * message: the line then has its LRC alone, and so is a wrong one. */
struct line line_of(const uint8_t *frame, size_t n);

#endif
