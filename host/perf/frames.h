/* The Modbus requests that are measured. Every implementation is given the same ones, holds the
 * same values, and so has to give the same replies. */
#ifndef FRAMES_H
#define FRAMES_H

#include <stddef.h>
#include <stdint.h>

enum { ADDRESS = 1, SHORT = 8, LONG = 256 };

struct request {
    const char *name;
    size_t n;
    uint8_t bytes[LONG];
};

/* Those of the alarm set A1 to 123.5, just above M1. The damaged ones have a wrong CRC: what the
 * longer one takes more than the shorter one is the CRC of 248 bytes. The one of one byte is for
 * captures, of which it makes the most frames. */
static struct request requests[] = {
    {"read", SHORT, {ADDRESS, 0x03, 0x00, 0x00, 0x00, 0x14, 0x45, 0xC5}},  /* all 20 registers */
    {"write", SHORT, {ADDRESS, 0x06, 0x00, 0x10, 0xFF, 0x6A, 0x49, 0xD0}}, /* PB to -1.50 */
    {"write-three", /* PB to -1.50, PR to 1.000 and F1 to 100 */
     9 + 6,
     {ADDRESS, 0x10, 0x00, 0x10, 0x00, 0x03, 0x06, 0xFF, 0x6A, 0x03, 0xE8, 0x00, 0x64, 0x6A, 0x88}},
    {"write-four", /* the same and XU to 2, the most that can be written together */
     9 + 8,
     {ADDRESS, 0x10, 0x00, 0x10, 0x00, 0x04, 0x08, 0xFF, 0x6A, 0x03, 0xE8, 0x00, 0x64, 0x00, 0x02,
      0x52, 0xBD}},
    {"write-alarm", SHORT, {ADDRESS, 0x06, 0x00, 0x0C, 0x04, 0xD3, 0x0A, 0x94}},
    {"write-alarm-10H",
     9 + 2,
     {ADDRESS, 0x10, 0x00, 0x0C, 0x00, 0x01, 0x02, 0x04, 0xD3, 0xE5, 0xC1}},
    {"loopback", SHORT, {ADDRESS, 0x08, 0x00, 0x00, 0x1F, 0x34, 0xE9, 0xEC}}, /* 004's example */
    {"damaged-short", SHORT, {ADDRESS}},
    {"damaged-long", LONG, {ADDRESS}},
    {"one-byte", 1, {ADDRESS}},
};

enum { REQUESTS = sizeof requests / sizeof requests[0] };

#endif
