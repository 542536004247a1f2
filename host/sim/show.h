/* Traffic and the lamps, for someone who looks on. Where no file is named, they go to standard
   error. */
#ifndef SHOW_H
#define SHOW_H

#include <stddef.h>
#include <stdint.h>
#include <stdio.h>

/* Bytes of one direction. */
struct bytes {
    const uint8_t *first;
    size_t length;
};

/* Bytes in hex. */
void show_frame(FILE *to, const char *title, struct bytes bytes);

/* Bytes as characters, control characters by name. */
void show_line(FILE *to, const char *title, struct bytes bytes);

/* Bytes in hex and as such characters, without their top bit. */
void show_characters(const char *title, struct bytes bytes);

/* The number given back, in words too. */
void show_number(unsigned number);

/* Both lamps: 1 is on, 0 is off. */
void show_lamps(int32_t alarm_1, int32_t alarm_2);

#endif
