/* The two lamps on the panel, one for each alarm. */
#ifndef LAMPS_H
#define LAMPS_H

#include <stdbool.h>
#include <stdint.h>

/* Each is 1 where it is on, else 0. */
struct lamps {
    int32_t alarm_1;
    int32_t alarm_2;
};

/* The lamp routine: turns them on and off as the entries of AA and AB say. It reads nothing else of
   the table, and makes no call. Where one of them changes, both are shown if that is asked for. */
void lamps_follow(struct lamps *lamps, const int32_t *table, bool show);

#endif
