#include "lamps.h"

#include "show.h"
#include "vennebruis.h"

void lamps_follow(struct lamps *lamps, const int32_t *table, bool show) {
    struct lamps now = {.alarm_1 = table[VB_AA - 1], .alarm_2 = table[VB_AB - 1]};
    bool changed = now.alarm_1 != lamps->alarm_1 || now.alarm_2 != lamps->alarm_2;
    *lamps = now;
    if (changed && show) {
        show_lamps(now.alarm_1, now.alarm_2);
    }
}
