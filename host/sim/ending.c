#include "ending.h"

#include <stddef.h>

static volatile sig_atomic_t asked;
static sigset_t waiting_mask;

static void note(int signal_number) {
    (void)signal_number;
    asked = 1;
}

void ending_prepare(void) {
    static const int signals[] = {SIGINT, SIGTERM, SIGHUP};
    struct sigaction action = {.sa_handler = note};
    sigset_t blocked;
    sigemptyset(&action.sa_mask);
    sigemptyset(&blocked);
    for (size_t i = 0; i < sizeof signals / sizeof signals[0]; i++) {
        sigaction(signals[i], &action, NULL);
        sigaddset(&blocked, signals[i]);
    }
    sigprocmask(SIG_BLOCK, &blocked, &waiting_mask);
    /* A caller may have blocked them; waiting must let them through all the same. */
    for (size_t i = 0; i < sizeof signals / sizeof signals[0]; i++) {
        sigdelset(&waiting_mask, signals[i]);
    }
    /* A reader of the messages that goes away must not stop the panel. */
    signal(SIGPIPE, SIG_IGN);
}

const sigset_t *ending_mask(void) { return &waiting_mask; }

bool ending_asked(void) { return asked != 0; }
