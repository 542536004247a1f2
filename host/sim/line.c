#include "line.h"

#include <errno.h>
#include <fcntl.h>
#include <poll.h>
#include <stdio.h>
#include <stdlib.h>
#include <string.h>
#include <sys/stat.h>
#include <time.h>
#include <unistd.h>

#include "ending.h"

/* A pseudo-terminal without a client reports a hang-up at every wait, so that one can only look
   again after a while whether a client has come. A client is not kept waiting noticeably. */
enum { CLIENT_LOOK_MS = 20 };

/* A line that takes no byte for this long has nobody who reads: the rest of the reply is lost, as
   it would be on a wire. */
enum { SEND_LIMIT_MS = 1000 };

static bool complain(const char *what, const char *name) {
    fprintf(stderr, "panel-sim: %s %s: %s\n", what, name, strerror(errno));
    return false;
}

/* Eight bits as they are, no parity, one stop bit, no modem lines: the link itself makes and checks
   the parity of the RKC line's structures. */
static bool set_raw(int file, speed_t speed) {
    struct termios settings;
    if (tcgetattr(file, &settings) != 0) {
        return false;
    }
    cfmakeraw(&settings);
    settings.c_cflag &= ~(tcflag_t)(CSTOPB | CRTSCTS);
    settings.c_cflag |= CLOCAL | CREAD;
    return cfsetspeed(&settings, speed) == 0 && tcsetattr(file, TCSANOW, &settings) == 0;
}

/* The clients' end is set raw before the first client comes, so that nothing is echoed. */
static bool prepare_clients_end(const struct line *line, speed_t speed) {
    int clients_end = open(line->name, O_RDWR | O_NOCTTY);
    if (clients_end < 0) {
        return false;
    }
    bool done = set_raw(clients_end, speed);
    close(clients_end);
    return done;
}

/* A link left over from an earlier run is replaced; anything else of that name is left alone. */
static bool make_link(struct line *line, const char *link) {
    struct stat there;
    if (lstat(link, &there) == 0 && S_ISLNK(there.st_mode)) {
        unlink(link);
    }
    if (symlink(line->name, link) != 0) {
        return false;
    }
    line->link = link;
    return true;
}

static bool open_pseudo(struct line *line, const struct options *options) {
    line->file = posix_openpt(O_RDWR | O_NOCTTY | O_NONBLOCK);
    if (line->file < 0 || grantpt(line->file) != 0 || unlockpt(line->file) != 0 ||
        ptsname_r(line->file, line->name, sizeof line->name) != 0 ||
        !prepare_clients_end(line, options->speed)) {
        return complain("cannot make", "a pseudo-terminal");
    }
    if (options->link != NULL && !make_link(line, options->link)) {
        return complain("cannot make the link", options->link);
    }
    return true;
}

static bool open_device(struct line *line, const struct options *options) {
    line->file = open(options->device, O_RDWR | O_NOCTTY | O_NONBLOCK);
    if (line->file < 0) {
        return complain("cannot open", options->device);
    }
    if (tcgetattr(line->file, &line->before) != 0 || !set_raw(line->file, options->speed)) {
        complain("cannot set up", options->device);
        close(line->file);
        line->file = -1;
        return false;
    }
    return true;
}

bool line_open(struct line *line, const struct options *options) {
    *line = (struct line){.file = -1, .pseudo = options->device == NULL};
    if (line->pseudo ? open_pseudo(line, options) : open_device(line, options)) {
        return true;
    }
    if (line->pseudo) {
        line_close(line);
    }
    return false;
}

/* Waits until the file is ready, and gives back for what: 0 when the time is over or a signal has
   come. Signals come through only here. */
static short wait_for(int file, short events, int limit_ms) {
    struct pollfd waited = {.fd = file, .events = events};
    struct timespec limit = {.tv_sec = limit_ms / 1000, .tv_nsec = limit_ms % 1000 * 1000000L};
    if (ending_asked()) {
        return 0;
    }
    int ready = ppoll(&waited, 1, limit_ms < 0 ? NULL : &limit, ending_mask());
    return ready > 0 ? waited.revents : 0;
}

/* The last client has closed the pseudo-terminal. Replies that it did not read are dropped once,
   or the next client would take them for its own. */
static void wait_for_client(struct line *line, int limit_ms) {
    if (!line->abandoned) {
        int clients_end = open(line->name, O_RDWR | O_NOCTTY);
        if (clients_end >= 0) {
            tcflush(clients_end, TCIFLUSH);
            close(clients_end);
        }
        line->abandoned = true;
    }
    bool sooner = limit_ms >= 0 && limit_ms < CLIENT_LOOK_MS;
    wait_for(-1, 0, sooner ? limit_ms : CLIENT_LOOK_MS);
}

enum heard line_hear(struct line *line, uint8_t *bytes, size_t room, int limit_ms, size_t *count) {
    *count = 0;
    short ready = wait_for(line->file, POLLIN, limit_ms);
    if (ending_asked()) {
        return HEARD_END;
    }
    if (!(ready & POLLHUP)) {
        line->abandoned = false;
    }
    if (ready == 0) {
        return HEARD_SILENCE;
    }
    if (ready & POLLIN) {
        ssize_t got = read(line->file, bytes, room);
        if (got > 0 || (got < 0 && errno == EAGAIN)) {
            *count = got > 0 ? (size_t)got : 0;
            return HEARD_BYTES;
        }
    }
    if (!line->pseudo) {
        return HEARD_END;
    }
    wait_for_client(line, limit_ms);
    return ending_asked() ? HEARD_END : HEARD_SILENCE;
}

void line_send(const struct line *line, const uint8_t *bytes, size_t length) {
    while (length > 0) {
        short ready = wait_for(line->file, POLLOUT, SEND_LIMIT_MS);
        if (!(ready & POLLOUT) || (ready & POLLHUP)) {
            return;
        }
        ssize_t sent = write(line->file, bytes, length);
        if (sent < 0 && errno != EAGAIN) {
            return;
        }
        if (sent > 0) {
            bytes += sent;
            length -= (size_t)sent;
        }
    }
}

void line_close(struct line *line) {
    if (line->link != NULL) {
        unlink(line->link);
    }
    if (line->file < 0) {
        return;
    }
    if (!line->pseudo) {
        /* At once, not after the last byte has gone: a line that nobody reads would never end. */
        tcsetattr(line->file, TCSANOW, &line->before);
    }
    close(line->file);
    line->file = -1;
}
