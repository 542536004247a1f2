#include "recording.h"

#include <errno.h>
#include <fcntl.h>
#include <stdio.h>
#include <string.h>
#include <unistd.h>

#include "vennebruis.h"

/* A record is the bytes of a frame and then their number. The trailer behind all records is their
   number, and where the last one begins. */
enum { LONGEST_FRAME = 256, LENGTH_BYTES = 2, COUNT_BYTES = 2, PLACE_BYTES = 4 };
enum { TRAILER_BYTES = COUNT_BYTES + PLACE_BYTES };

static bool complain(const struct recording *recording, const char *why) {
    fprintf(stderr, "panel-sim: cannot write %s: %s\n", recording->name, why);
    return false;
}

/* Puts a number, its high byte first, and gives back the place behind it. */
static uint8_t *put(uint8_t *place, size_t bytes, size_t number) {
    for (size_t i = bytes; i > 0; i--) {
        place[i - 1] = (uint8_t)number;
        number >>= 8;
    }
    return place + bytes;
}

static void put_trailer(uint8_t *place, const struct recording *recording) {
    put(put(place, COUNT_BYTES, recording->count), PLACE_BYTES, recording->last);
}

/* In one go, so that no other moment lies between old and new. A part of it is a failure too: the
   rest would have no room either. */
static bool write_at(const struct recording *recording, size_t place, const uint8_t *bytes,
                     size_t n) {
    ssize_t done = pwrite(recording->file, bytes, n, (off_t)place);
    if (done == (ssize_t)n) {
        return true;
    }
    return complain(recording, done < 0 ? strerror(errno) : "no room is left");
}

static bool write_trailer(const struct recording *recording) {
    uint8_t trailer[TRAILER_BYTES];
    put_trailer(trailer, recording);
    return write_at(recording, recording->end, trailer, sizeof trailer);
}

/* What was written of a frame goes again: the old trailer in its place, and nothing behind it. */
static void take_back(const struct recording *recording) {
    if (!write_trailer(recording) ||
        ftruncate(recording->file, (off_t)(recording->end + TRAILER_BYTES)) != 0) {
        complain(recording, "a part of the last frame could not be taken back");
    }
}

bool recording_start(struct recording *recording, const char *name) {
    *recording = (struct recording){.name = name, .file = -1};
    if (name == NULL) {
        return true;
    }
    /* A pipe that nobody reads is refused at once, and not waited for. */
    recording->file = open(name, O_WRONLY | O_CREAT | O_TRUNC | O_NONBLOCK, 0666);
    if (recording->file < 0) {
        return complain(recording, strerror(errno));
    }
    if (!write_trailer(recording)) {
        recording_close(recording);
        return false;
    }
    return true;
}

/* A later frame might be short enough to fit, but playback must have no gap: nothing follows. */
static void end_full(struct recording *recording) {
    fprintf(stderr, "panel-sim: %s is full, recording ends after frame %zu\n", recording->name,
            recording->count);
    recording_close(recording);
}

bool recording_frame(struct recording *recording, const uint8_t *frame, size_t length) {
    /* A frame that is too long for a record is too long for the panel, too, and changes nothing. */
    if (recording->file < 0 || length > LONGEST_FRAME) {
        return true;
    }
    struct recording next = *recording;
    next.count += 1;
    next.last = recording->end;
    next.end = recording->end + length + LENGTH_BYTES;
    if (next.end + TRAILER_BYTES > VB_CAPTURE_BYTES) {
        end_full(recording);
        return true;
    }
    uint8_t bytes[LONGEST_FRAME + LENGTH_BYTES + TRAILER_BYTES];
    memcpy(bytes, frame, length);
    put_trailer(put(bytes + length, LENGTH_BYTES, length), &next);
    if (!write_at(recording, recording->end, bytes, length + LENGTH_BYTES + TRAILER_BYTES)) {
        take_back(recording);
        return false;
    }
    *recording = next;
    return true;
}

void recording_close(struct recording *recording) {
    if (recording->file >= 0) {
        close(recording->file);
        recording->file = -1;
    }
}
