/* The capture that is recorded: the frames that the panel is handed, those over 256 bytes apart. */
#ifndef RECORDING_H
#define RECORDING_H

#include <stdbool.h>
#include <stddef.h>
#include <stdint.h>

struct recording {
    const char *name;
    int file;     /* -1: nothing is recorded, or no more */
    size_t count; /* of frames */
    size_t last;  /* where the last frame's record begins */
    size_t end;   /* where the records end, and the trailer begins */
};

/* Makes the file an empty capture, whatever it was; with no name nothing is recorded. Says on
   standard error why where it can't. */
bool recording_start(struct recording *recording, const char *name);

/* Adds a frame. The file is a whole capture before and after, so that it may end at any moment.
   Where it has no more room the recording ends, which is said on standard error once. False, with
   the reason said, where the file can't be written: then it has all frames but this one, or a
   second message says that it could not be made so again. */
bool recording_frame(struct recording *recording, const uint8_t *frame, size_t length);

void recording_close(struct recording *recording);

#endif
