/* Makes calls of the library for a program that can't link it: requests come on standard input,
 * and what each call gave and left goes to standard output. It knows nothing of what is right.
 *
 * A batch is the number of its bytes (four of them, low byte first) and that many bytes of
 * requests. A request is a struct request with the bytes of its four lent arrays behind it. Its
 * answer is the result, four bytes, and the four arrays as the call left them, each with a guard
 * before and behind it. A batch is answered once all of it is done. */
#include <stddef.h>

#include "vennebruis.h"

/* Of the C library. Declared here, since a cross compiler may come without its headers. */
long read(int file, void *to, size_t n);
long write(int file, const void *from, size_t n);
void *memcpy(void *to, const void *from, size_t n);
void *memset(void *to, int byte, size_t n);

/* The longest arrays are a capture that is too long, and a line with as much before it. */
enum { GUARD = 8, GUARD_BYTE = 0xC3, ARRAY_MOST = VB_CAPTURE_BYTES + 1024, BATCH_MOST = 1 << 20 };

enum function {
    START_TABLE,
    START_LINK,
    BYTE,
    IDLE,
    RTU,
    PUT,
    READ_TEXT,
    WRITE_TEXT,
    PLAYBACK,
    SHOW,
    LAST_WRITE,
    ASCII
};

/* The lent arrays. The table's place also holds the value that a reading of text sets, the place
 * and the length that a showing sets, or the value and the records that a last write sets; the
 * input is a frame, number text, a capture or a line. */
enum array { STATE, TABLE, REPLY, INPUT, ARRAYS };

/* What a function does not take means nothing. */
struct request {
    uint8_t function, address, structure, byte, decimals, unused[3];
    uint32_t now, item, frame;
    int32_t value;
    uint32_t length[ARRAYS]; /* in bytes */
};

static uint8_t batch[BATCH_MOST];
/* No request grows by more than one that lends nothing. */
static uint8_t answers[BATCH_MOST / sizeof(struct request) * (4 + ARRAYS * 2 * GUARD)];
static _Alignas(int32_t) uint8_t room[ARRAYS][GUARD + ARRAY_MOST + GUARD];

static uint32_t call(const struct request *r) {
    uint8_t *state = room[STATE] + GUARD, *reply = room[REPLY] + GUARD,
            *input = room[INPUT] + GUARD;
    int32_t *table = (int32_t *)(void *)(room[TABLE] + GUARD);
    uint64_t sn = r->length[STATE], tn = r->length[TABLE] / sizeof *table;
    uint64_t rn = r->length[REPLY], in = r->length[INPUT];

    switch (r->function) {
    case START_TABLE:
        return vb_start_table(table, tn);
    case START_LINK:
        return vb_start_link(state, sn);
    case BYTE:
        return vb_byte(state, sn, table, tn, reply, rn, r->address, r->structure, r->now, r->byte);
    case IDLE:
        return vb_idle(state, sn, reply, rn, r->structure, r->now);
    case RTU:
        return vb_rtu(table, tn, reply, rn, r->address, input, in);
    case PUT:
        return vb_put(table, tn, r->item, r->value);
    case READ_TEXT:
        return vb_read_text(r->decimals, input, in, table);
    case WRITE_TEXT:
        return vb_write_text(r->decimals, r->value, input, in);
    case PLAYBACK:
        return vb_playback(table, tn, r->address, input, in);
    case SHOW:
        return vb_show(input, in, r->frame, (uint32_t *)table, (uint32_t *)table + 1);
    case LAST_WRITE:
        return vb_last_write(input, in, r->address, r->item, table, (uint32_t *)table + 1);
    default:
        return vb_ascii(table, tn, reply, rn, r->address, input, in);
    }
}

/* Puts an array between its guards. */
static void lend(uint8_t *guarded, const uint8_t *from, size_t n) {
    memset(guarded, GUARD_BYTE, GUARD);
    memcpy(guarded + GUARD, from, n);
    memset(guarded + GUARD + n, GUARD_BYTE, GUARD);
}

/* Does the request at *from and writes its answer at *to; both move on. */
static void serve(const uint8_t **from, uint8_t **to) {
    struct request r;
    memcpy(&r, *from, sizeof r);
    *from += sizeof r;
    for (int i = 0; i < ARRAYS; i++) {
        lend(room[i], *from, r.length[i]);
        *from += r.length[i];
    }
    uint32_t result = call(&r);
    memcpy(*to, &result, sizeof result);
    *to += sizeof result;
    for (int i = 0; i < ARRAYS; i++) {
        size_t guarded = GUARD + r.length[i] + GUARD;
        memcpy(*to, room[i], guarded);
        *to += guarded;
    }
}

/* Reads n bytes: 0 where the input ends before. */
static int take(void *to, size_t n) {
    for (size_t at = 0; at < n;) {
        long got = read(0, (uint8_t *)to + at, n - at);
        if (got <= 0)
            return 0;
        at += (size_t)got;
    }
    return 1;
}

/* Writes n bytes: 0 where nobody takes them. */
static int give(const uint8_t *from, size_t n) {
    for (size_t at = 0; at < n;) {
        long given = write(1, from + at, n - at);
        if (given <= 0)
            return 0;
        at += (size_t)given;
    }
    return 1;
}

int main(void) {
    uint32_t n;
    while (take(&n, sizeof n) && take(batch, n)) {
        const uint8_t *from = batch;
        uint8_t *to = answers;
        while (from < batch + n)
            serve(&from, &to);
        if (!give(answers, (size_t)(to - answers)))
            return 1;
    }
    return 0;
}
