/* Makes the calls of one case through the C functions of the link, for their instructions to be
 * counted: link CASE, and behind it ascii for a request that is to go as a line, XU for a poll
 * where it is not to be at its start, or the capture for the case playback, show or last-write.
 * Whatever has these functions can be linked to it.
 *
 * M1 is 1234 before, put there by the link. A name that is no case makes no other call.
 *
 * It prints where the counted functions stand, for each call that gave something the number and the
 * reply, the table, the place and length or the last write, how many bytes it handed over, and how
 * many frames and bytes the capture has. */
#include "captures.h"
#include "frames.h"
#include "lines.h"
#include "vennebruis.h"

/* Of the C library. Declared here, since a cross compiler may come without its headers. */
int printf(const char *format, ...);
int strcmp(const char *a, const char *b);
size_t strlen(const char *s);

void ten_rounds_twice(void);

static int32_t table[VB_TABLE_ENTRIES];
static uint8_t link_state[VB_STATE_BYTES];
static uint8_t reply[VB_REPLY_BYTES];
static struct capture capture;
static unsigned handed_over;

/* One of the requests again and again. */
struct repeated {
    const char *request;
    size_t frames;
};

enum { PARTS = 2 };

/* The most frames that there is room for, half as many, and the most writes; then one write behind
 * other frames, in 100 bytes and in 65,536, and one in front of them and of half of them. */
static const struct {
    const char *name;
    struct repeated parts[PARTS];
} captures[] = {
    {"full", {{"one-byte", 21843}}},
    {"half", {{"one-byte", 10921}}},
    {"writes", {{"write", 6553}}},
    {"last-of-29", {{"one-byte", 28}, {"write", 1}}},
    {"last-of-21841", {{"one-byte", 21840}, {"write", 1}}},
    {"first-of-21841", {{"write", 1}, {"one-byte", 21840}}},
    {"first-of-10921", {{"write", 1}, {"one-byte", 10920}}},
};

enum { CAPTURES = sizeof captures / sizeof captures[0] };

static void show(uint32_t result) {
    if (result == 0)
        return;
    printf("gave %u:", (unsigned)VB_NUMBER(result));
    for (size_t i = 0; i < VB_LENGTH(result); i++)
        printf(" %02X", reply[i]);
    printf("\n");
}

static void show_table(uint32_t number) {
    printf("gave %u:", (unsigned)number);
    for (size_t i = 0; i < VB_TABLE_ENTRIES; i++)
        printf(" %d", (int)table[i]);
    printf("\n");
}

static void rtu(const struct request *request) {
    handed_over += (unsigned)request->n;
    show(vb_rtu(table, VB_TABLE_ENTRIES, reply, sizeof reply, ADDRESS, request->bytes, request->n));
}

static void ascii(const struct request *request) {
    struct line line = line_of(request->bytes, request->n);
    handed_over += (unsigned)line.n;
    show(vb_ascii(table, VB_TABLE_ENTRIES, reply, sizeof reply, ADDRESS, line.bytes, line.n));
}

static void byte(uint8_t received) {
    handed_over++;
    show(vb_byte(link_state, sizeof link_state, table, VB_TABLE_ENTRIES, reply, sizeof reply,
                 ADDRESS, VB_TOP_BIT_ZERO, 0, received));
}

static void bytes(const char *received) {
    for (size_t i = 0; i < strlen(received); i++)
        byte((uint8_t)received[i]);
}

static void call_address(void) {
    bytes("\x04"
          "01");
}

/* M1 alone is asked for. What the second case takes more than the first is ENQ, at which the item
 * is sent. */
static void begin_poll(void) {
    call_address();
    bytes("M1");
}

static void poll_measured(void) {
    begin_poll();
    bytes("\x05");
}

/* All items are asked for: the first one by its identifier, each next one by ACK, until EOT comes
 * back. */
static void poll(void) {
    poll_measured();
    bytes("\x06\x06\x06\x06\x06\x06\x06\x06\x06\x06\x06\x06\x06");
}

/* A block without its BCC. */
static void open_block(const char *text) {
    bytes("\x02");
    bytes(text);
    bytes("\x03");
}

static void end_block(const char *text) {
    uint8_t bcc = 0x03;
    for (size_t i = 0; i < strlen(text); i++)
        bcc ^= (uint8_t)text[i];
    byte(bcc);
}

/* Every item that can be written is written, block by block. */
static void select_items(void) {
    static const char *const texts[] = {"S10123.4", "A1-199.9", "A20999.9", "PB-01.50",
                                        "PR01.250", "F1000010", "TM000123", "XU000002"};
    call_address();
    for (size_t i = 0; i < sizeof texts / sizeof texts[0]; i++) {
        open_block(texts[i]);
        end_block(texts[i]);
    }
}

/* A1 is written as by the requests. What the second case takes more than the first is the BCC, at
 * which the value is stored. */
static const char alarm_text[] = "A10123.5";

static void begin_alarm(void) {
    call_address();
    open_block(alarm_text);
}

static void alarm_block(void) {
    begin_alarm();
    end_block(alarm_text);
}

static void put(uint32_t item, int32_t value) {
    show_table(vb_put(table, VB_TABLE_ENTRIES, item, value));
}

/* XU as the word behind the case says, if it is one of its values. */
static void put_point(const char *word) {
    if (word[0] >= '0' && word[0] <= '3')
        vb_put(table, VB_TABLE_ENTRIES, VB_XU, word[0] - '0');
}

/* Below A1 and A2, which M1 has reached before. */
static void put_measured(void) { put(VB_M1, 499); }

static void put_code(void) { put(VB_ER, 255); }

/* Refused for the item (6), behind the table check. */
static void put_nothing(void) { put(0, 0); }

static const struct request *request_of(const char *name) {
    for (size_t i = 0; i < REQUESTS; i++)
        if (strcmp(name, requests[i].name) == 0)
            return &requests[i];
    return NULL;
}

static void repeat(const struct repeated *part) {
    if (part->frames == 0)
        return; /* a capture of one part: the second names no request */
    const struct request *request = request_of(part->request);
    for (size_t i = 0; i < part->frames; i++)
        capture_add(&capture, request->bytes, request->n);
}

static void make_capture(const char *name) {
    for (size_t i = 0; i < CAPTURES; i++)
        if (strcmp(name, captures[i].name) == 0)
            for (size_t part = 0; part < PARTS; part++)
                repeat(&captures[i].parts[part]);
    capture_end(&capture);
}

static void playback(void) {
    show_table(vb_playback(table, VB_TABLE_ENTRIES, ADDRESS, capture.bytes, capture.n));
}

static void show_first(void) {
    uint32_t place, length;
    uint32_t number = vb_show(capture.bytes, capture.n, 1, &place, &length);
    printf("gave %u: %u %u\n", (unsigned)number, (unsigned)place, (unsigned)length);
}

static void last_write(void) {
    int32_t value;
    uint32_t records;
    uint32_t result = vb_last_write(capture.bytes, capture.n, ADDRESS, VB_PB, &value, &records);
    printf("gave %u: %s %d %u\n", (unsigned)VB_NUMBER(result), VB_FOUND(result) ? "found" : "never",
           (int)value, (unsigned)records);
}

/* All that is no request. */
static const struct {
    const char *name;
    void (*calls)(void);
} cases[] = {
    {"known", ten_rounds_twice},    {"poll", poll},
    {"measured-begun", begin_poll}, {"measured", poll_measured},
    {"select", select_items},       {"alarm-block-begun", begin_alarm},
    {"alarm-block", alarm_block},   {"put-measured", put_measured},
    {"put-code", put_code},         {"put-nothing", put_nothing},
    {"playback", playback},         {"show", show_first},
    {"last-write", last_write},
};

int main(int argc, char **argv) {
    const char *name = argc > 1 ? argv[1] : "";
    const char *behind = argc > 2 ? argv[2] : "";
    printf("at vb_rtu %lx\nat vb_ascii %lx\nat vb_byte %lx\nat ten_rounds_twice %lx\n",
           (unsigned long)vb_rtu, (unsigned long)vb_ascii, (unsigned long)vb_byte,
           (unsigned long)ten_rounds_twice);
    printf("at vb_put %lx\nat vb_playback %lx\nat vb_show %lx\nat vb_last_write %lx\n",
           (unsigned long)vb_put, (unsigned long)vb_playback, (unsigned long)vb_show,
           (unsigned long)vb_last_write);
    vb_start_table(table, VB_TABLE_ENTRIES);
    vb_start_link(link_state, sizeof link_state);
    vb_put(table, VB_TABLE_ENTRIES, VB_M1, 1234);
    put_point(behind);
    make_capture(behind);

    const struct request *request = request_of(name);
    if (request != NULL)
        (strcmp(behind, "ascii") == 0 ? ascii : rtu)(request);
    for (size_t i = 0; i < sizeof cases / sizeof cases[0]; i++)
        if (strcmp(name, cases[i].name) == 0)
            cases[i].calls();
    printf("bytes %u\nframes %u\ncapture %u\n", handed_over, (unsigned)capture.frames,
           (unsigned)capture.n);
    return 0;
}
