/* A panel on three lines, as firmware would run it: what it keeps, and what it does at the start,
 * for each measured value, for each byte of the RKC line, while that line is silent, for each frame
 * of the Modbus RTU line, for each byte of the Modbus ASCII line, for its two lamps and for its
 * display.
 *
 * main() plays the outside world: a host sets the offset and asks for it, then falls silent; it
 * tries again to set it, and a byte is damaged on the way; another host tries the RTU line; a third
 * one asks for the offset on the ASCII line, twice, since a byte of the first line is damaged. Then
 * alarm 1 is set to the measured value, which rises to alarm 2 and falls below both. In the end the
 * first host asks for the measured value, has the point left out, and asks again.
 * In firmware its calls come from the serial drivers, the clock and the measuring. */
#include "vennebruis.h"

/* Of the C library. Declared here, since a cross compiler may come without its headers. */
int printf(const char *format, ...);

enum { ADDRESS = 1, STRUCTURE = VB_TOP_BIT_ZERO };

/* All that is kept between calls. The reply buffer may be shared, as a reply is sent before the
 * next call. */
static int32_t table[VB_TABLE_ENTRIES];
static uint8_t link_state[VB_STATE_BYTES];
static uint8_t reply[VB_REPLY_BYTES];

/* What has come of an ASCII line, from its colon on; nothing before that. */
static uint8_t ascii_line[VB_LINE_BYTES];
static uint32_t ascii_length;

/* Hands bytes to a line's serial driver. Here they are shown instead. */
static void transmit(const char *line, const uint8_t *bytes, uint32_t n) {
    printf("%s", line);
    for (uint32_t i = 0; i < n; i++)
        printf(" %02X", bytes[i]);
    printf("\n");
}

/* What every call's result is for: a reply to send, or a fault of the firmware's own. */
static void act_on(const char *line, uint32_t result) {
    uint32_t number = VB_NUMBER(result);
    if (number >= VB_WRONG_LENGTH && number <= VB_TOO_MANY_DECIMALS)
        printf("fault %u\n", (unsigned)number);
    if (VB_LENGTH(result) > 0)
        transmit(line, reply, VB_LENGTH(result));
}

static void start(void) {
    act_on("start", vb_start_table(table, VB_TABLE_ENTRIES));
    act_on("start", vb_start_link(link_state, sizeof link_state));
}

/* A new measured value, with its point left out: 12.5 is 125, as long as XU is 1. */
static void measured(int32_t value) {
    act_on("put", vb_put(table, VB_TABLE_ENTRIES, VB_M1, value));
}

/* The lamp routine. What the lamps are to show stands in the table, so it makes no call. Here they
 * are shown as text. */
static void show_lamps(void) {
    printf("lamps AA %d, AB %d\n", (int)table[VB_AA - 1], (int)table[VB_AB - 1]);
}

/* The display. It has the measured value as the RKC line sends it, with the decimals of XU. */
static void show_measured(void) {
    uint8_t text[VB_TEXT_BYTES];
    uint8_t decimals = (uint8_t)table[VB_XU - 1];
    act_on("display", vb_write_text(decimals, table[VB_M1 - 1], text, sizeof text));
    printf("display %.*s\n", VB_TEXT_BYTES, (const char *)text);
}

/* A byte has come on the RKC line. */
static void rkc_received(uint8_t byte, uint32_t now) {
    act_on("rkc", vb_byte(link_state, sizeof link_state, table, VB_TABLE_ENTRIES, reply,
                          sizeof reply, ADDRESS, STRUCTURE, now, byte));
}

/* A byte has come on the RKC line that the UART reports with a framing error or an overrun. */
static void rkc_damaged(uint32_t now) { rkc_received(VB_DAMAGED(STRUCTURE), now); }

/* Nothing has come on the RKC line for a while. */
static void rkc_silent(uint32_t now) {
    act_on("rkc", vb_idle(link_state, sizeof link_state, reply, sizeof reply, STRUCTURE, now));
}

/* A silence on the RTU line has ended a frame. One with a damaged byte is dropped before. */
static void rtu_received(const uint8_t *frame, uint64_t n) {
    act_on("rtu", vb_rtu(table, VB_TABLE_ENTRIES, reply, sizeof reply, ADDRESS, frame, n));
}

/* A byte has come on the ASCII line, its parity bit taken off. */
static void ascii_received(uint8_t byte) {
    if (byte == ':')
        ascii_length = 0;
    else if (ascii_length == 0)
        return;
    if (ascii_length == VB_LINE_BYTES) {
        ascii_length = 0;
        return;
    }
    ascii_line[ascii_length++] = byte;
    if (byte == '\n') {
        act_on("ascii", vb_ascii(table, VB_TABLE_ENTRIES, reply, sizeof reply, ADDRESS, ascii_line,
                                 ascii_length));
        ascii_length = 0;
    }
}

/* A byte has come on the ASCII line that the UART reports damaged: all up to the next colon is
 * passed over. */
static void ascii_damaged(void) { ascii_length = 0; }

static void all_received(const uint8_t *bytes, uint32_t n, uint32_t now) {
    for (uint32_t i = 0; i < n; i++)
        rkc_received(bytes[i], now);
}

static void text_received(const char *text) {
    for (; *text != '\0'; text++)
        ascii_received((uint8_t)*text);
}

/* Measured value and display before and after: the same number, with and without its point. */
static void leave_point_out(uint32_t now) {
    /* EOT, address 01, a poll of M1; the same address, a block that sets XU to "0" with its BCC. */
    static const uint8_t poll[] = {0x04, '0', '1', 'M', '1', 0x05};
    static const uint8_t no_decimals[] = {0x04, '0', '1', 0x02, 'X', 'U', '0', 0x03, 0x3E};

    show_measured();
    all_received(poll, sizeof poll, now);
    all_received(no_decimals, sizeof no_decimals, now);
    all_received(poll, sizeof poll, now);
    show_measured();
}

int main(void) {
    /* EOT, address 01, a block that sets PB to "-8" with its BCC; EOT, address 01, a poll of PB. */
    static const uint8_t heard[] = {0x04, '0',  '1',  0x02, 'P', 'B', '-', '8',
                                    0x03, 0x04, 0x04, '0',  '1', 'P', 'B', 0x05};
    /* The loopback test, and a read of register 0010H, the offset. */
    static const uint8_t loopback[] = {0x01, 0x08, 0x00, 0x00, 0x1F, 0x34, 0xE9, 0xEC};
    static const uint8_t read_offset[] = {0x01, 0x03, 0x00, 0x10, 0x00, 0x01, 0x85, 0xCF};
    /* A write of 12.5 to register 000CH, alarm 1. */
    static const uint8_t set_alarm[] = {0x01, 0x06, 0x00, 0x0C, 0x00, 0x7D, 0x89, 0xE8};

    start();
    measured(125);
    show_lamps();
    all_received(heard, sizeof heard, 1000);
    rkc_silent(3999);
    rkc_silent(4000);
    /* The block once more, with its "-" damaged. */
    all_received(heard, 6, 5000);
    rkc_damaged(5000);
    all_received(heard + 7, 3, 5000);
    rtu_received(loopback, sizeof loopback);
    rtu_received(read_offset, sizeof read_offset);
    /* The same read as a line, with a damaged byte in it, and once more. */
    text_received(":0103001");
    ascii_damaged();
    text_received("0001EB\r\n");
    text_received(":010300100001EB\r\n");
    /* Alarm 1 comes down from 50.0, where alarm 2 stays. */
    rtu_received(set_alarm, sizeof set_alarm);
    show_lamps();
    measured(500);
    show_lamps();
    measured(124);
    show_lamps();
    leave_point_out(6000);
    return 0;
}
