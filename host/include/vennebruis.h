/* Vennebruis: the communication link of a panel indicator, as C functions.
 *
 * The library keeps nothing between calls and allocates nothing. All that it works on is lent by
 * the caller for one call: the table of item values, the state of the RKC link, a buffer for the
 * reply, and a capture of frames.
 *
 * What is lent
 *   Each lent array is a pointer with the number of its elements (bytes for uint8_t, entries for
 *   int32_t). The arrays of one call, and single values that it sets, must not overlap. A pointer
 *   is never NULL, also where its length is 0, and is aligned as its type asks. A wrong length or
 *   wrong contents do no harm: they are refused by a number.
 *
 *   Lengths are uint64_t and not size_t: the library has lengths of 64 bits on every processor, and
 *   both sides of a call must agree on them also where size_t has 32.
 *
 * What comes back
 *   Each call gives number + 256 * reply length. VB_NUMBER and VB_LENGTH take it apart. The reply
 *   stands in the first VB_LENGTH bytes of the reply buffer and is to be sent as it stands; where
 *   VB_LENGTH is 0 nothing is to be sent. All bytes behind it stay as they were. vb_last_write
 *   alone gives something else beside its number, and has no reply: VB_FOUND takes that out.
 *
 *   A number from 1 to 9 is the caller's fault, and such a call changes nothing that it was lent
 *   (the results of the two number text calls and of vb_last_write apart, see there). 51 and 52 are
 *   said of a capture. Any other number tells what the host did; firmware needs to act on none of
 *   them.
 *
 * The lamps
 *   Entries 2 and 3 of the table are the alarm states: AA is 1 exactly when M1 is at least A1, AB
 *   exactly when M1 is at least A2, else each is 0. vb_start_table sets them so, and every call
 *   that alters M1, A1 or A2 keeps them true: a host's write on any line, a playback, a put. A lamp
 *   routine therefore reads table[VB_AA - 1] and table[VB_AB - 1], and makes no call. It may do so
 *   at any time between two calls; what stands there while a call is under way is not promised.
 *
 *   Firmware sets M1, A1 and A2 by vb_put. Were it to write their entries itself, AA and AB might
 *   not be true any more, and each call that looks at the table would refuse it (2). So a saved
 *   table is restored with these two entries as well.
 *
 * The decimal point
 *   Entry 13, XU, is how many decimals M1, S1, A1 and A2 have on the RKC line, in what is sent and
 *   in what is taken: 0 to 3, and 1 at the start. A host may set it on any line, and firmware by
 *   vb_put. Stored numbers and ranges do not move when it changes, only the point does: M1 stored
 *   as 1005 is sent as "001005", "0100.5", "010.05" or "01.005". All else (the lamps, vb_put, both
 *   Modbus lines, captures) deals in stored numbers and takes no notice of XU.
 *
 *   A display that is to show what the RKC line sends writes these four items by vb_write_text,
 *   with table[VB_XU - 1] as the decimals: each of their values fits at each XU.
 *
 *   A table that was saved when there was no XU has twelve entries, and is refused for that (1).
 *   Firmware that takes one over restores the twelve, and sets entry 13 to 1: the point is then
 *   where it was.
 *
 * The way out of 2 and of 5
 *   Once an entry of the table lies outside its range, or AA or AB is not true, every call that
 *   looks at the table gives 2, and a put does not mend it. The table is firmware's own memory: it
 *   writes the bad entries itself, each within its range (enum vb_item has them), and then AA and
 *   AB to match M1, A1 and A2; or it calls vb_start_table, which sets all entries and so drops
 *   all settings. Settings that are read back from where they may have been damaged are best
 *   mended in this way before the first call. A link state that gives 5 is set to the start by
 *   vb_start_link; what the host was about is lost, and it begins anew by EOT.
 *
 * When a reply may be overwritten
 *   A call with a reply writes it from the front of the buffer, and which call has one can't be
 *   known beforehand. So a reply is sent to its last byte, or copied, before its buffer is lent
 *   again, to vb_idle as well. Two lines that may answer at the same time have a buffer each. On a
 *   half-duplex line, what is heard while a reply goes out is not handed over: an echo of an item
 *   would end its own poll (43, or 41 where the echo has lost its STX and so begins another poll),
 *   and an echo of any Modbus answer would be answered again, without end.
 *
 * Calls at the same time
 *   Calls that are lent different memory may run at the same time. Calls that share a table, a
 *   state or a buffer must not interrupt each other, and nothing else may write there during a
 *   call: a vb_put in a measuring interrupt must not come in while vb_byte, vb_rtu, vb_ascii or
 *   another vb_put runs on that table. Either the interrupt is turned off around these calls, or it
 *   only notes the value, and the main loop puts it between two calls.
 *
 * Stack
 *   A call of vb_ascii, which keeps the bytes of a line there, takes at most 700 bytes of stack on
 *   x86-64, and no other call more than 400, its arguments and return address included;
 *   docs/PERFORMANCE.md has what was measured of each function, and how. Some of them lie below the
 *   stack pointer, in the 128 bytes there that x86-64 lets a function use (the red zone): an
 *   interrupt that runs on the same stack must leave those alone.
 */
#ifndef VENNEBRUIS_H
#define VENNEBRUIS_H

#include <stdint.h>

#ifdef __cplusplus
extern "C" {
#endif

/* Lengths: of the table in entries, of the link state and the least reply buffer in bytes, and of
 * number text in characters. */
#define VB_TABLE_ENTRIES 13
#define VB_STATE_BYTES 24
#define VB_REPLY_BYTES 256
#define VB_TEXT_BYTES 6

/* The most that a Modbus ASCII line has from its colon to its LF, and the most that a capture has,
 * in bytes. */
#define VB_LINE_BYTES 513
#define VB_CAPTURE_BYTES 65536

/* The two parts of a result. The second is the length of the reply; for vb_last_write it tells
 * whether a write was found: 1, else 0. */
#define VB_NUMBER(result) ((result) % 256u)
#define VB_LENGTH(result) ((result) / 256u)
#define VB_FOUND(result) ((result) / 256u)

/* The numbers given back. A call gives the first that it meets, in the order of this list; where it
 * tries them in another order, its own comment says so. */
enum vb_number {
    VB_NONE = 0, /* nothing to report; there may be a reply */

    /* The caller's faults: no reply, nothing changed. */
    VB_WRONG_LENGTH = 1,      /* the table does not have VB_TABLE_ENTRIES entries */
    VB_ENTRY_OUTSIDE = 2,     /* an entry lies outside its item's range, or AA or AB is not true */
    VB_SHORT_BUFFER = 3,      /* reply buffer under VB_REPLY_BYTES, or text under VB_TEXT_BYTES */
    VB_BAD_SETTING = 4,       /* address over 99, or 0 for Modbus and captures; structure over 2 */
    VB_BAD_STATE = 5,         /* the link state is outside its limits, or not VB_STATE_BYTES long */
    VB_NO_SUCH_ITEM = 6,      /* put, last write: the item number is not 1 to 13 */
    VB_VALUE_OUTSIDE = 7,     /* put: the item is AA or AB, or the value lies outside its range */
    VB_DOES_NOT_FIT = 8,      /* writing text: the value does not fit six characters */
    VB_TOO_MANY_DECIMALS = 9, /* number text: more than three decimals */

    /* An RKC block is refused: the reply is NAK, the table stays. vb_read_text gives 15 and 16 too,
     * for its characters; it has no reply. */
    VB_LINE_ERROR = 11,          /* a byte of the block broke the line structure */
    VB_WRONG_BCC = 12,           /* the block check character is another */
    VB_UNDER_TWO = 13,           /* fewer than two characters: no identifier */
    VB_UNKNOWN_IDENTIFIER = 14,  /* no item has this identifier */
    VB_OVER_SIX_CHARACTERS = 15, /* more than six characters of data, or of text that is read */
    VB_NO_NUMBER = 16,           /* the data, or text that is read, is no number */
    VB_READ_ONLY = 17,           /* the item can't be written by the host */
    VB_OUT_OF_RANGE = 18,        /* the value lies outside the item's range */

    /* A Modbus frame or line is passed over: no reply, nothing changed. */
    VB_FRAME_LENGTH = 21,  /* a frame under 4 or over 256 bytes */
    VB_WRONG_CRC = 22,     /* the CRC is another */
    VB_OTHER_ADDRESS = 23, /* the frame or line is for somebody else */
    VB_WRONG_LINE = 24,    /* no colon, no CR LF, another character, or a length not allowed */
    VB_WRONG_LRC = 25,     /* the LRC is another */

    /* A Modbus request is refused: the reply is an exception, a frame of 5 bytes or a line of 11,
     * the table stays. */
    VB_UNKNOWN_FUNCTION = 31, /* exception 1: a function other than 03H, 06H, 08H, 10H */
    VB_WRONG_REGISTER = 32,   /* exception 2: outside the map, or not writable */
    VB_WRONG_DATA = 33,       /* exception 3: length, quantity, byte count, test code or value */

    /* An RKC poll ends: the reply is EOT, the link rests, the table stays. */
    VB_NOT_BELONGING = 41,  /* a byte that does not belong into a poll */
    VB_UNKNOWN_POLLED = 42, /* no item has the identifier that was polled */
    VB_NOT_AWAITED = 43,    /* after an item: neither ACK, NAK, EOT nor 20H to 7EH */
    VB_TIMED_OUT = 44,      /* idle: no byte for three seconds after an item was sent */
    VB_LIST_ENDED = 45,     /* ACK after the last item: the end of the list, no fault */
    VB_NO_ROOM = 46,        /* the item's value does not fit: no value in its range is one */

    /* A capture: nothing changed in the table, no frame shown, no write found. */
    VB_BAD_CAPTURE = 51,  /* under 6 or over 65,536 bytes, or not well formed as far as is read */
    VB_NO_SUCH_FRAME = 52 /* show: the capture has no frame of this number */
};

/* The items. Entry n - 1 of the table holds item n as a whole number with the point left out: PB at
 * -1.5 is -150. Behind each: register, what the host may do, decimals on the RKC line, range, start
 * value. "Write" items may be read too. Four items have as many decimals as XU says. AA and AB
 * follow M1, A1 and A2; neither the host nor a put sets them. The top has more of these and XU. */
enum vb_item {
    VB_M1 = 1,  /* measured value: 0000H, read, XU, -1999 to 9999, 0 */
    VB_AA = 2,  /* alarm 1 state: 0001H, read, 0, 0 to 1, 0 */
    VB_AB = 3,  /* alarm 2 state: 0002H, read, 0, 0 to 1, 0 */
    VB_B1 = 4,  /* burnout: 0003H, read, 0, 0 to 1, 0 */
    VB_ER = 5,  /* error code: 0004H, read, 0, 0 to 255, 0 */
    VB_S1 = 6,  /* set value: 000BH, write, XU, -1999 to 9999, 0 */
    VB_A1 = 7,  /* alarm 1: 000CH, write, XU, -1999 to 9999, 500 */
    VB_A2 = 8,  /* alarm 2: 000EH, write, XU, -1999 to 9999, 500 */
    VB_PB = 9,  /* offset: 0010H, write, 2, -1000 to 1000, 0 */
    VB_PR = 10, /* ratio: 0011H, write, 3, 500 to 1500, 1000 */
    VB_F1 = 11, /* filter: 0012H, write, 0, 0 to 100, 0 */
    VB_TM = 12, /* test number: 0008H, write, 0, 0 to 999, 0 */
    VB_XU = 13  /* decimals of M1, S1, A1 and A2: 0013H, write, 0, 0 to 3, 1 */
};

/* How a character stands in the eight bits of a byte on the RKC line.
 *
 * The UART is set to 8 data bits without parity for each of them. 7 data bits with parity are as
 * many bits on the wire: the parity bit arrives as the top bit of the byte, and the library checks
 * it, and makes it in replies. */
enum vb_structure {
    VB_TOP_BIT_ZERO = 0, /* the top bit is 0: hosts with 8N1 */
    VB_EVEN_ONES = 1,    /* the top bit makes the number of ones even: hosts with 7E1 */
    VB_ODD_ONES = 2      /* the top bit makes the number of ones odd: hosts with 7O1 */
};

/* A byte that breaks the structure: a line error, which is never taken for a character.
 *
 * The library is handed bytes only. So this one is handed over in place of each byte that the UART
 * reports with a framing error (a break is one, with 00H, which by itself may be a good byte) or
 * with an overrun (others are missing beside it), and once where the driver itself lost bytes. What
 * it does:
 *
 *   text, BCC due   marks the block, which is then refused, whatever else it holds (11)
 *   waiting         the reply is EOT, the link rests (43)
 *   rest            nothing
 *   other phases    no reply, the link rests until the next EOT
 *
 * What is damaged is not just left out: the BCC can't tell that two equal characters are missing.
 */
#define VB_DAMAGED(structure) ((uint8_t)((structure) == VB_ODD_ONES ? 0x00 : 0x80))

/* The link state. Firmware keeps its 24 bytes between calls and need not look into them:
 *
 *   byte 0         phase, see below
 *   byte 1         item last sent, 1 to 13: waiting
 *   byte 2         characters of the block, up to 9: text, BCC due
 *   byte 3         exclusive or of the block so far, below 80H: text, BCC due
 *   byte 4         not 0 where the block has met a line error: text, BCC due
 *   bytes 8 to 11  time of the last item sent, low byte first: waiting
 *   bytes 12 to 19 kept characters, each below 80H: one of them in one character, two in two
 *                  characters, as many as are counted (at most 8) in text and BCC due
 *
 * A field is used in the phases named behind it. All else, also kept characters past the count, is
 * ignored going in and 0 coming out. */
enum vb_phase {
    VB_REST = 0,           /* waits for EOT */
    VB_FIRST_DIGIT = 1,    /* EOT came; the first digit of the address is next */
    VB_SECOND_DIGIT = 2,   /* the second digit is next */
    VB_ADDRESSED = 3,      /* the address was ours; a poll or a block is next */
    VB_ONE_CHARACTER = 4,  /* one character of an identifier came */
    VB_TWO_CHARACTERS = 5, /* two of them came; ENQ is next */
    VB_WAITING = 6,        /* an item was sent; ACK, NAK, EOT or another poll is next */
    VB_TEXT = 7,           /* a block is open */
    VB_BCC_DUE = 8,        /* ETX came; the block check character is next */
    VB_ANSWERED = 9        /* a block was answered; another one or EOT is next */
};

/* Sets each entry of the table to its item's start value. To be called once, before all else, or
 * in place of settings that were lost or damaged (2).
 *
 * Gives 0, or 1 where n is not VB_TABLE_ENTRIES; then the table stays. */
uint32_t vb_start_table(int32_t *table, uint64_t n);

/* Sets the link state to the start: phase rest, all else 0. To be called once before the first
 * byte; it may be called at any time to drop what the link is in, damaged or not (5).
 *
 * Gives 0, or 5 where n is not VB_STATE_BYTES; then the state stays. */
uint32_t vb_start_link(uint8_t *state, uint64_t n);

/* One byte received on the RKC line, its top bit as it came; for one that the UART reports damaged,
 * see VB_DAMAGED.
 *
 * state, sn   the link state; VB_STATE_BYTES
 * table, tn   the item values; VB_TABLE_ENTRIES
 * reply, rn   where the reply goes; VB_REPLY_BYTES or more
 * address     of this device, 0 to 99
 * structure   enum vb_structure; the reply is sent in the same one
 * now         when the call is made: milliseconds from any start, going round at 2^32
 * byte        what was received; also one that is not for this device
 *
 * Where an item is the reply, the state keeps the now of this call; vb_byte does nothing else with
 * it. The three seconds of vb_idle count from there, so what the reply takes on the wire is a part
 * of them.
 *
 * Gives 0, 1 to 5, 11 to 18, 41, 42, 43 or 45; 46 is never met. Where there is a reply, it is an
 * item (11 bytes) or one of ACK, NAK and EOT (1 byte). The state goes on to the next phase. Where a
 * block is answered by ACK, the table changes in the item's entry, and in that of AA or AB where it
 * would no longer be true; else it stays. With 1 to 5 state, table and buffer stay. */
uint32_t vb_byte(uint8_t *state, uint64_t sn, int32_t *table, uint64_t tn, uint8_t *reply,
                 uint64_t rn, uint8_t address, uint8_t structure, uint32_t now, uint8_t byte);

/* To be called every now and then while no byte comes, so that a poll ends where the host falls
 * silent: once three seconds have gone by since the last item was sent, EOT is the reply and the
 * link rests (44). Before that, and in any other phase, it gives 0 and sends nothing; the state
 * keeps what its phase uses, and all else in it comes out as 0. So once the first character of an
 * identifier has come, right after the address or after an item, its poll has no limit.
 *
 * The time between two calls adds to the three seconds: with a call every 100 ms, EOT comes after 3
 * to 3.1 s. Bytes that have come are handed over first, or a host that answered in time is dropped.
 * Where it is never called, the link waits on, and takes the next byte however late it comes.
 *
 * now counts as in vb_byte and may have gone round since. A full turn takes 49 days, and a silence
 * that long can't be told from none. A now from before the item was sent counts as nearly a full
 * turn later, and ends the poll at once; so both calls read one clock, each when it is made.
 *
 * Gives 0, 3, 4 (for the structure), 5 or 44. With 3 to 5 state and buffer stay. */
uint32_t vb_idle(uint8_t *state, uint64_t sn, uint8_t *reply, uint64_t rn, uint8_t structure,
                 uint32_t now);

/* One whole Modbus RTU frame, from address to CRC. The driver finds the silences that end a frame.
 * The frame may have any length and any contents; it is read only, and must not lie in the reply
 * buffer.
 *
 * The UART is set to 8 data bits and the host's parity, which it makes and checks itself. Where it
 * reports a framing error (a break is one), a parity error or an overrun for any byte, the driver
 * drops the whole frame, up to the silence that ends it, and makes no call: the CRC tells every
 * flip of bits that lie within 16 consecutive ones or are odd in number, but not every loss.
 *
 * table, tn   the item values; VB_TABLE_ENTRIES
 * reply, rn   where the reply goes, its CRC included; VB_REPLY_BYTES or more
 * address     of this device, 1 to 99
 * frame, fn   what was received
 *
 * Gives 0, 1 to 4, 21 to 23 or 31 to 33. 03H, 06H and 08H ask for a frame of 8 bytes first (33);
 * 03H then tries the quantity (33) before the registers (32), 06H the register (32) before the
 * value (33). 10H asks for a quantity of 1 to 123, a byte count of twice that and a frame of nine
 * bytes more (33), then tries every register of its span (32) before any value (33). The table
 * changes in one entry where 06H gives 0 and in one for each register where 10H does, and with them
 * in that of AA or AB where it would no longer be true. It stays otherwise: no setting of a message
 * is stored before all of them are judged. With 1 to 4 and 21 to 23 there is no reply. */
uint32_t vb_rtu(int32_t *table, uint64_t tn, uint8_t *reply, uint64_t rn, uint8_t address,
                const uint8_t *frame, uint64_t fn);

/* One whole Modbus ASCII line: a colon, two characters 0 to 9 or A to F for each byte from the
 * address to the LRC, CR, LF. The line may have any length and any contents; it is read only, and
 * must not lie in the reply buffer.
 *
 * The driver calls when LF comes, and hands in what it has kept; how long that took to come does
 * not matter. A good line has LF at its end alone, so what comes behind LF belongs to the next. A
 * colon always starts afresh: all before the last one is dropped here, and may as well be dropped
 * by the driver. So VB_LINE_BYTES are enough to keep between calls, with how many they are:
 *
 *   a colon         forgets what is kept, and is kept as the first byte
 *   any other byte  is kept behind it. It is passed over where nothing is kept yet; where
 *                   VB_LINE_BYTES are, the line is too long, and is forgotten
 *   LF              is kept like any other, then the call is made, and what is kept is forgotten
 *
 * Characters have seven bits, and a byte of 80H or more is none of them (24). Where the host sends
 * 7 data bits with parity, the UART is set to that, so that it checks the parity bit, hands over
 * the byte without it, and makes it in replies; a UART that can't is set to 8 data bits without
 * parity, and firmware does the same. Where the UART reports a framing error (a break is one), a
 * parity error or an overrun, the driver forgets what is kept and so passes over all up to the next
 * colon: the LRC is a sum, which tells far less than the CRC of a frame. It does not tell two bytes
 * that have changed places, nor bytes of 00H that are missing.
 *
 * table, tn   the item values; VB_TABLE_ENTRIES
 * reply, rn   where the reply goes, a line from colon to LF; VB_REPLY_BYTES or more
 * address     of this device, 1 to 99
 * line, ln    what was received
 *
 * Gives 0, 1 to 4, 23 to 25 or 31 to 33; 24 and 25 are tried before 23. 24 is given where there is
 * no colon or no CR LF at the end, and where what lies between the last colon and that has any
 * other character, is odd in number, or makes under 3 or over 255 bytes. The message is judged by
 * the very rules of vb_rtu, and leaves the same table. The lengths there count the two bytes of the
 * CRC, so without its LRC a message has two fewer here: 6 for 03H, 06H and 08H, and seven more than
 * its byte count for 10H. With 1 to 4 and 23 to 25 there is no reply. */
uint32_t vb_ascii(int32_t *table, uint64_t tn, uint8_t *reply, uint64_t rn, uint8_t address,
                  const uint8_t *line, uint64_t ln);

/* Sets an item from the firmware: a measured value, an error code, a setting made at the panel.
 * Every item but AA and AB may be set, within its range.
 *
 * item        enum vb_item, 1 to 13
 * value       the number with its point left out
 *
 * Gives 0, 1, 2, 6 or 7; for AA and AB it is 7 whatever the value. With 0 the item's entry is the
 * value, AA and AB are true again, and all others stay; else the table stays. A table that is not
 * good is 2 here too, also where this very put would mend it; the way out stands at the top. */
uint32_t vb_put(int32_t *table, uint64_t tn, uint32_t item, int32_t value);

/* Reads number text as the RKC line does: at most six characters, a minus first if any, digits with
 * at most one point, and at least one digit. The value is the number times 10 to the decimals, cut
 * off toward zero: with 2 decimals "-.058" is -5 and "5." is 500.
 *
 * Gives 0 with the value set, or the first of these with the value 0: 9 where decimals is over 3,
 * 15 where n is over six, 16 where the characters are no number, or none at all. */
uint32_t vb_read_text(uint8_t decimals, const uint8_t *chars, uint64_t n, int32_t *value);

/* Writes a value as the RKC line sends it: six characters, a minus first if it is below zero, zeros
 * on the left, a point before the last decimals: with 2 decimals -5 is "-00.05". No 0 byte is put
 * behind them.
 *
 * What fits: -99999 to 999999 without decimals, -9999 to 99999 with 1 to 3.
 *
 * Gives 0, or the first of these: 3 where n is under VB_TEXT_BYTES, and nothing is written; 9 where
 * decimals is over 3, and 8 where the value does not fit, both with six zero bytes in place of the
 * text. Bytes behind the six stay. */
uint32_t vb_write_text(uint8_t decimals, int32_t value, uint8_t *chars, uint64_t n);

/* Plays a capture of RTU frames back: sets the table to what a panel at this address ends with that
 * begins at the start values and is handed the capture's frames one at a time, the first one first.
 * docs/CAPTURES.md draws what a capture is.
 *
 * table, tn   where the result goes; VB_TABLE_ENTRIES. What it holds before is not looked at, so
 *             there is no 2
 * address     of the panel that is played, 1 to 99
 * capture, cn what was recorded; 6 to VB_CAPTURE_BYTES bytes. It is read only
 *
 * Gives 0, or the first of 1, 4 and 51, and then the table stays. With 0 the frames may have given
 * anything: those that a panel passes over or refuses change nothing here either. Replies are not
 * made. The time grows as the capture's length does; the stack does not grow with it. */
uint32_t vb_playback(int32_t *table, uint64_t tn, uint8_t address, const uint8_t *capture,
                     uint64_t cn);

/* Shows a frame of a capture: where its bytes begin in the capture, from 0, and how many they are.
 *
 * capture, cn what was recorded, as for vb_playback
 * frame       its number: 1 is the first that was recorded
 * place       set to where it begins, or 0
 * length      set to its number of bytes, 1 to 256, or 0
 *
 * Gives 0, or the first of 51 and 52 with place and length 0. */
uint32_t vb_show(const uint8_t *capture, uint64_t cn, uint32_t frame, uint32_t *place,
                 uint32_t *length);

/* Tells the last value that a host wrote to an item. It reads the capture from its end, record by
 * record, up to the first frame that writes the item: one of 06H or 10H with the item's register in
 * it, which a panel at this address accepts. Any other frame is passed over.
 *
 * capture, cn what was recorded, as for vb_playback
 * address     of the panel that was written to, 1 to 99
 * item        enum vb_item, 1 to 13. One that a host may only read is never written
 * value       set to what was written, the number with its point left out, or 0
 * records     set to how many records were read, the one that answers included, or 0
 *
 * Gives 0, or the first of 4, 6 and 51 with value and records 0. VB_FOUND of the result is 1 where
 * there is such a frame. Where it is 0 with the number 0, the item was never written, all records
 * were read, and the value is 0 (and not the start value, at which vb_playback leaves the item; AA
 * and AB, which no frame writes, follow A1 and A2 there).
 *
 * Damage in front of the record that answers is not noticed, and the trailer's number of records is
 * looked at only where none answers. So 0 with a write found is no proof that the capture is well
 * formed; 0 with none found is one, and so is 0 of vb_playback or vb_show, which read all of it. In
 * a capture that is, the value found is the one at which vb_playback leaves the item.
 *
 * The time grows with the records that are read, and not with the capture's length; the stack grows
 * with neither. */
uint32_t vb_last_write(const uint8_t *capture, uint64_t cn, uint8_t address, uint32_t item,
                       int32_t *value, uint32_t *records);

#ifdef __cplusplus
}
#endif

#endif
