/* Measures how many bytes of stack each function of the link takes. It is called on a stack of its
 * own that holds a pattern everywhere; as far down as that is gone afterwards, the stack was used.
 *
 * It prints for each function the most that one of the calls below took: arguments that go on the
 * stack, the return address, and all below it, what stands under the stack pointer included. */
#include "captures.h"
#include "frames.h"
#include "lines.h"
#include "vennebruis.h"

/* Of the C library. Declared here, since a cross compiler may come without its headers. */
int printf(const char *format, ...);
void *memset(void *to, int byte, size_t n);

enum { STACK = 4096, PATTERN = 0xA5, WORD = 8, IN_REGISTERS = 6, WORDS = 10 };

/* Calls a function with ten words, the first six in registers and the others on the stack, as
 * x86-64 has it, on the stack that ends at top. */
void on_stack(uint8_t *top, void (*function)(void), const uint64_t *words);
__asm__(".text\n"
        ".globl on_stack\n"
        ".type on_stack, @function\n"
        "on_stack:\n"
        "    push %rbp\n"
        "    mov %rsp, %rbp\n"
        "    mov %rdi, %rsp\n"
        "    mov %rsi, %rax\n"
        "    mov %rdx, %r10\n"
        "    push 72(%r10)\n"
        "    push 64(%r10)\n"
        "    push 56(%r10)\n"
        "    push 48(%r10)\n"
        "    mov (%r10), %rdi\n"
        "    mov 8(%r10), %rsi\n"
        "    mov 16(%r10), %rdx\n"
        "    mov 24(%r10), %rcx\n"
        "    mov 32(%r10), %r8\n"
        "    mov 40(%r10), %r9\n"
        "    call *%rax\n"
        "    mov %rbp, %rsp\n"
        "    pop %rbp\n"
        "    ret\n"
        ".size on_stack, . - on_stack\n");

void eighty_bytes(void);

/* A function, how many words it takes, and the most stack that a call of it took. */
struct measured {
    const char *name;
    void (*function)(void);
    size_t words;
    size_t most;
};

enum name {
    KNOWN,
    START_TABLE,
    START_LINK,
    BYTE,
    IDLE,
    RTU,
    ASCII,
    PUT,
    READ_TEXT,
    WRITE_TEXT,
    PLAYBACK,
    SHOW,
    LAST_WRITE,
    NAMES
};

static struct measured measured[NAMES] = {
    [KNOWN] = {"eighty_bytes", eighty_bytes, 0, 0},
    [START_TABLE] = {"vb_start_table", (void (*)(void))vb_start_table, 2, 0},
    [START_LINK] = {"vb_start_link", (void (*)(void))vb_start_link, 2, 0},
    [BYTE] = {"vb_byte", (void (*)(void))vb_byte, 10, 0},
    [IDLE] = {"vb_idle", (void (*)(void))vb_idle, 6, 0},
    [RTU] = {"vb_rtu", (void (*)(void))vb_rtu, 7, 0},
    [ASCII] = {"vb_ascii", (void (*)(void))vb_ascii, 7, 0},
    [PUT] = {"vb_put", (void (*)(void))vb_put, 4, 0},
    [READ_TEXT] = {"vb_read_text", (void (*)(void))vb_read_text, 4, 0},
    [WRITE_TEXT] = {"vb_write_text", (void (*)(void))vb_write_text, 4, 0},
    [PLAYBACK] = {"vb_playback", (void (*)(void))vb_playback, 5, 0},
    [SHOW] = {"vb_show", (void (*)(void))vb_show, 5, 0},
    [LAST_WRITE] = {"vb_last_write", (void (*)(void))vb_last_write, 6, 0},
};

static int32_t table[VB_TABLE_ENTRIES];
static uint8_t link_state[VB_STATE_BYTES];
static uint8_t reply[VB_REPLY_BYTES];
static struct capture capture;
static _Alignas(16) uint8_t stack[STACK];

static uint64_t at(const void *pointer) { return (uint64_t)(uintptr_t)pointer; }

static void call(enum name name, const uint64_t words[WORDS]) {
    struct measured *m = &measured[name];
    memset(stack, PATTERN, STACK);
    on_stack(stack + STACK, m->function, words);
    size_t whole = 0;
    while (whole < STACK && stack[whole] == PATTERN)
        whole++;
    size_t pushed = m->words > IN_REGISTERS ? m->words - IN_REGISTERS : 0;
    size_t took = STACK - whole - (WORDS - IN_REGISTERS - pushed) * WORD;
    if (took > m->most)
        m->most = took;
}

static void byte(uint8_t received) {
    call(BYTE, (uint64_t[WORDS]){at(link_state), sizeof link_state, at(table), VB_TABLE_ENTRIES,
                                 at(reply), sizeof reply, ADDRESS, VB_TOP_BIT_ZERO, 0, received});
}

static void bytes(const char *received) {
    for (; *received != 0; received++)
        byte((uint8_t)*received);
}

static void idle(uint64_t now) {
    call(IDLE, (uint64_t[WORDS]){at(link_state), sizeof link_state, at(reply), sizeof reply,
                                 VB_TOP_BIT_ZERO, now});
}

/* Settings by blocks, of which one alters AA; a poll of all items by ACK, polls of one after which
 * the host repeats, falls silent or says something else, and what is refused. */
static void rkc(void) {
    bytes("\x04"
          "01\x02PB-01.50\x03\x16");
    bytes("\x02PB-01.50\x03\x17");
    bytes("\x02"
          "A1-199.9\x03\x78");
    bytes("\x02XX1\x03\x32");
    bytes("\x04"
          "01M1\x05\x06\x06\x06\x06\x06\x06\x06\x06\x06\x06\x06\x06\x06");
    bytes("\x04"
          "01PB\x05\x15\x05");
    bytes("\x04"
          "01XX\x05");
    bytes("\x04"
          "01PB\x05");
    idle(2999);
    idle(3000);
}

/* XU at each of its values: S1 is set, and M1 polled. */
static void points(void) {
    static const char *const settings[] = {"\x02XU0\x03\x3E", "\x02XU1\x03\x3F", "\x02XU2\x03\x3C",
                                           "\x02XU3\x03\x3D"};
    for (size_t i = 0; i < sizeof settings / sizeof settings[0]; i++) {
        bytes("\x04"
              "01");
        bytes(settings[i]);
        bytes("\x02S1-1.999\x03\x6A");
        bytes("\x04"
              "01M1\x05");
    }
}

static void modbus(enum name name, uint64_t address, const uint8_t *received, uint64_t n) {
    call(name, (uint64_t[WORDS]){at(table), VB_TABLE_ENTRIES, at(reply), sizeof reply, address,
                                 at(received), n});
}

/* The requests as frames. As lines, in which the damaged ones are whole and the long one is as long
 * as a line can be; and these for each kind of address, without their LF, and with a wrong LRC. */
static void requested(void) {
    for (size_t i = 0; i < REQUESTS; i++) {
        modbus(RTU, ADDRESS, requests[i].bytes, requests[i].n);
        struct line line = line_of(requests[i].bytes, requests[i].n);
        for (uint64_t address = 0; address <= ADDRESS + 1; address++)
            for (uint64_t n = line.n - 1; n <= line.n; n++)
                modbus(ASCII, address, line.bytes, n);
        line.bytes[2] = '9'; /* in the address, for which the LRC is another */
        modbus(ASCII, ADDRESS, line.bytes, line.n);
    }
}

/* Each item at three values: most are set by one of them and refused for another. */
static void put(void) {
    for (uint32_t item = 0; item <= VB_TABLE_ENTRIES + 1; item++)
        for (int32_t value = -2000; value <= 2000; value += 2000)
            call(PUT, (uint64_t[WORDS]){at(table), VB_TABLE_ENTRIES, item, (uint32_t)value});
}

static void text(void) {
    static const char *const texts[] = {"-01.50", "5.", "12-3", "1234567"};
    static const size_t lengths[] = {6, 2, 4, 7};
    static int32_t value;
    for (uint64_t decimals = 0; decimals <= 4; decimals++)
        for (size_t i = 0; i < sizeof texts / sizeof texts[0]; i++) {
            call(READ_TEXT, (uint64_t[WORDS]){decimals, at(texts[i]), lengths[i], at(&value)});
            call(WRITE_TEXT,
                 (uint64_t[WORDS]){decimals, (uint32_t)value, at(reply), VB_TEXT_BYTES});
        }
}

static void playback(uint64_t entries, uint64_t address, uint64_t n) {
    call(PLAYBACK, (uint64_t[WORDS]){at(table), entries, address, at(capture.bytes), n});
}

static void last_write(uint64_t address, uint64_t n) {
    static int32_t value;
    static uint32_t records;
    for (uint32_t item = 0; item <= VB_TABLE_ENTRIES + 1; item++)
        call(LAST_WRITE,
             (uint64_t[WORDS]){at(capture.bytes), n, address, item, at(&value), at(&records)});
}

/* A capture of all requests, three times over; what is no capture; and what is not to be played. */
static void captured(void) {
    static uint32_t place, length;
    for (size_t i = 0; i < 3 * REQUESTS; i++)
        capture_add(&capture, requests[i % REQUESTS].bytes, requests[i % REQUESTS].n);
    capture_end(&capture);
    playback(VB_TABLE_ENTRIES, ADDRESS, capture.n);
    playback(VB_TABLE_ENTRIES, ADDRESS + 1, capture.n);
    playback(VB_TABLE_ENTRIES, 0, capture.n);
    playback(VB_TABLE_ENTRIES - 1, ADDRESS, capture.n);
    playback(VB_TABLE_ENTRIES, ADDRESS, capture.n - 1);
    for (uint64_t address = 0; address <= ADDRESS + 1; address++)
        for (uint64_t n = capture.n - 1; n <= capture.n; n++)
            last_write(address, n);
    for (uint64_t frame = 0; frame <= capture.frames + 1; frame++)
        for (uint64_t n = capture.n - 1; n <= capture.n; n++)
            call(SHOW, (uint64_t[WORDS]){at(capture.bytes), n, frame, at(&place), at(&length)});
}

int main(void) {
    call(KNOWN, (uint64_t[WORDS]){0});
    call(START_TABLE, (uint64_t[WORDS]){at(table), VB_TABLE_ENTRIES});
    call(START_LINK, (uint64_t[WORDS]){at(link_state), sizeof link_state});
    rkc();
    points();
    requested();
    put();
    text();
    captured();
    for (size_t i = 0; i < NAMES; i++)
        printf("stack %s %u\n", measured[i].name, (unsigned)measured[i].most);
    return 0;
}
