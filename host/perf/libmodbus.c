/* Makes the calls of one case with libmodbus, for their instructions to be counted:
 * libmodbus LIBRARY CASE, the first being the path of libmodbus.so.5.
 *
 * Counted are its integrity check of a frame that has come and its reply, which goes into a pipe.
 * It prints where the counted functions stand, the reply, and how many bytes it handed over. */
#include "frames.h"

/* Of the C library. Declared here, since a cross compiler may come without its headers. */
int printf(const char *format, ...);
int strcmp(const char *a, const char *b);
void *memcpy(void *to, const void *from, size_t n);
int pipe(int files[2]);
long read(int file, void *to, size_t n);
void *dlopen(const char *path, int flags);
void *dlsym(void *library, const char *name);
enum { RTLD_NOW = 2 };

/* What libmodbus 3.1.6 keeps to itself: where a context has the functions of its kind of line, and
 * where among them stands the check of a frame. */
struct functions {
    unsigned int numbers[4];
    void (*others[8])(void);
    int (*check_integrity)(void *context, uint8_t *frame, int n);
};

struct context {
    int numbers[4];
    long times[6];
    const struct functions *functions;
};

/* What it shows: the registers that are answered from. */
struct mapping {
    int n_bits, start_bits, n_input_bits, start_input_bits;
    int n_input_registers, start_input_registers, n_registers, start_registers;
    uint8_t *bits, *input_bits;
    uint16_t *input_registers, *registers;
};

static void *library;

/* Sets a pointer, of the type that its owner knows, to what the library has by this name. */
static void find(const char *name, void *pointer) {
    void *found = dlsym(library, name);
    memcpy(pointer, &found, sizeof found);
}

static int (*check_integrity)(void *context, uint8_t *frame, int n);

/* The check has no name in the library. This name adds two instructions, a load and a jump. */
int libmodbus_check(void *context, uint8_t *frame, int n);
__attribute__((noinline)) int libmodbus_check(void *context, uint8_t *frame, int n) {
    return check_integrity(context, frame, n);
}

/* The values of the 20 registers that the item list gives once M1 is 123.4. */
static uint16_t registers[] = {1234, 1, 1,   0, 0,   0, 0, 0,    0, 0,
                               0,    0, 500, 0, 500, 0, 0, 1000, 0, 1};

static void serve(struct request *request) {
    struct context *(*new_rtu)(const char *, int, char, int, int);
    int (*set_slave)(void *, int);
    int (*set_socket)(void *, int);
    int (*reply)(void *, const uint8_t *, int, struct mapping *);
    find("modbus_new_rtu", &new_rtu);
    find("modbus_set_slave", &set_slave);
    find("modbus_set_socket", &set_socket);
    find("modbus_reply", &reply);
    printf("at libmodbus_check %lx\nat modbus_reply %lx\n", (unsigned long)libmodbus_check,
           (unsigned long)reply);

    int files[2];
    struct mapping mapping = {.n_registers = sizeof registers / sizeof registers[0],
                              .registers = registers};
    struct context *context = new_rtu("/dev/null", 9600, 'N', 8, 1);
    if (pipe(files) != 0 || context == NULL)
        return;
    set_slave(context, ADDRESS);
    set_socket(context, files[1]);
    check_integrity = context->functions->check_integrity;
    if (libmodbus_check(context, request->bytes, (int)request->n) <= 0)
        return;
    reply(context, request->bytes, (int)request->n, &mapping);

    uint8_t sent[LONG];
    long n = read(files[0], sent, sizeof sent);
    printf("gave 0:");
    for (long i = 0; i < n; i++)
        printf(" %02X", sent[i]);
    printf("\nbytes %u\n", (unsigned)request->n);
}

int main(int argc, char **argv) {
    library = argc > 2 ? dlopen(argv[1], RTLD_NOW) : NULL;
    const unsigned int *version[3] = {NULL, NULL, NULL};
    if (library != NULL) {
        find("libmodbus_version_major", &version[0]);
        find("libmodbus_version_minor", &version[1]);
        find("libmodbus_version_micro", &version[2]);
    }
    if (version[2] == NULL || *version[0] != 3 || *version[1] != 1 || *version[2] != 6) {
        printf("there is no libmodbus 3.1.6\n");
        return 1;
    }
    for (size_t i = 0; i < REQUESTS; i++)
        if (strcmp(argv[2], requests[i].name) == 0)
            serve(&requests[i]);
    return 0;
}
