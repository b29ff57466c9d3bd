/*
 * A stand-in for libusb-1.0 with one device on its bus: a board in DFU mode that runs Mullirim. A stock client that finds this
 * library before the real one talks to the proved calls. A board lives on between two runs of a client, so what it keeps stands in
 * files, which are named by the environment:
 *
 *   MULLIRIM_FLASH    its flash, a whole number of blocks
 *   MULLIRIM_FIRST    the block at which the application starts
 *   MULLIRIM_SESSION  its session; where there is no such file the board was without power, and starts
 *   MULLIRIM_TRACE    every transfer that reached the loader is added here: 8 setup bytes, the data of a DNLOAD, the answer's number
 *                     (8 bits), its count (32 bits, little-endian) and as many bytes of reply
 *
 * What a board's USB does with an answer:
 *   taken, reset asked   acknowledged, with the reply's bytes where the host reads; after "reset asked" the board restarts
 *   stalled, unfit       stalled
 *   faulted              acknowledged: the data stage is over when the loader sees it, and DFU tells why at the next GETSTATUS
 */
#define _DEFAULT_SOURCE
#include "usb.h"
#include "mullirim.h"
#include <fcntl.h>
#include <stdbool.h>
#include <stdio.h>
#include <stdlib.h>
#include <string.h>
#include <sys/mman.h>
#include <sys/stat.h>
#include <unistd.h>

enum { GET_DESCRIPTOR = 6, STRING = 3, DNLOAD = 1, FROM_DEVICE = 0x80, CLASS_OUT = 0x21, CLASS_IN = 0xA1 };

/* One of each, so their addresses tell nothing apart; clients see pointers only. */
struct libusb_context { char none; };
struct libusb_device { char none; };
struct libusb_device_handle { char none; };
static struct libusb_context the_context;
static struct libusb_device the_device;
static struct libusb_device_handle the_handle;

static struct {
    uint8_t *flash;
    size_t length;
    struct mullirim_session *session;
    bool gone; /* restarted: this client has to open it anew */
} board;

static void give_up(const char *what)
{
    fprintf(stderr, "stand-in for libusb: %s\n", what);
    _exit(99);
}

static const char *named(const char *name)
{
    const char *value = getenv(name);

    if (!value)
        give_up(name);
    return value;
}

/* A file as memory that takes plain stores, which is what the loader's flash and session are. A client may be killed at any time. */
static void *shared(const char *name, size_t length, bool *is_new)
{
    int file = open(name, O_RDWR | O_CREAT, 0666);
    struct stat seen;

    if (file < 0 || fstat(file, &seen))
        give_up(name);
    *is_new = seen.st_size == 0;
    if (*is_new && ftruncate(file, (off_t)length))
        give_up(name);
    if (!*is_new && seen.st_size != (off_t)length)
        give_up("the file of the flash or the session has another length");
    void *at = mmap(NULL, length, PROT_READ | PROT_WRITE, MAP_SHARED, file, 0);
    if (at == MAP_FAILED)
        give_up(name);
    close(file);
    return at;
}

static void power_on(void)
{
    uint32_t first = (uint32_t)strtoul(named("MULLIRIM_FIRST"), NULL, 10);
    struct mullirim_started s =
        mullirim_start(board.flash, board.length, first, (uint32_t)(board.length / MULLIRIM_BLOCK), 0x4D4C0001, 0x4D4C0002);

    if (s.code != MULLIRIM_TAKEN)
        give_up("the loader does not start on this flash");
    *board.session = s.session;
    board.gone = false;
}

static void plug_in(void)
{
    const char *flash = named("MULLIRIM_FLASH");
    struct stat seen;
    bool is_new;

    if (stat(flash, &seen) || seen.st_size == 0)
        give_up("there is no flash");
    board.length = (size_t)seen.st_size;
    board.flash = shared(flash, board.length, &is_new);
    board.session = shared(named("MULLIRIM_SESSION"), sizeof *board.session, &is_new);
    if (is_new)
        power_on();
}

static void trace(const uint8_t setup[8], const uint8_t *data, size_t length, struct mullirim_answer a, const uint8_t *reply)
{
    const char *name = getenv("MULLIRIM_TRACE");
    uint8_t answer[5] = {(uint8_t)a.code};

    for (int i = 0; i < 4; i++)
        answer[1 + i] = (uint8_t)(a.count >> 8 * i);
    if (!name)
        return;
    FILE *to = fopen(name, "ab");
    if (!to || fwrite(setup, 1, 8, to) != 8 || fwrite(data, 1, length, to) != length || fwrite(answer, 1, 5, to) != 5 ||
        fwrite(reply, 1, a.count, to) != a.count || fclose(to))
        give_up("the trace can't be written");
}

/* The bus. */

int libusb_init(libusb_context **context)
{
    if (context)
        *context = &the_context;
    plug_in();
    return LIBUSB_SUCCESS;
}

void libusb_exit(libusb_context *context)
{
    (void)context;
}

int libusb_set_option(libusb_context *context, int option, ...)
{
    (void)context, (void)option;
    return LIBUSB_SUCCESS;
}

const struct libusb_version *libusb_get_version(void)
{
    static const struct libusb_version version = {1, 0, 26, 0, "", "stand-in with a board that runs Mullirim"};

    return &version;
}

const char *libusb_error_name(int code)
{
    switch (code) {
    case LIBUSB_SUCCESS: return "LIBUSB_SUCCESS";
    case LIBUSB_ERROR_IO: return "LIBUSB_ERROR_IO";
    case LIBUSB_ERROR_INVALID_PARAM: return "LIBUSB_ERROR_INVALID_PARAM";
    case LIBUSB_ERROR_NO_DEVICE: return "LIBUSB_ERROR_NO_DEVICE";
    case LIBUSB_ERROR_NOT_FOUND: return "LIBUSB_ERROR_NOT_FOUND";
    case LIBUSB_ERROR_PIPE: return "LIBUSB_ERROR_PIPE";
    default: return "an error that the stand-in never gives";
    }
}

ssize_t libusb_get_device_list(libusb_context *context, libusb_device ***list)
{
    static libusb_device *devices[2] = {&the_device, NULL};

    (void)context;
    *list = devices;
    return 1;
}

void libusb_free_device_list(libusb_device **list, int unref)
{
    (void)list, (void)unref;
}

libusb_device *libusb_ref_device(libusb_device *device)
{
    return device;
}

void libusb_unref_device(libusb_device *device)
{
    (void)device;
}

uint8_t libusb_get_bus_number(libusb_device *device)
{
    (void)device;
    return 1;
}

uint8_t libusb_get_device_address(libusb_device *device)
{
    (void)device;
    return 5;
}

int libusb_get_port_numbers(libusb_device *device, uint8_t *ports, int room)
{
    (void)device;
    if (room < 1)
        return LIBUSB_ERROR_INVALID_PARAM;
    ports[0] = 2;
    return 1;
}

/* What the board says of itself. docs/DFU-UTIL.md tells why. */

static const char *const strings[] = {NULL, "Mullirim", "Controller in DFU mode", "STAND-IN", "Application flash"};

/* The functional descriptor: download, upload, manifestation tolerant; detach timeout 1,000 ms, transfer size 1,024, DFU 1.1. */
static const uint8_t functional[9] = {9, 0x21, 0x07, 0xE8, 0x03, MULLIRIM_BLOCK & 0xFF, MULLIRIM_BLOCK >> 8, 0x10, 0x01};

/* Class 0xFE, subclass 1, protocol 2: DFU mode. Its number is 0, since the loader takes no other in wIndex. */
static const struct libusb_interface_descriptor setting = {9, 4, 0, 0, 0, 0xFE, 1, 2, 4, NULL, functional, sizeof functional};
static const struct libusb_interface interfaces[1] = {{&setting, 1}};

int libusb_get_device_descriptor(libusb_device *device, struct libusb_device_descriptor *to)
{
    /* 1209:0001 is set aside for tests; a board has its own. */
    static const struct libusb_device_descriptor descriptor = {18, 1, 0x0200, 0, 0, 0, 64, 0x1209, 0x0001, 0x0100, 1, 2, 3, 1};

    (void)device;
    *to = descriptor;
    return LIBUSB_SUCCESS;
}

int libusb_get_config_descriptor(libusb_device *device, uint8_t index, struct libusb_config_descriptor **to)
{
    static struct libusb_config_descriptor config = {9, 2, 9 + 9 + sizeof functional, 1, 1, 0, 0x80, 50, interfaces, NULL, 0};

    (void)device;
    if (index != 0)
        return LIBUSB_ERROR_NOT_FOUND;
    *to = &config;
    return LIBUSB_SUCCESS;
}

void libusb_free_config_descriptor(struct libusb_config_descriptor *config)
{
    (void)config;
}

int libusb_open(libusb_device *device, libusb_device_handle **handle)
{
    (void)device;
    *handle = &the_handle;
    return LIBUSB_SUCCESS;
}

void libusb_close(libusb_device_handle *handle)
{
    (void)handle;
}

int libusb_claim_interface(libusb_device_handle *handle, int interface)
{
    (void)handle;
    return interface == 0 ? LIBUSB_SUCCESS : LIBUSB_ERROR_NOT_FOUND;
}

int libusb_release_interface(libusb_device_handle *handle, int interface)
{
    return libusb_claim_interface(handle, interface);
}

int libusb_set_interface_alt_setting(libusb_device_handle *handle, int interface, int number)
{
    (void)handle;
    return interface == 0 && number == 0 ? LIBUSB_SUCCESS : LIBUSB_ERROR_NOT_FOUND;
}

/* DFU: a USB reset takes a device out of DFU mode. This board has no other, so it starts anew. */
int libusb_reset_device(libusb_device_handle *handle)
{
    (void)handle;
    power_on();
    return LIBUSB_SUCCESS;
}

/* Transfers. */

/* A string descriptor: UTF-16 behind its length and kind. String 0 is the list of languages. */
static int give_string(unsigned number, uint8_t *to, uint16_t room)
{
    uint8_t descriptor[128] = {4, STRING, 0x09, 0x04};

    if (number >= sizeof strings / sizeof *strings)
        return LIBUSB_ERROR_PIPE;
    if (number > 0) {
        size_t length = strlen(strings[number]);
        descriptor[0] = (uint8_t)(2 + 2 * length);
        for (size_t i = 0; i < length; i++)
            descriptor[2 + 2 * i] = (uint8_t)strings[number][i], descriptor[3 + 2 * i] = 0;
    }
    int count = descriptor[0] < room ? descriptor[0] : room;
    memcpy(to, descriptor, (size_t)count);
    return count;
}

/* What the loader's interface is asked. */
static int serve(const uint8_t setup[8], uint8_t *data, uint16_t length)
{
    static uint8_t reply[MULLIRIM_REPLY_ROOM];
    bool dnload = setup[0] == CLASS_OUT && setup[1] == DNLOAD;
    bool reads = setup[0] & FROM_DEVICE;
    const uint8_t *sent = dnload && length ? data : setup; /* with the length 0 it points at something all the same */
    size_t sent_length = dnload ? length : 0;

    struct mullirim_answer a =
        mullirim_request(board.session, board.flash, board.length, setup, 8, sent, sent_length, reply, sizeof reply);
    trace(setup, sent, sent_length, a, reply);
    if (a.code == MULLIRIM_STALLED || a.code == MULLIRIM_UNFIT)
        return LIBUSB_ERROR_PIPE;
    if (a.code == MULLIRIM_RESET_ASKED) {
        power_on();
        board.gone = true;
    }
    if (!reads)
        return length;
    if (a.count > length)
        give_up("the loader answers more than was asked");
    memcpy(data, reply, a.count);
    return (int)a.count;
}

int libusb_control_transfer(libusb_device_handle *handle, uint8_t type, uint8_t request, uint16_t value, uint16_t index, uint8_t *data,
                            uint16_t length, unsigned timeout)
{
    const uint8_t setup[8] = {type,           request, (uint8_t)value,  (uint8_t)(value >> 8), (uint8_t)index, (uint8_t)(index >> 8),
                              (uint8_t)length, (uint8_t)(length >> 8)};

    (void)handle, (void)timeout;
    if (board.gone)
        return LIBUSB_ERROR_NO_DEVICE;
    if (type == FROM_DEVICE && request == GET_DESCRIPTOR && value >> 8 == STRING)
        return give_string(value & 0xFF, data, length);
    if (type == CLASS_OUT || type == CLASS_IN)
        return serve(setup, data, length);
    return LIBUSB_ERROR_PIPE;
}
