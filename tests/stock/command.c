/*
 * Sends one of the loader's eight-byte commands to a board in DFU mode, which stock clients don't do:
 *
 *   command VID:PID erase BLOCK COUNT     sets COUNT blocks to 0xFF
 *   command VID:PID check BLOCK LENGTH    asks whether they are
 *   command VID:PID read BLOCK LENGTH     chooses what the next upload reads
 *   command VID:PID info                  the next upload reads the 24 info bytes
 *   command VID:PID bin 0|1               uploads begin with a prefix (0) or without (1)
 *   command VID:PID reset                 asks the board to restart
 *
 * Prints the state and status that the board ends in, and exits with 0 where the command was carried out, 1 where not, 2 for wrong
 * use. Build it with: cc tests/stock/command.c -l:libusb-1.0.so.0 -o command
 */
#define _DEFAULT_SOURCE
#include "usb.h"
#include <stdbool.h>
#include <stdio.h>
#include <stdlib.h>
#include <string.h>
#include <unistd.h>

enum { TO_BOARD = 0x21, FROM_BOARD = 0xA1, DNLOAD = 1, GETSTATUS = 3, CLRSTATUS = 4, ABORT = 6, PATIENCE = 5000 };
enum { IDLE = 2, SYNC = 3, ERROR = 10, READ = 2, CHECK = 3, ERASE = 4, INFO = 5, BIN = 6, RESET = 7 };

static libusb_device_handle *handle;

static void fail(const char *what, int code)
{
    fprintf(stderr, "command: %s (%s)\n", what, libusb_error_name(code));
    exit(1);
}

static void open_board(unsigned vendor, unsigned product)
{
    libusb_device **list;
    struct libusb_device_descriptor seen;
    int code = libusb_init(NULL);

    if (code < 0)
        fail("no USB", code);
    ssize_t count = libusb_get_device_list(NULL, &list);
    for (ssize_t i = 0; i < count && !handle; i++) {
        if (libusb_get_device_descriptor(list[i], &seen) == 0 && seen.idVendor == vendor && seen.idProduct == product)
            code = libusb_open(list[i], &handle);
    }
    if (!handle)
        fail("no such board, or not ours to open", code ? code : LIBUSB_ERROR_NO_DEVICE);
    code = libusb_claim_interface(handle, 0);
    if (code < 0)
        fail("its interface 0 is not ours to use", code);
}

static void ask(uint8_t request, uint8_t *data, uint16_t length, const char *what)
{
    int code = libusb_control_transfer(handle, TO_BOARD, request, 0, 0, data, length, PATIENCE);

    if (code < 0)
        fail(what, code);
}

/* Status, poll time (24 bits), state. Waits as long as the board asks. */
static int poll_board(uint8_t reply[6])
{
    int code = libusb_control_transfer(handle, FROM_BOARD, GETSTATUS, 0, 0, reply, 6, PATIENCE);

    if (code == 6)
        usleep(1000u * (reply[1] | (unsigned)reply[2] << 8 | (unsigned)reply[3] << 16));
    return code;
}

/* Whatever an earlier client left behind is ended. */
static void make_idle(void)
{
    uint8_t reply[6];

    for (;;) {
        int code = poll_board(reply);
        if (code != 6)
            fail("no status", code);
        if (reply[4] == IDLE)
            return;
        if (reply[4] == ERROR)
            ask(CLRSTATUS, reply, 0, "its error can't be cleared");
        else
            ask(ABORT, reply, 0, "what it does can't be ended");
    }
}

static int send_command(uint8_t command[8])
{
    uint8_t reply[6] = {0};
    int code;

    make_idle();
    ask(DNLOAD, command, 8, "the command was not taken");
    do {
        code = poll_board(reply);
    } while (code == 6 && reply[4] == SYNC);
    if (code != 6 && command[0] == RESET) {
        puts("the board restarts");
        return 0;
    }
    if (code != 6)
        fail("no status", code);
    printf("state %u, status %02X\n", reply[4], reply[0]);
    return reply[4] != IDLE;
}

static const struct {
    const char *word;
    int words; /* with the program's name and the board */
    uint8_t number;
    unsigned long most; /* for the second number */
} commands[] = {{"erase", 5, ERASE, 0xFFFF}, {"check", 5, CHECK, 0xFFFFFFFF}, {"read", 5, READ, 0xFFFFFFFF},
                {"info", 3, INFO, 0},        {"bin", 4, BIN, 0},              {"reset", 3, RESET, 0}};

/* The number in a word, which is 0 where there is none; more than `most` is no number for us. */
static bool number(const char *word, unsigned long most, unsigned long *to)
{
    char *end = "";

    *to = word ? strtoul(word, &end, 0) : 0;
    return *end == 0 && *to <= most;
}

/* The eight bytes for the words behind the board's, if they make sense. */
static bool spell(int count, char **words, uint8_t command[8])
{
    unsigned long first, length;
    size_t i = 0;

    while (i < sizeof commands / sizeof *commands && strcmp(words[2], commands[i].word))
        i++;
    if (i == sizeof commands / sizeof *commands || count != commands[i].words)
        return false;
    if (!number(words[3], 0xFFFF, &first) || !number(count > 4 ? words[4] : NULL, commands[i].most, &length))
        return false;
    command[0] = commands[i].number;
    command[1] = commands[i].number == BIN && first != 0;
    command[2] = (uint8_t)first, command[3] = (uint8_t)(first >> 8);
    for (int k = 0; k < 4; k++)
        command[4 + k] = (uint8_t)(length >> 8 * k);
    return true;
}

int main(int count, char **words)
{
    uint8_t command[8];
    unsigned vendor, product;

    if (count < 3 || sscanf(words[1], "%4x:%4x", &vendor, &product) != 2 || !spell(count, words, command)) {
        fputs("command VID:PID erase BLOCK COUNT | check BLOCK LENGTH | read BLOCK LENGTH | info | bin 0|1 | reset\n", stderr);
        return 2;
    }
    open_board(vendor, product);
    return send_command(command);
}
