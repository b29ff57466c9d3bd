/*
 * A board that answers control transfers over a simulated flash: query, ERASE of a block, GETSTATUS.
 * After `rt lib` in crates/board: cc -Iinclude examples/board.c crates/board/out/libboard.a
 */
#include <stdio.h>
#include <string.h>
#include "mullirim.h"

enum { FIRST = 16, BLOCKS = 64 };

static uint8_t flash[BLOCKS * MULLIRIM_BLOCK];
static uint8_t reply[MULLIRIM_REPLY_ROOM];
static struct mullirim_session session;

/* One transfer: prints the answer's number, the bytes of the reply that are meant, and the state that the session is in. */
static void transfer(const char *name, const uint8_t setup[8], const uint8_t *data, size_t len)
{
    struct mullirim_answer a = mullirim_request(&session, flash, sizeof flash, setup, 8, data, len, reply, sizeof reply);

    printf("%s: answer %u, reply", name, (unsigned)a.code);
    for (uint32_t i = 0; i < a.count; i++)
        printf(" %02X", reply[i]);
    printf(", state %u, byte %02X\n", session.phase.state, flash[FIRST * MULLIRIM_BLOCK]);
}

int main(void)
{
    static const uint8_t query[8] = {0xA1, 0x42, 0x23, 0, 0, 0, 4, 0};
    static const uint8_t dnload[8] = {0x21, 1, 0, 0, 0, 0, 8, 0};
    static const uint8_t getstatus[8] = {0xA1, 3, 0, 0, 0, 0, 6, 0};
    static const uint8_t erase[8] = {4, 0, FIRST, 0, 1, 0, 0, 0};
    static const uint8_t none[1];

    memset(flash, 0x5A, sizeof flash);
    struct mullirim_started s = mullirim_start(flash, sizeof flash, FIRST, BLOCKS, 0, 0);
    if (s.code != MULLIRIM_TAKEN)
        return 1;
    session = s.session;
    transfer("query", query, none, 0);
    transfer("erase", dnload, erase, sizeof erase);
    transfer("status", getstatus, none, 0);
    return 0;
}
