/*
 * A board for tools/beside: A = 16, B = 64, and a CHECK of all of its application. It is compiled with the header of the library that it
 * serves, so a library with another session has another board; BOARD is the name that tells them apart.
 */
#include "beside.h"
#include "mullirim.h"

#define JOINED(name, board) name##_##board
#define NAMED(name, board) JOINED(name, board)

typedef struct mullirim_started (*start_call)(const uint8_t *, size_t, uint32_t, uint32_t, uint32_t, uint32_t);
typedef struct mullirim_answer (*request_call)(struct mullirim_session *, uint8_t *, size_t, const uint8_t *, size_t, const uint8_t *, size_t,
                                               uint8_t *, size_t);

static _Alignas(64) struct mullirim_session fresh;

void NAMED(ready, BOARD)(struct lent *lent, any_call start)
{
    fresh = ((start_call)start)(lent->flash, FLASH, 16, 64, 0, 0).session;
}

/* The same CHECK so many times, each time from the fresh session. Answers whether the last was taken. */
int NAMED(serve, BOARD)(struct lent *lent, any_call request, int times)
{
    static const uint8_t setup[8] = {0x21, 1, 0, 0, 0, 0, 8, 0};
    static const uint8_t check[8] = {3, 0, 16, 0, 0, 0xC0, 0, 0};
    uint32_t code = MULLIRIM_UNFIT;
    for (int i = 0; i < times; i++) {
        struct mullirim_session session = fresh;
        code = ((request_call)request)(&session, lent->flash, FLASH, setup, 8, check, 8, lent->reply, sizeof lent->reply).code;
    }
    return code == MULLIRIM_TAKEN;
}
