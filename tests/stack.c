/*
 * How much memory a board must have for the loader: the bytes of a session, and the bytes of stack that each call uses; painted.h says how
 * these are found. The program fails where a request is not answered as it should be, or a call takes more than the header's
 * MULLIRIM_STACK, with this program's own frames counted in.
 *
 * Of the library only names of its header are used, so that it can be compiled with the header and library of another commit; where that
 * has no MULLIRIM_STACK, with -DMULLIRIM_STACK=... for it.
 */
#define _DEFAULT_SOURCE
#include "mullirim.h"
#include "painted.h"

enum { FIRST = 16, BLOCKS = MULLIRIM_MOST_BLOCKS, AT = FIRST * MULLIRIM_BLOCK, PROG_DATA = MULLIRIM_REPLY_ROOM - 8 };
enum { IDLE = 2, SYNC = 3, MANIFEST = 6, UP_IDLE = 9, ERROR = 10, INFO_BYTES = 24 };

/* What a call is lent, and what came of it. */
static struct {
    struct mullirim_session session;
    uint8_t flash[MULLIRIM_MOST_BLOCKS * MULLIRIM_BLOCK];
    size_t flash_len;
    uint32_t first;
    uint8_t setup[8], data[MULLIRIM_REPLY_ROOM], reply[MULLIRIM_REPLY_ROOM];
    size_t data_len;
    struct mullirim_answer answer;
    struct mullirim_started started;
} lent;

typedef struct mullirim_started start_call(const uint8_t *, size_t, uint32_t, uint32_t, uint32_t, uint32_t);
typedef struct mullirim_answer request_call(struct mullirim_session *, uint8_t *, size_t, const uint8_t *, size_t, const uint8_t *, size_t,
                                            uint8_t *, size_t);

/* Read at each call, so that none is made part of its caller. */
static start_call *volatile start = mullirim_start;
static request_call *volatile request = mullirim_request;

static struct mullirim_started start_nothing(const uint8_t *flash, size_t len, uint32_t first, uint32_t blocks, uint32_t part, uint32_t klass)
{
    struct mullirim_started s;

    (void)flash, (void)len, (void)blocks, (void)part, (void)klass;
    s.code = first;
    return s;
}

static struct mullirim_answer request_nothing(struct mullirim_session *s, uint8_t *flash, size_t flash_len, const uint8_t *setup,
                                              size_t setup_len, const uint8_t *data, size_t data_len, uint8_t *reply, size_t reply_len)
{
    (void)s, (void)flash, (void)flash_len, (void)setup, (void)setup_len, (void)data, (void)data_len, (void)reply, (void)reply_len;
    return lent.answer;
}

static void call_start(void)
{
    lent.started = start(lent.flash, lent.flash_len, lent.first, (uint32_t)(lent.flash_len / MULLIRIM_BLOCK), 0, 0);
}

static void call_request(void)
{
    lent.answer = request(&lent.session, lent.flash, lent.flash_len, lent.setup, sizeof lent.setup, lent.data, lent.data_len, lent.reply,
                          sizeof lent.reply);
}

/* What is lent is made ready by the case at hand. */
static void board(uint32_t first, uint32_t blocks, int byte)
{
    memset(&lent, 0, sizeof lent);
    lent.first = first;
    lent.flash_len = (size_t)blocks * MULLIRIM_BLOCK;
    memset(lent.flash, byte, lent.flash_len);
    lent.session = mullirim_start(lent.flash, lent.flash_len, first, blocks, 0, 0).session;
}

static void setup(uint8_t type, uint8_t number, size_t length)
{
    const uint8_t bytes[8] = {type, number, 0, 0, 0, 0, (uint8_t)length, (uint8_t)(length >> 8)};

    memcpy(lent.setup, bytes, 8);
}

static void dnload(uint8_t number, uint32_t length, size_t data_len)
{
    const uint8_t head[8] = {number, 0, FIRST, 0, (uint8_t)length, (uint8_t)(length >> 8), (uint8_t)(length >> 16), 0};

    setup(0x21, 1, data_len);
    memset(lent.data, 0x31, sizeof lent.data);
    memcpy(lent.data, head, 8);
    lent.data_len = data_len;
}

/* On an application that is all erased, and on one that is not. */
static void erased(uint8_t number, uint32_t length, size_t data_len) { board(FIRST, BLOCKS, 0xFF), dnload(number, length, data_len); }
static void written(uint8_t number, uint32_t length) { board(FIRST, BLOCKS, 0x5A), dnload(number, length, 8); }
static void asked(uint8_t type, uint8_t number, size_t length) { board(FIRST, BLOCKS, 0x5A), setup(type, number, length); }

/* The request that is ready, and the poll behind it. */
static void done(void)
{
    call_request();
    setup(0xA1, 3, 6), lent.data_len = 0;
    call_request();
}

/* A download of so many bytes that has had its first data, in state 5. */
static void begun(uint32_t length) { erased(1, length, MULLIRIM_REPLY_ROOM), done(); }

static void small_start(void) { board(1, 2, 0x5A); }
static void large_start(void) { board(1, BLOCKS, 0x5A); }
static void getstate(void) { asked(0xA1, 5, 1); }
static void getstatus(void) { asked(0xA1, 3, 6); }
static void query(void) { asked(0xA1, 0x42, 4), lent.setup[2] = 0x23; }
static void abort_request(void) { asked(0x21, 6, 0); }
static void stalled(void) { asked(0x21, 4, 0); }
static void clrstatus(void) { stalled(), call_request(); }
static void upload(void) { asked(0xA1, 2, MULLIRIM_REPLY_ROOM); }
static void prog(void) { erased(1, 2 * MULLIRIM_BLOCK, MULLIRIM_REPLY_ROOM); }
static void prog_alone(void) { erased(1, 2 * MULLIRIM_BLOCK, 8); }
static void check(void) { erased(3, (BLOCKS - FIRST) * MULLIRIM_BLOCK, 8); }
static void read(void) { written(2, MULLIRIM_BLOCK); }
static void erase(void) { written(4, 1); }
static void erase_all(void) { written(4, BLOCKS - FIRST); }
static void info(void) { written(5, 0); }
static void bin(void) { written(6, 0); }
static void reset(void) { written(7, 0); }
static void info_bytes(void) { info(), done(), setup(0xA1, 2, MULLIRIM_REPLY_ROOM); }
static void piece(void) { begun(2 * MULLIRIM_BLOCK), setup(0x21, 1, MULLIRIM_REPLY_ROOM), lent.data_len = MULLIRIM_REPLY_ROOM; }
static void closed(void) { begun(PROG_DATA), setup(0x21, 1, 0); }
static void early(void) { begun(2 * MULLIRIM_BLOCK), setup(0x21, 1, 0); }
static void unknown(void) { written(8, 0); }
static void unerased(void) { written(1, MULLIRIM_BLOCK); }
static void unfit(void) { getstate(), lent.session.phase.status = 1; }

/* What a request must come to: code, count, the reply's first byte, the state, and the byte at a place of the flash. */
struct awaited {
    uint32_t code, count;
    uint8_t first, state;
    size_t place;
    uint8_t byte;
};

static const struct {
    const char *name;
    void (*ready)(void);
    struct awaited awaited;
} requests[] = {
    {"GETSTATE", getstate, {MULLIRIM_TAKEN, 1, IDLE, IDLE, AT, 0x5A}},
    {"GETSTATUS", getstatus, {MULLIRIM_TAKEN, 6, 0, IDLE, AT, 0x5A}},
    {"query", query, {MULLIRIM_TAKEN, 4, 0x4D, IDLE, AT, 0x5A}},
    {"ABORT", abort_request, {MULLIRIM_TAKEN, 0, 0, IDLE, AT, 0x5A}},
    {"CLRSTATUS", clrstatus, {MULLIRIM_TAKEN, 0, 0, IDLE, AT, 0x5A}},
    {"UPLOAD of 1,024 bytes", upload, {MULLIRIM_TAKEN, MULLIRIM_REPLY_ROOM, 1, UP_IDLE, AT, 0x5A}},
    {"UPLOAD of the info bytes", info_bytes, {MULLIRIM_TAKEN, INFO_BYTES, 0, UP_IDLE, AT, 0x5A}},
    {"PROG with 1,016 bytes of data", prog, {MULLIRIM_TAKEN, 0, 0, SYNC, AT + PROG_DATA - 1, 0x31}},
    {"PROG alone", prog_alone, {MULLIRIM_TAKEN, 0, 0, SYNC, AT, 0xFF}},
    {"READ", read, {MULLIRIM_TAKEN, 0, 0, SYNC, AT, 0x5A}},
    {"CHECK of the whole application", check, {MULLIRIM_TAKEN, 0, 0, SYNC, AT, 0xFF}},
    {"ERASE of one block", erase, {MULLIRIM_TAKEN, 0, 0, SYNC, AT + MULLIRIM_BLOCK - 1, 0xFF}},
    {"ERASE of the whole application", erase_all, {MULLIRIM_TAKEN, 0, 0, SYNC, BLOCKS * MULLIRIM_BLOCK - 1, 0xFF}},
    {"INFO", info, {MULLIRIM_TAKEN, 0, 0, SYNC, AT, 0x5A}},
    {"BIN", bin, {MULLIRIM_TAKEN, 0, 0, SYNC, AT, 0x5A}},
    {"RESET", reset, {MULLIRIM_RESET_ASKED, 0, 0, IDLE, AT, 0x5A}},
    {"piece of 1,024 bytes", piece, {MULLIRIM_TAKEN, 0, 0, SYNC, AT + PROG_DATA + MULLIRIM_REPLY_ROOM - 1, 0x31}},
    {"close", closed, {MULLIRIM_TAKEN, 0, 0, MANIFEST, AT, 0x31}},
    {"faulted: command 8", unknown, {MULLIRIM_FAULTED, 0, 0, ERROR, AT, 0x5A}},
    {"faulted: PROG, not erased", unerased, {MULLIRIM_FAULTED, 0, 0, ERROR, AT, 0x5A}},
    {"faulted: closed too early", early, {MULLIRIM_FAULTED, 0, 0, ERROR, AT, 0x31}},
    {"stalled: CLRSTATUS in state 2", stalled, {MULLIRIM_STALLED, 0, 0, ERROR, AT, 0x5A}},
    {"unfit: GETSTATE, session broken", unfit, {MULLIRIM_UNFIT, 0, 0, IDLE, AT, 0x5A}},
};

static const char WRONG[] = "is not answered as it should be", DEEP[] = "takes more stack than MULLIRIM_STACK";

/* `down` is all that the call took with the frames around it, `own` is what those take. */
static void print_call(const char *name, size_t down, size_t own)
{
    print(name, down - own);
    if (down > MULLIRIM_STACK)
        fail(name, DEEP);
}

/* The sums that a start must find are those of the same bytes in any block. */
static void print_start(const char *name, void (*ready)(void), size_t own)
{
    char text[64];
    size_t down = deepest(call_start, ready);
    const struct mullirim_session *s = &lent.started.session;
    uint32_t last = s->board.blocks - 1;

    if (lent.started.code != MULLIRIM_TAKEN || s->sums.block[lent.first] == 0 || s->sums.block[last] != s->sums.block[lent.first])
        fail(name, WRONG);
    snprintf(text, sizeof text, "%s, A = %u, B = %u", name, (unsigned)lent.first, (unsigned)last + 1);
    print_call(text, down, own);
}

static void print_request(size_t i, size_t own)
{
    const struct awaited *w = &requests[i].awaited;
    size_t down = deepest(call_request, requests[i].ready);

    if (lent.answer.code != w->code || lent.answer.count != w->count || lent.reply[0] != w->first)
        fail(requests[i].name, WRONG);
    if (lent.session.phase.state != w->state || lent.flash[w->place] != w->byte)
        fail(requests[i].name, WRONG);
    print_call(requests[i].name, down, own);
}

int main(void)
{
    print("session, bytes", sizeof(struct mullirim_session));
    puts("stack, bytes that a call writes:");
    start = start_nothing, request = request_nothing;
    size_t own_start = deepest(call_start, small_start), own_request = deepest(call_request, getstate);
    start = mullirim_start, request = mullirim_request;
    print_start("start", small_start, own_start);
    print_start("start", large_start, own_start);
    for (size_t i = 0; i < sizeof requests / sizeof *requests; i++)
        print_request(i, own_request);
    return 0;
}
