/*
 * Plays a recording of calls through the library and holds all that each call leaves to what the recording says. It comes on standard
 * input, from host/src/bin/record.rs; its numbers are little-endian.
 *
 *   'S' length of the flash (32 bits), bytes; how much of it is lent, first, blocks, part, klass (32 bits each); answer (8 bits), session
 *   'R' session; lengths of flash, setup, data and reply (32 bits each), setup, data;
 *       answer (8 bits), count (32 bits), as many bytes of reply, session, change: place, length (32 bits each) and bytes
 *   'E' the number of all requests (32 bits)
 */
#define _DEFAULT_SOURCE
#define PLAYED "request"
#include "lent.h"
#include "mullirim.h"

enum { ROOM = (MULLIRIM_MOST_BLOCKS + 1) * MULLIRIM_BLOCK, REPLY = 2 * MULLIRIM_REPLY_ROOM, SETUP = 16, DATA = 65536 };

static uint32_t wide, most;
static uint8_t flash[ROOM], reply[REPLY], setup[SETUP], data[DATA];

/* Field by field, since padding may hold anything. */
static void same_session(const struct mullirim_session *s)
{
    struct mullirim_session t;

    read_bytes(&t, sizeof t);
    if (memcmp(&s->board, &t.board, sizeof t.board) || memcmp(&s->phase, &t.phase, sizeof t.phase))
        fail("board or phase of the session");
    if (memcmp(&s->download, &t.download, sizeof t.download) || memcmp(&s->sums, &t.sums, sizeof t.sums))
        fail("download or sums of the session");
    if (s->upload.choice != t.upload.choice || s->upload.prefix != t.upload.prefix || s->upload.first != t.upload.first ||
        s->upload.len != t.upload.len || s->upload.place != t.upload.place)
        fail("upload of the session");
    if (s->unerased != t.unerased)
        fail("unerased address of the session");
}

static void play_start(void)
{
    static uint8_t after[ROOM];
    static struct loan f;
    size_t room = read_number(ROOM);

    read_bytes(flash, room);
    size_t len = read_number(room);
    uint32_t first = read_number(UINT32_MAX), blocks = read_number(UINT32_MAX);
    uint32_t part = read_number(UINT32_MAX), klass = read_number(UINT32_MAX);
    uint8_t code;

    read_bytes(&code, 1);
    memset(reply, 0xEE, REPLY);
    struct mullirim_started s = mullirim_start(lend(&f, flash, len), len, first, blocks, part, klass);
    give_back(&f, after, len);
    if (s.code != code)
        fail("answer of a start");
    if (memcmp(flash, after, len))
        fail("a start changed the flash");
    same_session(&s.session);
    wide += first > UINT16_MAX || blocks > UINT16_MAX;
    most += code == MULLIRIM_TAKEN && blocks == MULLIRIM_MOST_BLOCKS;
}

/* The outcome, once the recording's own change is made to `flash` and its reply to `reply`. */
static void same_outcome(struct mullirim_answer a, const struct mullirim_session *s, const uint8_t *f, size_t flash_len, const uint8_t *r,
                         size_t reply_len)
{
    uint8_t code;

    read_bytes(&code, 1);
    uint32_t count = read_number(reply_len);
    if (a.code != code || a.count != count)
        fail("answer or count");
    read_bytes(reply, count);
    if (memcmp(r, reply, reply_len))
        fail("reply");
    same_session(s);
    uint32_t place = read_number(flash_len);
    read_bytes(flash + place, read_number(flash_len - place));
    if (memcmp(f, flash, flash_len))
        fail("flash");
}

static void play_request(void)
{
    static uint8_t flash_after[ROOM], reply_after[REPLY];
    static struct loan s, f, u, d, r;
    struct mullirim_session session;

    played++;
    read_bytes(&session, sizeof session);
    size_t flash_len = read_number(ROOM), setup_len = read_number(SETUP), data_len = read_number(DATA), reply_len = read_number(REPLY);
    read_bytes(setup, setup_len);
    read_bytes(data, data_len);
    struct mullirim_session *lent = (void *)lend(&s, &session, sizeof session);
    struct mullirim_answer a = mullirim_request(lent, lend(&f, flash, flash_len), flash_len, lend(&u, setup, setup_len), setup_len,
                                                lend(&d, data, data_len), data_len, lend(&r, reply, reply_len), reply_len);
    give_back(&s, &session, sizeof session);
    give_back(&f, flash_after, flash_len);
    same_back(&u, setup, setup_len);
    same_back(&d, data, data_len);
    give_back(&r, reply_after, reply_len);
    same_outcome(a, &session, flash_after, flash_len, reply_after, reply_len);
}

int main(void)
{
    uint32_t starts = 0;

    for (int kind = getchar(); kind != 'E'; kind = getchar()) {
        if (kind == 'S')
            play_start(), starts++;
        else if (kind == 'R')
            play_request();
        else
            fail("the recording has no such part");
    }
    if (read_number(UINT32_MAX) != played || getchar() != EOF)
        fail("the recording does not end as it says");
    printf("%u requests after %u starts (%u with A or B over 65,535, %u on %u blocks) replayed: all as recorded\n", (unsigned)played,
           (unsigned)starts, (unsigned)wide, (unsigned)most, (unsigned)MULLIRIM_MOST_BLOCKS);
    return 0;
}
