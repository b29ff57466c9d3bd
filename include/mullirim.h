/*
 * Mullirim, a firmware loader: the calls of its library for C.
 *
 * A board keeps one session, its flash and a reply buffer, makes the session with mullirim_start, and hands every control
 * transfer of the loader's interface to mullirim_request. Both calls take any values: what can't be served is answered and
 * changes nothing that it must not. They keep no memory of their own, and of the C library want memcpy and memset only.
 *
 * What the board owes, since no proof can see it:
 *  - a pointer with a length points at that many bytes, which the call may read, and write where it is not const. With the length
 *    0 it still is not null. ERASE and downloads are plain stores into the flash that is lent, so it is memory that takes them;
 *  - the session is a session of this type, at an address that suits it;
 *  - what is written (session, flash, reply) overlaps with nothing else that the same call is lent;
 *  - nobody else writes any of it while a call runs, nor the flash and the session between two calls.
 *    A session that somebody else wrote is refused (answer 2) if it breaks its rules, and else served as it stands: a smaller
 *    `first` opens blocks that the start had kept shut, and a wrong block sum stays until its block is erased or written. An erase
 *    or a write makes the sums of its own blocks from the flash and joins the whole sum from all block sums, so a wrong one can
 *    make the whole wrong too. The same goes for sums that no longer fit because somebody else wrote flash. No byte beyond what
 *    was lent is touched.
 */
#ifndef MULLIRIM_H
#define MULLIRIM_H

#include <stddef.h>
#include <stdint.h>

#ifdef __cplusplus
extern "C" {
#endif

/* What a flash is made of. */
#define MULLIRIM_BLOCK 1024u      /* the bytes of a block */
#define MULLIRIM_MOST_BLOCKS 256u /* the most blocks of a flash */
#define MULLIRIM_REPLY_ROOM 1024u /* a reply buffer has at least so many bytes */
#define MULLIRIM_NONE 0xFFFFFFFFu /* in place of an address: there is none */

/* So many bytes of stack are enough for any call of the library as it ships, for x86-64: measured by its tests, not proved. */
#define MULLIRIM_STACK 4096u

/* What the host hears. */
enum mullirim_code {
    MULLIRIM_TAKEN = 0,      /* carried out: the first `count` bytes of the reply buffer are the answer */
    MULLIRIM_STALLED = 1,    /* wrong form, or not allowed in this state: stall the transfer */
    MULLIRIM_UNFIT = 2,      /* lengths or the session are not as they must be: nothing was done; stall the transfer */
    MULLIRIM_FAULTED = 3,    /* a download that can't be done: acknowledge it, the host hears why by GETSTATUS */
    MULLIRIM_RESET_ASKED = 4 /* the host asks for a restart: the board's to do, after it acknowledged the transfer */
};

/* What the start was told. */
struct mullirim_board {
    uint32_t first;  /* the block at which the application starts, 1 or more */
    uint32_t blocks; /* the blocks of the flash, more than `first` and at most MULLIRIM_MOST_BLOCKS */
    uint32_t part;   /* the first part number, the PARTID of the guide, which INFO reports */
    uint32_t klass;  /* the second, its CLASSID, which INFO reports behind it */
};

/* Where the conversation with the host stands. */
struct mullirim_phase {
    uint8_t state;  /* 2 idle, 3 download sync, 5 download idle, 6 manifest sync, 9 upload idle, 10 error */
    uint8_t status; /* 0 outside state 10; in it 0x05 not erased, 0x08 range or too much data, 0x09 closed too early, 0x0B no
                       command, 0x0F stalled */
    uint8_t after;  /* the state after sync: 2, or in state 3 also 5 */
};

/* The running download; zeros where none runs. */
struct mullirim_download {
    uint32_t place; /* the address of the next byte */
    uint32_t left;  /* the bytes that remain */
};

/* What an upload reads. */
struct mullirim_upload {
    uint8_t choice; /* 0 the flash stream, 1 the info bytes */
    uint8_t prefix; /* 1 where a header stands before the range, else 0 */
    uint32_t first; /* the first block of the read range */
    uint32_t len;   /* the bytes of the read range */
    uint32_t place; /* the bytes of the stream that were answered; 0 outside state 9 */
};

/* The kept sums: CRC-32 as in a DFU file suffix, from 0xFFFFFFFF and with no complement at the end. */
struct mullirim_sums {
    uint32_t block[MULLIRIM_MOST_BLOCKS]; /* by block number; 0 for what is not a block of the application */
    uint32_t whole;                       /* over the application, in the order of addresses; had from the block sums */
};

/* A session. Read it as you like; only the two calls write it. */
struct mullirim_session {
    struct mullirim_board board;
    struct mullirim_phase phase;
    struct mullirim_download download;
    struct mullirim_upload upload;
    uint32_t unerased; /* the address of the first byte that the last CHECK or PROG found not to be 0xFF, or MULLIRIM_NONE where it
                          found none; none too after a start or RESET. One that is refused before it looks leaves this as it was.
                          INFO reports it as its last four bytes; nothing else reads it, and any number will do */
    struct mullirim_sums sums;
};

/* What a start hands back. */
struct mullirim_started {
    uint32_t code;                   /* MULLIRIM_TAKEN or MULLIRIM_UNFIT */
    struct mullirim_session session; /* fresh; where the code is MULLIRIM_UNFIT all zeros, which every request finds unfit */
};

/* What a request hands back. */
struct mullirim_answer {
    uint32_t code;  /* one of enum mullirim_code */
    uint32_t count; /* the bytes of the reply that are meant; 0 unless the code is MULLIRIM_TAKEN */
};

/*
 * Reads a flash of `blocks` blocks, whose application starts at block `first`, and makes its session: state 2, sums filled, the
 * upload set to all of the application with its prefix. Changes no byte of the flash. Unfit unless
 * 1 <= first < blocks <= MULLIRIM_MOST_BLOCKS and flash_len == blocks * MULLIRIM_BLOCK.
 */
struct mullirim_started mullirim_start(const uint8_t *flash, size_t flash_len, uint32_t first, uint32_t blocks,
                                       uint32_t part, uint32_t klass);

/*
 * Serves one control transfer: its 8 setup bytes, and for a DNLOAD (type 0x21, number 1) the wLength bytes that came with it; data_len is
 * 0 for any other. The session is changed in place, the flash by ERASE and downloads alone, and of the reply buffer the first
 * `count` bytes.
 */
struct mullirim_answer mullirim_request(struct mullirim_session *session, uint8_t *flash, size_t flash_len,
                                        const uint8_t *setup, size_t setup_len, const uint8_t *data, size_t data_len,
                                        uint8_t *reply, size_t reply_len);

#ifdef __cplusplus
}
#endif

#endif
