/*
 * What the players of recordings share: the recording on standard input, whose numbers are little-endian, and places for what a call is
 * lent. Who includes this has said by PLAYED what it counts in `played`.
 *
 * What a call is lent stands alone: beside pages that trap on any touch, at one loan right before the upper one and at the next right
 * behind the lower one; or, built with CHECKED for AddressSanitizer, in a heap block of just that size.
 */
#include <stdint.h>
#include <stdio.h>
#include <stdlib.h>
#include <string.h>
#include <sys/mman.h>

enum { GUARD = 65536 };

static uint32_t played;

static void fail(const char *what)
{
    printf(PLAYED " %u: %s\n", (unsigned)played, what);
    exit(1);
}

static void read_bytes(void *to, size_t len)
{
    if (fread(to, 1, len, stdin) != len)
        fail("the recording ends early");
}

static uint32_t read_number(size_t most)
{
    uint8_t b[4];

    read_bytes(b, 4);
    uint32_t n = b[0] | (uint32_t)b[1] << 8 | (uint32_t)b[2] << 16 | (uint32_t)b[3] << 24;
    if (n > most)
        fail("the recording has a number out of bounds");
    return n;
}

/* A place of its own for what is lent. */
struct loan {
    uint8_t *pages, *at;
    size_t span;
    int low;
};

#ifdef CHECKED
enum { ALIGNED = 8 };

/* Nothing is lent behind a block: aligned, and not to be touched. */
static void find_place(struct loan *l, size_t len)
{
    l->at = malloc(len ? len : ALIGNED);
    if (!l->at)
        fail("no memory");
    if (!len)
        l->at += ALIGNED;
}
#else
static void find_place(struct loan *l, size_t len)
{
    if (!l->pages || l->span < len) {
        if (l->pages)
            munmap(l->pages, l->span + 2 * GUARD);
        l->span = (len / GUARD + 1) * GUARD;
        l->pages = mmap(NULL, l->span + 2 * GUARD, PROT_NONE, MAP_PRIVATE | MAP_ANONYMOUS, -1, 0);
        if (l->pages == MAP_FAILED || mprotect(l->pages + GUARD, l->span, PROT_READ | PROT_WRITE))
            fail("no memory");
    }
    l->low = !l->low;
    l->at = l->pages + GUARD + (l->low ? 0 : l->span - len);
}
#endif

static uint8_t *lend(struct loan *l, const void *from, size_t len)
{
    find_place(l, len);
    memcpy(l->at, from, len);
    return l->at;
}

static void give_back(struct loan *l, void *to, size_t len)
{
    memcpy(to, l->at, len);
#ifdef CHECKED
    free(len ? l->at : l->at - ALIGNED);
#endif
}

/* What was lent to be read only must come back as it went. */
static void same_back(struct loan *l, void *lent, size_t len)
{
    if (memcmp(l->at, lent, len))
        fail("what was lent to be read was written to");
    give_back(l, lent, len);
}
