/*
 * How many bytes of stack a sum uses, in the library of sum and join alone; painted.h says how that is found. How deep a sum goes may hang
 * on the blocks that its bytes are cut into, the largest of 1,024: so every length up to two of these and some more is tried, and that of a
 * whole application, and the deepest is printed. The program fails where a sum is not the one that is made bit by bit.
 */
#define _DEFAULT_SOURCE
#include "painted.h"

enum { EVERY = 2100, APPLICATION = 49152 };

/* No header has it: it is there to be measured, and no call for boards. */
uint32_t mullirim_sum(const uint8_t *bytes, size_t len);

/* What a call is lent, and what came of it. */
static struct {
    uint8_t bytes[APPLICATION];
    size_t len;
    uint32_t sum;
} lent;

typedef uint32_t sum_call(const uint8_t *, size_t);

/* Read at each call, so that none is made part of its caller. */
static sum_call *volatile sum;

static uint32_t sum_nothing(const uint8_t *bytes, size_t len)
{
    (void)bytes;
    return (uint32_t)len;
}

static void call_sum(void)
{
    lent.sum = sum(lent.bytes, lent.len);
}

static void ready(void)
{
    lent.sum = 0;
}

static uint32_t by_bits(const uint8_t *bytes, size_t len)
{
    uint32_t rest = 0xFFFFFFFF;

    for (size_t i = 0; i < len; i++) {
        rest ^= bytes[i];
        for (int bit = 0; bit < 8; bit++)
            rest = rest >> 1 ^ (rest & 1) * 0xEDB88320;
    }
    return rest;
}

static void noise(void)
{
    uint32_t number = 1;

    for (size_t i = 0; i < APPLICATION; i++) {
        number = number * 1664525 + 1013904223;
        lent.bytes[i] = (uint8_t)(number >> 24);
    }
}

/* How far down the sum of so many bytes goes. */
static size_t down(size_t len)
{
    char text[64];

    lent.len = len;
    size_t bytes = deepest(call_sum, ready);
    if (lent.sum != by_bits(lent.bytes, len)) {
        snprintf(text, sizeof text, "a sum of %zu bytes", len);
        fail(text, "is wrong");
    }
    return bytes;
}

int main(void)
{
    noise();
    sum = sum_nothing;
    size_t own = deepest(call_sum, ready);
    sum = mullirim_sum;
    size_t most = down(APPLICATION);
    for (size_t len = 0; len <= EVERY; len++) {
        size_t bytes = down(len);
        if (bytes > most)
            most = bytes;
    }
    print("stack: a sum", most - own);
    return 0;
}
