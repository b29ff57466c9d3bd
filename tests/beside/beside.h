/* What the program of tools/beside and its boards share. */
#ifndef BESIDE_H
#define BESIDE_H

#include <stddef.h>
#include <stdint.h>

enum { FLASH = 65536, APPLICATION = 16384 };

/* All sides are lent the same bytes, so that none has them at a better place. */
struct lent {
    _Alignas(64) uint8_t flash[FLASH];
    _Alignas(64) uint8_t reply[1024];
};

typedef void (*any_call)(void);

/* A library at one place in memory: its two calls, and the board that serves them. */
struct copy {
    void (*ready)(struct lent *, any_call start);
    int (*serve)(struct lent *, any_call request, int times);
    any_call start, request;
};

#endif
