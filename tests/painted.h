/*
 * How much stack a call uses: it runs on a stack of its own that was painted before, and what it wrote is no longer of that colour. A call
 * that does nothing shows what the program's own frames take, with arguments and return address; who measures takes that off.
 */
#include <stdint.h>
#include <stdio.h>
#include <stdlib.h>
#include <string.h>
#include <ucontext.h>

enum { STACK = 1 << 16 };

static void fail(const char *what, const char *how)
{
    printf("stack: %s %s\n", what, how);
    exit(1);
}

static void print(const char *name, size_t bytes)
{
    printf("%-38s %7zu\n", name, bytes);
}

/* How far down a call writes on a stack of this colour. */
static size_t depth(void (*call)(void), int colour)
{
    static _Alignas(64) uint8_t stack[STACK];
    static ucontext_t here, there;
    size_t untouched = 0;

    memset(stack, colour, STACK);
    if (getcontext(&there))
        exit(2);
    there.uc_stack.ss_sp = stack;
    there.uc_stack.ss_size = STACK;
    there.uc_link = &here;
    makecontext(&there, call, 0);
    if (swapcontext(&here, &there))
        exit(2);
    while (untouched < STACK && stack[untouched] == colour)
        untouched++;
    if (untouched == 0)
        exit(2);
    return STACK - untouched;
}

/* A byte that is written may have the colour by chance, so there are two; and the first call of all may be slower than later ones, since
 * the C library's functions are looked for at the first use of each. `ready` puts all that is lent as it was. */
static size_t deepest(void (*call)(void), void (*ready)(void))
{
    static const int colours[] = {0, 0x5A, 0xA5};
    size_t most = 0;

    for (size_t i = 0; i < sizeof colours / sizeof *colours; i++) {
        ready();
        size_t down = depth(call, colours[i]);
        if (i > 0 && down > most)
            most = down;
    }
    return most;
}
