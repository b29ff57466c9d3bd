/*
 * Libraries side by side in one program, each at many places in memory: how long the same CHECK takes (`time`), or how many instructions
 * (`count`). The byte that isn't erased stands at a place of the application, or, at -1, nowhere. copies.inc has the copies of each side.
 */
#define _GNU_SOURCE
#include "beside.h"

#include <elf.h>
#include <signal.h>
#include <stdio.h>
#include <stdlib.h>
#include <string.h>
#include <sys/ptrace.h>
#include <sys/uio.h>
#include <sys/user.h>
#include <sys/wait.h>
#include <time.h>
#include <unistd.h>

#include "copies.inc"

enum { ROUNDS = 41, DEPTH = 4096 };

static struct lent lent;

static void give_up(const char *why)
{
    fprintf(stderr, "beside: %s\n", why);
    exit(1);
}

/* Flash with its byte at the place; each side must find it, or find that there is none. */
static void lay(int place)
{
    memset(lent.flash, 0xFF, sizeof lent.flash);
    if (place >= 0) lent.flash[APPLICATION + place] = 0;
    for (int side = 0; side < SIDES; side++)
        if (copies[side][0].serve(&lent, copies[side][0].request, 1) != (place < 0)) give_up("a side answers otherwise");
}

static double nanoseconds(void)
{
    struct timespec now;
    clock_gettime(CLOCK_MONOTONIC, &now);
    return now.tv_sec * 1e9 + now.tv_nsec;
}

static int by_size(const void *a, const void *b)
{
    double x = *(const double *)a, y = *(const double *)b;
    return (x > y) - (x < y);
}

static double median(double *values, int count)
{
    qsort(values, count, sizeof *values, by_size);
    return (values[(count - 1) / 2] + values[count / 2]) / 2;
}

/* The time of one CHECK, the least of three series. Where the stack stands is a matter of luck too: depth moves it. */
static double served(const struct copy *copy, int times, int depth)
{
    volatile uint8_t *room = __builtin_alloca(depth + 16);
    double least = 1e18;
    room[0] = 0;
    copy->serve(&lent, copy->request, times / 3 + 1);
    for (int i = 0; i < 3; i++) {
        double begun = nanoseconds();
        copy->serve(&lent, copy->request, times);
        double took = (nanoseconds() - begun) / times;
        if (took < least) least = took;
    }
    room[1] = 0;
    return least;
}

/* In a round each copy has its turn, in an order drawn by lot. Of a side counts the median of its copies, as a part of the first side's. */
static void race(int times, double parts[SIDES])
{
    static int order[SIDES * COPIES];
    static double took[SIDES][COPIES];
    int depth = rand() % (DEPTH / 16) * 16;
    for (int i = 0; i < SIDES * COPIES; i++) {
        int j = rand() % (i + 1);
        order[i] = order[j];
        order[j] = i;
    }
    for (int i = 0; i < SIDES * COPIES; i++) {
        int side = order[i] / COPIES, copy = order[i] % COPIES;
        took[side][copy] = served(&copies[side][copy], times, depth);
    }
    parts[0] = median(took[0], COPIES);
    for (int side = 1; side < SIDES; side++) parts[side] = median(took[side], COPIES) / parts[0];
}

/* The first side's nanoseconds, and each other side's part of them. */
static void time_at(int place)
{
    double parts[SIDES], all[SIDES][ROUNDS];
    int times = place < 0 ? 4 : place < 200 ? 120 : 40;
    for (int i = 0; i < ROUNDS; i++) {
        race(times, parts);
        for (int side = 0; side < SIDES; side++) all[side][i] = parts[side];
    }
    for (int side = 0; side < SIDES; side++) printf(" %.4f", median(all[side], ROUNDS));
}

/* Where a stopped process stands. At a call's first instruction `back` becomes where the call will return to. */
static unsigned long standing(pid_t child, unsigned long entry, unsigned long *back)
{
    struct user_regs_struct all;
    struct iovec room = {&all, sizeof all};
    if (ptrace(PTRACE_GETREGSET, child, (void *)NT_PRSTATUS, &room)) give_up("the registers of a process can't be read here");
#if defined(__x86_64__)
    if (all.rip == entry) *back = ptrace(PTRACE_PEEKDATA, child, (void *)all.rsp, 0);
    return all.rip;
#else
    if (all.pc == entry) *back = all.regs[30];
    return all.pc;
#endif
}

/* A child that stands still before it serves one CHECK. */
static pid_t stopped(const struct copy *copy)
{
    pid_t child = fork();
    if (child == 0) {
        if (ptrace(PTRACE_TRACEME, 0, 0, 0)) _exit(1);
        raise(SIGSTOP);
        copy->serve(&lent, copy->request, 1);
        _exit(0);
    }
    return child;
}

/* The instructions from a call's first to its return, with those of what it calls. */
static long steps(const struct copy *copy)
{
    unsigned long back = 0;
    long count = 0;
    int status;
    pid_t child = stopped(copy);
    while (waitpid(child, &status, 0) == child && WIFSTOPPED(status)) {
        if (standing(child, (unsigned long)copy->request, &back) == back) break;
        count += back != 0;
        ptrace(PTRACE_SINGLESTEP, child, 0, 0);
    }
    if (!back) give_up("no process can be led step by step here");
    kill(child, SIGKILL);
    waitpid(child, &status, 0);
    return count;
}

static void count_at(int place)
{
    (void)place;
    for (int side = 0; side < SIDES; side++) printf(" %ld", steps(&copies[side][0]));
}

int main(int argc, char **argv)
{
    if (argc < 3) give_up("time or count, a seed, places");
    srand(atoi(argv[2]));
    for (int side = 0; side < SIDES; side++) copies[side][0].ready(&lent, copies[side][0].start);
    for (int i = 3; i < argc; i++) {
        int place = atoi(argv[i]);
        lay(place);
        printf("%d", place);
        (strcmp(argv[1], "count") ? time_at : count_at)(place);
        printf("\n");
        fflush(stdout);
    }
}
