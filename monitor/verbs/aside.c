/* Runs a function on a stack of its own, while no signal is taken and no byte of the caller's stack
 * changes: the pages of that stack can be mapped anew meanwhile. */
#define _GNU_SOURCE
#include "verbs.h"

#include <errno.h>
#include <signal.h>
#include <sys/mman.h>
#include <ucontext.h>

enum { STACK_BYTES = 1 << 18 };

/* Lies at the stack's lowest bytes, and with it apart from the caller's. */
struct aside {
    ucontext_t caller;
    ucontext_t own;
    int (*what)(void *);
    void *given;
    int result;
};

/* makecontext passes numbers of an int's width: the pointer's upper and lower half. */
static void start(unsigned upper, unsigned lower)
{
    struct aside *aside = (struct aside *)(uintptr_t)((uint64_t)upper << 32 | lower);
    aside->result = aside->what(aside->given);
}

/* Has the stack reach some pages below this frame, so that it can grow on from there. */
static __attribute__((noinline)) void reach_below(void)
{
    volatile uint8_t below[4 * PACKET_PAGE];
    below[0] = 0;
    (void)below[0];
}

int run_aside(int (*what)(void *), void *given, int *result)
{
    void *stack =
        mmap(NULL, STACK_BYTES, PROT_READ | PROT_WRITE, MAP_PRIVATE | MAP_ANONYMOUS, -1, 0);
    if (stack == MAP_FAILED) {
        return errno;
    }
    struct aside *aside = stack;
    const uint64_t at = (uintptr_t)aside;
    aside->what = what;
    aside->given = given;
    getcontext(&aside->own);
    aside->own.uc_stack.ss_sp = aside + 1;
    aside->own.uc_stack.ss_size = STACK_BYTES - sizeof *aside;
    aside->own.uc_link = &aside->caller;
    sigfillset(&aside->own.uc_sigmask);
    makecontext(&aside->own, (void (*)(void))start, 2, (unsigned)(at >> 32), (unsigned)at);
    reach_below();
    swapcontext(&aside->caller, &aside->own);
    *result = aside->result;
    munmap(stack, STACK_BYTES);
    return 0;
}
