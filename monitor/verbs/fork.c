/* The contexts of this process, and what a child of fork gets of them: copies of the shared pages
 * as they were, and none of the objects.
 *
 * Pages of the client's memory are never mapped in a child, however it was made. Before a fork of
 * the C library they are copied; the child puts the copies in their places before any handler of
 * its own runs. Where the C library needs one earlier, the fault is caught and the copies are put
 * there at once. The child's first steps are on a stack of the library's own, as the caller's may
 * be shared. */
#define _GNU_SOURCE
#include "verbs.h"

#include <dlfcn.h>
#include <errno.h>
#include <signal.h>
#include <sys/mman.h>
#include <sys/rseq.h>
#include <unistd.h>

enum { THREAD_NUMBER_WITHIN = 1024 }; /* bytes from a thread's pointer on */

static pthread_mutex_t contexts_lock = PTHREAD_MUTEX_INITIALIZER;
static struct lk_context *contexts;
static pid_t (*libc_fork)(void);

/* ---- contexts */

void contexts_lock_all(void)
{
    pthread_mutex_lock(&contexts_lock);
}

void contexts_unlock_all(void)
{
    pthread_mutex_unlock(&contexts_lock);
}

void contexts_add(struct lk_context *context)
{
    contexts_lock_all();
    context->next = contexts;
    contexts = context;
    contexts_unlock_all();
}

void contexts_remove(struct lk_context *context)
{
    struct lk_context **at = &contexts;
    while (*at != context) {
        at = &(*at)->next;
    }
    *at = context->next;
}

int contexts_share(const struct lk_context *except, uintptr_t address, size_t length)
{
    int share = 0;
    for (struct lk_context *context = contexts; context != NULL && !share;
         context = context->next) {
        if (context != except) {
            pthread_mutex_lock(&context->lock);
            share = pages_hold(&context->pages, address, length);
            pthread_mutex_unlock(&context->lock);
        }
    }
    return share;
}

/* ---- copies for a child */

/* Static, so that no shared page holds it; the addresses lie behind the copies. */
static struct {
    pid_t parent;
    size_t count;
    uint8_t *pages;
    uintptr_t *addresses;
    int placed;
    sigset_t mask;
    struct sigaction action;
} copies;

static size_t copies_bytes(void)
{
    return copies.count * (PACKET_PAGE + sizeof *copies.addresses);
}

/* Where they can't be made, the child has no pages there. */
static void make_copies(void)
{
    copies.parent = getpid();
    copies.count = 0;
    copies.placed = 0;
    for (struct lk_context *context = contexts; context != NULL; context = context->next) {
        copies.count += pages_used(&context->pages);
    }
    if (copies.count == 0) {
        return;
    }
    copies.pages =
        mmap(NULL, copies_bytes(), PROT_READ | PROT_WRITE, MAP_PRIVATE | MAP_ANONYMOUS, -1, 0);
    if (copies.pages == MAP_FAILED) {
        copies.count = 0;
        return;
    }
    copies.addresses = (uintptr_t *)(void *)(copies.pages + copies.count * PACKET_PAGE);
    size_t done = 0;
    for (struct lk_context *context = contexts; context != NULL; context = context->next) {
        done +=
            pages_copy(&context->pages, copies.pages + done * PACKET_PAGE, copies.addresses + done);
    }
}

static void place_copies(void)
{
    for (size_t n = 0; n < copies.count && !copies.placed; n++) {
        mremap(copies.pages + n * PACKET_PAGE, PACKET_PAGE, PACKET_PAGE,
               MREMAP_MAYMOVE | MREMAP_FIXED, (void *)copies.addresses[n]);
    }
    copies.placed = 1;
}

static void drop_copies(void)
{
    const size_t placed = copies.placed ? copies.count * PACKET_PAGE : 0;
    munmap(copies.pages + placed, copies_bytes() - placed);
    copies.count = 0;
}

/* The child's first fault of this time is one of a page that it hasn't; any other is the program's.
 */
static void catch_fault(int signal, siginfo_t *info, void *context)
{
    (void)info;
    (void)context;
    if (getpid() != copies.parent && !copies.placed) {
        place_copies();
    } else {
        sigaction(signal, &copies.action, NULL);
    }
}

/* ---- around a fork of the C library */

/* Where there are copies, no signal is taken but that of a fault. */
static void catch_faults(void)
{
    struct sigaction action = {.sa_sigaction = catch_fault, .sa_flags = SA_SIGINFO};
    sigset_t mask;
    sigfillset(&mask);
    sigdelset(&mask, SIGSEGV);
    pthread_sigmask(SIG_SETMASK, &mask, &copies.mask);
    sigaction(SIGSEGV, &action, &copies.action);
}

static void before(void)
{
    contexts_lock_all();
    for (struct lk_context *context = contexts; context != NULL; context = context->next) {
        pthread_mutex_lock(&context->lock);
        pthread_mutex_lock(&context->link.lock);
    }
    make_copies();
    if (copies.count > 0) {
        catch_faults();
    }
}

static void after(void)
{
    if (copies.count > 0) {
        drop_copies();
        sigaction(SIGSEGV, &copies.action, NULL);
        pthread_sigmask(SIG_SETMASK, &copies.mask, NULL);
    }
}

static void after_in_parent(void)
{
    after();
    for (struct lk_context *context = contexts; context != NULL; context = context->next) {
        pthread_mutex_unlock(&context->link.lock);
        pthread_mutex_unlock(&context->lock);
    }
    contexts_unlock_all();
}

/* The connection and the memory are the parent's: here every request fails as if the monitor had
 * gone. */
static void after_in_child(void)
{
    place_copies();
    after();
    for (struct lk_context *context = contexts; context != NULL; context = context->next) {
        pthread_mutex_init(&context->lock, NULL);
        limits_init(context);
        link_lose(&context->link);
        context->extended.context.cmd_fd = context->link.fd;
        pages_lose(&context->pages);
    }
    pthread_mutex_init(&contexts_lock, NULL);
}

static __attribute__((constructor)) void begin(void)
{
    *(void **)&libc_fork = dlsym(RTLD_NEXT, "fork");
    pthread_atfork(before, after_in_parent, after_in_child);
}

static int fork_aside(void *unused)
{
    (void)unused;
    return libc_fork();
}

/* The kernel writes a thread's number and its rseq area before the child's first step, so that a
 * copy comes too late. errno stands for the variables of a thread. */
static int shares_thread_data(void)
{
    const uintptr_t thread = (uintptr_t)__builtin_thread_pointer();
    const uintptr_t rseq = thread + (uintptr_t)__rseq_offset;
    return contexts_share(NULL, thread, THREAD_NUMBER_WITHIN) ||
           contexts_share(NULL, rseq, __rseq_size) ||
           contexts_share(NULL, (uintptr_t)&errno, sizeof errno);
}

EXPORTED pid_t fork(void)
{
    contexts_lock_all();
    const int none = contexts == NULL, refused = shares_thread_data();
    contexts_unlock_all();
    if (none) {
        return libc_fork();
    }
    int result = -1;
    const int why = refused ? ENOTSUP : run_aside(fork_aside, NULL, &result);
    if (why != 0) {
        errno = why;
    }
    return result;
}

/* ---- as libibverbs has it: fork needs nothing */

EXPORTED int ibv_fork_init(void)
{
    return 0;
}

EXPORTED enum ibv_fork_status ibv_is_fork_initialized(void)
{
    return IBV_FORK_UNNEEDED;
}
