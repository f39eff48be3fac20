/* Cases of memory: buffers on a stack, children of fork, pages that two contexts want. */
#define _GNU_SOURCE
#include "verbs.h"

#include <alloca.h>
#include <pthread.h>
#include <signal.h>
#include <stdio.h>
#include <stdlib.h>
#include <string.h>
#include <sys/mman.h>
#include <sys/syscall.h>
#include <sys/wait.h>
#include <unistd.h>

static uint8_t pattern(size_t n) { return (uint8_t)(n * 7 + n / 256 + 3); }

static void fill(uint8_t *bytes, size_t length)
{
    for (size_t n = 0; n < length; n++) {
        bytes[n] = pattern(n);
    }
}

static int is_filled(const uint8_t *bytes, size_t length)
{
    for (size_t n = 0; n < length; n++) {
        if (bytes[n] != pattern(n)) {
            return 0;
        }
    }
    return 1;
}

/* ---- buffers on a stack */

/* The stack can still grow. */
static void go_deep(unsigned left)
{
    volatile uint8_t frame[8 * SIZE];
    frame[0] = frame[8 * SIZE - 1] = (uint8_t)left;
    if (left > 0) {
        go_deep(left - 1);
    }
    EXPECT(frame[0] == (uint8_t)left && frame[8 * SIZE - 1] == (uint8_t)left);
}

/* A peer's write goes into a buffer of this frame, and nothing else of the stack changes. */
static __attribute__((noinline)) void write_to_stack(struct side *own, struct side *peer, size_t length)
{
    volatile uint64_t before = 0x1122334455667788u;
    uint8_t *buffer = alloca(length);
    volatile uint64_t after = 0x8877665544332211u;
    fill(buffer, length);
    struct ibv_mr *mr = ibv_reg_mr(own->pd, buffer, length, ALL);
    EXPECT(mr != NULL && is_filled(buffer, length));
    const struct told told = {own->qp->qp_num, mr->rkey, (uintptr_t)buffer};
    memset(peer->buffer, 9, SIZE);
    EXPECT(reach(peer, IBV_WR_RDMA_WRITE, &told, 8) == IBV_WC_SUCCESS);
    for (unsigned n = 0; n < 8; n++) {
        EXPECT(buffer[n] == 9);
        buffer[n] = pattern(n);
    }
    go_deep(40);
    EXPECT(ibv_dereg_mr(mr) == 0 && is_filled(buffer, length));
    EXPECT(before == 0x1122334455667788u && after == 0x8877665544332211u);
    go_deep(1);
}

/* On the lowest page that the stack has so far, at an address of which `PAGE_REST` bytes of the page are left below. */
static __attribute__((noinline)) void register_lowest_page(struct side *own)
{
    enum { FAR = 1 << 18, PAGE_REST = 3500 };
    const uintptr_t far = (uintptr_t)alloca(FAR);
    uint8_t *buffer = alloca((far - PAGE_REST) % SIZE + 64);
    struct ibv_mr *mr = ibv_reg_mr(own->pd, buffer, 64, ALL);
    EXPECT(mr != NULL);
    go_deep(1);
    EXPECT(ibv_dereg_mr(mr) == 0);
    go_deep(2);
}

/* From many depths, so that a page's end lies everywhere. */
static void *write_to_stacks(void *unused)
{
    struct side own, peer;
    open_side(&own);
    open_side(&peer);
    ready(&own, peer.qp->qp_num, ALL);
    ready(&peer, own.qp->qp_num, 0);
    register_lowest_page(&own);
    for (unsigned n = 0; n < 40; n++) {
        volatile uint8_t *space = alloca(208);
        space[0] = (uint8_t)n;
        write_to_stack(&own, &peer, n % 4 == 3 ? 2 * SIZE : 64);
    }
    close_side(&own);
    close_side(&peer);
    return unused;
}

void stack_buffers(void)
{
    pthread_t thread;
    write_to_stacks(NULL);
    EXPECT(pthread_create(&thread, NULL, write_to_stacks, NULL) == 0 && pthread_join(thread, NULL) == 0);
}

/* ---- pages that two contexts want: the second is refused, and the first's region still leads to the program's bytes */

void two_contexts(void)
{
    struct side own, peer;
    open_side(&own);
    open_side(&peer);
    ready(&own, peer.qp->qp_num, ALL);
    ready(&peer, own.qp->qp_num, 0);
    EXPECT(ibv_reg_mr(peer.pd, own.buffer + 64, 64, ALL) == NULL && errno == EBUSY);
    const struct told told = told_by(&own);
    memset(peer.buffer, 9, SIZE);
    EXPECT(reach(&peer, IBV_WR_RDMA_WRITE, &told, 1) == IBV_WC_SUCCESS && own.buffer[0] == 9);
    EXPECT(ibv_dereg_mr(own.mr) == 0 && (own.mr = ibv_reg_mr(peer.pd, own.buffer, SIZE, ALL)) != NULL);
    EXPECT(ibv_dereg_mr(own.mr) == 0);
    own.mr = NULL;
    close_side(&own);
    close_side(&peer);
}

/* ---- memory that can't become the client's: shared with others, not writable, not there */

void other_memory(void)
{
    struct side side;
    open_side(&side);
    uint8_t *shared = mmap(NULL, 3 * SIZE, PROT_READ | PROT_WRITE, MAP_SHARED | MAP_ANONYMOUS, -1, 0);
    uint8_t *own = mmap(NULL, 3 * SIZE, PROT_READ | PROT_WRITE, MAP_PRIVATE | MAP_ANONYMOUS, -1, 0);
    EXPECT(shared != MAP_FAILED && own != MAP_FAILED);
    EXPECT(mmap(own + SIZE, SIZE, PROT_READ | PROT_WRITE, MAP_SHARED | MAP_ANONYMOUS | MAP_FIXED, -1, 0) == own + SIZE);
    EXPECT(ibv_reg_mr(side.pd, shared + 8, 8, ALL) == NULL && errno == EOPNOTSUPP);
    EXPECT(ibv_reg_mr(side.pd, own, 3 * SIZE, ALL) == NULL && errno == EOPNOTSUPP);
    EXPECT(mprotect(own + 2 * SIZE, SIZE, PROT_READ) == 0);
    EXPECT(ibv_reg_mr(side.pd, own + 2 * SIZE, 8, ALL) == NULL && errno == EFAULT);
    struct ibv_mr *mr = ibv_reg_mr(side.pd, own + 2 * SIZE, 8, IBV_ACCESS_REMOTE_READ);
    EXPECT(mr != NULL && ibv_dereg_mr(mr) == 0);
    EXPECT(munmap(own + SIZE, SIZE) == 0);
    EXPECT(ibv_reg_mr(side.pd, own, 2 * SIZE, ALL) == NULL && errno == EFAULT);
    mr = ibv_reg_mr(side.pd, side.buffer + 8, 8, ALL);
    EXPECT(mr != NULL && ibv_dereg_mr(mr) == 0);
    shared[8] = own[0] = 1;
    EXPECT(munmap(shared, 3 * SIZE) == 0 && munmap(own, SIZE) == 0 && munmap(own + 2 * SIZE, SIZE) == 0);
    close_side(&side);
}

/* ---- children of fork */

struct forked {
    struct side *own, *peer;
    uint8_t *block; /* of BLOCK bytes, the middle third registered */
    struct ibv_mr *mr;
    int to_child[2], to_parent[2];
};

enum { BLOCK = 192, THIRD = BLOCK / 3 };

static void wait_for(int end)
{
    char word;
    EXPECT(read(end, &word, 1) == 1);
}

static void tell(int end) { EXPECT(write(end, "", 1) == 1); }

/* The child has the bytes of the fork, whatever became of the parent's, and none of the parent's objects. */
static void child(struct forked *forked)
{
    struct ibv_wc wc;
    close(forked->to_child[1]);
    wait_for(forked->to_child[0]);
    EXPECT(is_filled(forked->block, BLOCK));
    memset(forked->block, 0, BLOCK);
    EXPECT(ibv_poll_cq(forked->own->cq, 1, &wc) < 0);
    EXPECT(ibv_reg_mr(forked->own->pd, forked->block, BLOCK, ALL) == NULL && errno == EIO);
    EXPECT(ibv_dereg_mr(forked->mr) == EIO && ibv_close_device(forked->own->context) == 0);
    struct side side;
    open_side(&side);
    struct ibv_mr *mr = ibv_reg_mr(side.pd, forked->block + THIRD, THIRD, ALL);
    EXPECT(mr != NULL && ibv_dereg_mr(mr) == 0);
    close_side(&side);
    tell(forked->to_parent[1]);
    wait_for(forked->to_child[0]);
    _exit(0);
}

/* The parent has its own bytes, whatever the child writes, and a peer's write reaches them. */
static void parent(struct forked *forked, pid_t pid)
{
    const struct told told = {forked->own->qp->qp_num, forked->mr->rkey, (uintptr_t)forked->block + THIRD};
    int status;
    close(forked->to_parent[1]);
    forked->block[0] = 77;
    memset(forked->peer->buffer, 9, SIZE);
    EXPECT(reach(forked->peer, IBV_WR_RDMA_WRITE, &told, 1) == IBV_WC_SUCCESS);
    tell(forked->to_child[1]);
    wait_for(forked->to_parent[0]);
    EXPECT(forked->block[0] == 77 && forked->block[THIRD] == 9);
    memset(forked->peer->buffer, 8, SIZE);
    EXPECT(reach(forked->peer, IBV_WR_RDMA_WRITE, &told, 1) == IBV_WC_SUCCESS && forked->block[THIRD] == 8);
    forked->block[0] = pattern(0);
    forked->block[THIRD] = pattern(THIRD);
    EXPECT(is_filled(forked->block, BLOCK));
    tell(forked->to_child[1]);
    EXPECT(waitpid(pid, &status, 0) == pid && status == 0);
}

static void fork_with(struct side *own, struct side *peer, uint8_t *block)
{
    struct forked forked = {.own = own, .peer = peer, .block = block};
    EXPECT(pipe(forked.to_child) == 0 && pipe(forked.to_parent) == 0);
    fill(block, BLOCK);
    EXPECT((forked.mr = ibv_reg_mr(own->pd, block + THIRD, THIRD, ALL)) != NULL);
    const pid_t pid = fork();
    EXPECT(pid >= 0);
    if (pid == 0) {
        child(&forked);
    }
    parent(&forked, pid);
    EXPECT(ibv_dereg_mr(forked.mr) == 0 && is_filled(block, BLOCK));
    close(forked.to_child[0]);
    close(forked.to_child[1]);
    close(forked.to_parent[0]);
}

/* The block in the heap beside a stream's own, in the frame of main's thread, in a thread's first page of memory and on its stack. */
static void *fork_with_heap(void *given)
{
    struct side *sides = given;
    FILE *stream = fopen("/dev/null", "w");
    uint8_t *block = malloc(BLOCK);
    EXPECT(stream != NULL && block != NULL);
    fork_with(sides, sides + 1, block);
    fclose(stream);
    free(block);
    return NULL;
}

static void *fork_with_stack(void *given)
{
    struct side *sides = given;
    volatile uint8_t *above = alloca(2 * SIZE); /* a thread's first page of stack has its own data */
    above[0] = above[2 * SIZE - 1] = 1;
    fork_with(sides, sides + 1, alloca(BLOCK));
    EXPECT(above[0] == 1 && above[2 * SIZE - 1] == 1);
    return NULL;
}

/* The page of a thread's own data can't be given to a child: this fork is refused. */
static void *fork_with_thread_data(void *given)
{
    static __thread uint8_t block[BLOCK];
    struct side *sides = given;
    fill(block, BLOCK);
    struct ibv_mr *mr = ibv_reg_mr(sides->pd, block, BLOCK, ALL);
    EXPECT(mr != NULL && is_filled(block, BLOCK));
    EXPECT(fork() == -1 && errno == ENOTSUP);
    EXPECT(ibv_dereg_mr(mr) == 0 && is_filled(block, BLOCK));
    return NULL;
}

static void in_thread(void *(*what)(void *), struct side *sides)
{
    pthread_t thread;
    EXPECT(pthread_create(&thread, NULL, what, sides) == 0 && pthread_join(thread, NULL) == 0);
}

static void *sleeps(void *end)
{
    wait_for(*(int *)end);
    return NULL;
}

/* Whether a child ends well that runs this. */
static void in_child(void (*what)(int), int end)
{
    int status;
    const pid_t pid = fork();
    if (pid == 0) {
        what(end);
        _exit(0);
    }
    EXPECT(waitpid(pid, &status, 0) == pid && status == 0);
}

/* Regions that are left when a device is closed go with it, also from later children. */
static void fork_after_close(int unused)
{
    struct side side;
    int status;
    (void)unused;
    open_side(&side);
    EXPECT(ibv_close_device(side.context) == 0);
    const pid_t pid = fork();
    if (pid == 0) {
        EXPECT(side.buffer[0] == 1);
        side.buffer[0] = 2;
        _exit(0);
    }
    EXPECT(waitpid(pid, &status, 0) == pid && status == 0 && side.buffer[0] == 1);
}

/* A child that the C library doesn't know of has no shared page, and can't change the parent's. */
static void clone_with_heap(struct side *side)
{
    volatile uint8_t *byte = side->buffer;
    int status;
    const pid_t pid = (pid_t)syscall(SYS_clone, SIGCHLD, 0, 0, 0, 0);
    if (pid == 0) {
        signal(SIGSEGV, SIG_DFL);
        *byte = 55;
        _exit(0);
    }
    EXPECT(waitpid(pid, &status, 0) == pid && WIFSIGNALED(status) && *byte == 1);
}

/* A fork within the C library, whose parent ends at once. */
static void daemon_with_heap(int end)
{
    struct side side;
    open_side(&side);
    EXPECT(daemon(1, 1) == 0);
    EXPECT(side.buffer[0] == 1 && ibv_close_device(side.context) == 0);
    tell(end);
}

void forks(void)
{
    struct side sides[2];
    pthread_t thread;
    int ends[2];
    EXPECT(ibv_fork_init() == 0 && ibv_is_fork_initialized() == IBV_FORK_UNNEEDED);
    open_side(sides);
    open_side(sides + 1);
    ready(sides, sides[1].qp->qp_num, ALL);
    ready(sides + 1, sides[0].qp->qp_num, 0);
    fork_with_heap(sides);
    fork_with_stack(sides);
    EXPECT(pipe(ends) == 0 && pthread_create(&thread, NULL, sleeps, ends) == 0);
    in_thread(fork_with_heap, sides);
    in_thread(fork_with_stack, sides);
    in_thread(fork_with_thread_data, sides);
    fork_with_heap(sides);
    fork_with_stack(sides);
    tell(ends[1]);
    EXPECT(pthread_join(thread, NULL) == 0);
    memset(sides->buffer, 1, SIZE);
    clone_with_heap(sides);
    close_side(sides);
    close_side(sides + 1);
    in_child(fork_after_close, -1);
    in_child(daemon_with_heap, ends[1]);
    wait_for(ends[0]);
    close(ends[0]);
    close(ends[1]);
}
