/* Cases of time: what timeout, retry_cnt, rnr_retry and min_rnr_timer say of work that a peer holds up, and calls that a signal interrupts. */
#define _GNU_SOURCE
#include "verbs.h"

#include <fcntl.h>
#include <poll.h>
#include <pthread.h>
#include <signal.h>
#include <stdlib.h>
#include <string.h>
#include <time.h>
#include <unistd.h>

enum { LONG = 3000, PAUSE = 800 }; /* milliseconds: what is never reached, and what is waited where nothing may come */

static const uint8_t within_268[4] = {14, 3, 7, 12};  /* four times 67.1 ms for the peer, any time for its receive */
static const uint8_t rnr_31[4] = {0, 0, 3, 20};       /* three times 10.24 ms for the receive, any time for the peer */
static const uint8_t rnr_983[4] = {14, 7, 2, 31};     /* twice 491.52 ms, and eight times 67.1 ms for the peer */

static double milliseconds(void)
{
    struct timespec now;
    clock_gettime(CLOCK_MONOTONIC, &now);
    return (double)now.tv_sec * 1e3 + (double)now.tv_nsec / 1e6;
}

/* A completion within so many milliseconds; 0 if none comes. */
static int comes_within(struct side *side, int most, struct ibv_wc *wc)
{
    const double end = milliseconds() + most;
    int got;
    while ((got = ibv_poll_cq(side->cq, 1, wc)) == 0 && milliseconds() < end) {
        usleep(500);
    }
    EXPECT(got >= 0);
    return got;
}

static enum ibv_qp_state state_of(struct side *side)
{
    struct ibv_qp_attr attr;
    struct ibv_qp_init_attr init;
    EXPECT(ibv_query_qp(side->qp, &attr, IBV_QP_STATE, &init) == 0);
    return attr.qp_state;
}

static void move(struct side *side, enum ibv_qp_state state)
{
    struct ibv_qp_attr attr = {.qp_state = state, .port_num = 1};
    const int more = state == IBV_QPS_INIT ? IBV_QP_PKEY_INDEX | IBV_QP_PORT | IBV_QP_ACCESS_FLAGS : 0;
    EXPECT(ibv_modify_qp(side->qp, &attr, IBV_QP_STATE | more) == 0);
}

static void post_receive(struct side *side)
{
    struct ibv_sge sge = {(uintptr_t)side->buffer, SIZE, side->mr->lkey};
    struct ibv_recv_wr wr = {.sg_list = &sge, .num_sge = 1}, *bad;
    EXPECT(ibv_post_recv(side->qp, &wr, &bad) == 0);
}

static void open_pair(struct side *own, struct side *peer, const uint8_t limits[4])
{
    open_side(own);
    open_side(peer);
    ready(peer, own->qp->qp_num, ALL);
    ready_within(own, peer->qp->qp_num, 0, limits);
}

/* The first of the work ends with this status, not before this time; the rest is flushed, and the queue pair is in error. */
static void ends_with(struct side *own, const struct told *told, enum ibv_wr_opcode opcode, enum ibv_wc_status status, double least)
{
    struct ibv_wc wc;
    const double begun = milliseconds();
    post(own, opcode, told, 8);
    post(own, opcode, told, 8);
    EXPECT(comes_within(own, LONG, &wc) == 1 && wc.status == status && wc.qp_num == own->qp->qp_num);
    EXPECT(milliseconds() - begun >= least);
    EXPECT(comes_within(own, LONG, &wc) == 1 && wc.status == IBV_WC_WR_FLUSH_ERR && state_of(own) == IBV_QPS_ERR);
    post(own, opcode, told, 8);
    EXPECT(comes_within(own, LONG, &wc) == 1 && wc.status == IBV_WC_WR_FLUSH_ERR);
}

void peer_in_error(void)
{
    struct side own, peer;
    open_pair(&own, &peer, within_268);
    const struct told told = told_by(&peer);
    EXPECT(reach(&own, IBV_WR_RDMA_WRITE, &told, 8) == IBV_WC_SUCCESS);
    move(&peer, IBV_QPS_ERR);
    ends_with(&own, &told, IBV_WR_RDMA_WRITE, IBV_WC_RETRY_EXC_ERR, 268);
    close_side(&peer);
    move(&own, IBV_QPS_RESET);
    EXPECT(state_of(&own) == IBV_QPS_RESET);
    close_side(&own);
}

void no_receive(void)
{
    struct side own, peer;
    open_pair(&own, &peer, rnr_31);
    const struct told told = told_by(&peer);
    post_receive(&peer);
    EXPECT(reach(&own, IBV_WR_SEND, &told, 8) == IBV_WC_SUCCESS && next_completion(&peer).status == IBV_WC_SUCCESS);
    ends_with(&own, &told, IBV_WR_SEND, IBV_WC_RNR_RETRY_EXC_ERR, 30);
    close_side(&own);
    close_side(&peer);
}

/* One who has closed its device is known to be gone at once. */
void peer_gone(void)
{
    struct side own, peer;
    open_pair(&own, &peer, rnr_31);
    const struct told told = told_by(&peer);
    close_side(&peer);
    ends_with(&own, &told, IBV_WR_RDMA_WRITE, IBV_WC_RETRY_EXC_ERR, 0);
    close_side(&own);
}

/* timeout 0 and rnr_retry 7 have no end: the work waits, and is done once it can be. */
void no_limits(void)
{
    struct side own, peer;
    struct ibv_wc wc;
    open_pair(&own, &peer, rnr_31);
    const struct told told = told_by(&peer);
    move(&peer, IBV_QPS_RESET);
    post(&own, IBV_WR_RDMA_WRITE, &told, 8);
    EXPECT(comes_within(&own, PAUSE, &wc) == 0 && state_of(&own) == IBV_QPS_RTS);
    ready(&peer, own.qp->qp_num, ALL);
    EXPECT(comes_within(&own, LONG, &wc) == 1 && wc.status == IBV_WC_SUCCESS);
    close_side(&own);
    close_side(&peer);
    open_pair(&own, &peer, within_268);
    post(&own, IBV_WR_SEND, &told, 8);
    EXPECT(comes_within(&own, PAUSE, &wc) == 0 && state_of(&own) == IBV_QPS_RTS);
    post_receive(&peer);
    EXPECT(comes_within(&own, LONG, &wc) == 1 && wc.status == IBV_WC_SUCCESS);
    close_side(&own);
    close_side(&peer);
}

/* The time is each request's: one that moves on is no failure, however long all take. Without completions of their own, too. */
static void send_to_slow_peer(unsigned flags)
{
    struct side own, peer;
    struct ibv_wc wc;
    open_side(&peer);
    open_side(&own);
    EXPECT(ibv_destroy_qp(own.qp) == 0);
    struct ibv_qp_init_attr init = {.send_cq = own.cq, .recv_cq = own.cq, .cap = {10, 1, 1, 1, 0}, .qp_type = IBV_QPT_RC};
    EXPECT((own.qp = ibv_create_qp(own.pd, &init)) != NULL);
    ready(&peer, own.qp->qp_num, ALL);
    ready_within(&own, peer.qp->qp_num, 0, rnr_983);
    struct ibv_sge sge = {(uintptr_t)own.buffer, 8, own.mr->lkey};
    for (unsigned n = 0; n < 9; n++) {
        struct ibv_send_wr wr = {.sg_list = &sge, .num_sge = 1, .opcode = IBV_WR_SEND, .send_flags = n == 8 ? IBV_SEND_SIGNALED : flags}, *bad;
        EXPECT(ibv_post_send(own.qp, &wr, &bad) == 0);
    }
    for (unsigned n = 0; n < 9; n++) {
        usleep(150000);
        post_receive(&peer);
        EXPECT(next_completion(&peer).status == IBV_WC_SUCCESS);
        EXPECT(!(flags & IBV_SEND_SIGNALED || n == 8) || (comes_within(&own, LONG, &wc) == 1 && wc.status == IBV_WC_SUCCESS));
    }
    EXPECT(state_of(&own) == IBV_QPS_RTS);
    close_side(&own);
    close_side(&peer);
}

void slow_peer(void)
{
    send_to_slow_peer(0);
    send_to_slow_peer(IBV_SEND_SIGNALED);
}

/* ---- by events: the program sleeps on the channel's file, and is woken by the end of the time */

void limits_by_events(void)
{
    struct side own, peer;
    struct ibv_cq *cq;
    void *context;
    struct ibv_wc wc;
    open_side(&peer);
    open_side_with_events(&own);
    ready(&peer, own.qp->qp_num, ALL);
    ready_within(&own, peer.qp->qp_num, 0, within_268);
    const struct told told = told_by(&peer);
    move(&peer, IBV_QPS_ERR);
    EXPECT(fcntl(own.channel->fd, F_SETFL, fcntl(own.channel->fd, F_GETFL) | O_NONBLOCK) == 0);
    EXPECT(ibv_req_notify_cq(own.cq, 0) == 0 && ibv_poll_cq(own.cq, 1, &wc) == 0);
    post(&own, IBV_WR_RDMA_WRITE, &told, 8);
    struct pollfd wait = {.fd = own.channel->fd, .events = POLLIN};
    EXPECT(poll(&wait, 1, LONG) == 1);
    EXPECT(ibv_get_cq_event(own.channel, &cq, &context) == 0 && cq == own.cq);
    ibv_ack_cq_events(cq, 1);
    EXPECT(comes_within(&own, LONG, &wc) == 1 && wc.status == IBV_WC_RETRY_EXC_ERR);
    close_side(&own);
    close_side(&peer);
}

/* ---- signals: a handler without SA_RESTART ends the wait for an event, one with it doesn't */

static volatile sig_atomic_t caught;

/* The alarm comes again and again, as it may come before the wait; a wait that doesn't end is a failure. */
static void catch(int signal)
{
    (void)signal;
    if (++caught > 40) {
        _exit(1);
    }
}

static void *send_later(void *given)
{
    struct side *sides = given;
    const struct told told = told_by(sides);
    sigset_t all;
    sigfillset(&all);
    EXPECT(pthread_sigmask(SIG_SETMASK, &all, NULL) == 0);
    while (!caught) {
        usleep(1000);
    }
    usleep(20000);
    post(sides + 1, IBV_WR_SEND, &told, 8);
    return NULL;
}

void interrupted_waits(void)
{
    struct side sides[2];
    struct ibv_cq *cq;
    void *context;
    pthread_t thread;
    struct sigaction action = {.sa_handler = catch}, before;
    open_side_with_events(sides);
    open_side(sides + 1);
    ready(sides, sides[1].qp->qp_num, ALL);
    ready(sides + 1, sides[0].qp->qp_num, ALL);
    post_receive(sides);
    EXPECT(ibv_req_notify_cq(sides[0].cq, 0) == 0 && sigaction(SIGALRM, &action, &before) == 0);
    ualarm(50000, 50000);
    EXPECT(ibv_get_cq_event(sides[0].channel, &cq, &context) == -1 && errno == EINTR && caught);
    ualarm(0, 0);
    caught = 0;
    action.sa_flags = SA_RESTART;
    EXPECT(sigaction(SIGALRM, &action, NULL) == 0 && pthread_create(&thread, NULL, send_later, sides) == 0);
    ualarm(50000, 50000);
    EXPECT(ibv_get_cq_event(sides[0].channel, &cq, &context) == 0 && cq == sides[0].cq && caught);
    ualarm(0, 0);
    ibv_ack_cq_events(cq, 1);
    EXPECT(pthread_join(thread, NULL) == 0 && sigaction(SIGALRM, &before, NULL) == 0);
    close_side(sides);
    close_side(sides + 1);
}
