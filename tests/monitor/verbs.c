/* A verbs program against the preload library: keys that were dropped, access flags of a queue pair, work that is flushed, buffers that
 * share pages, what the card lacks, and the cases of verbs_*.c. A line for each case, and the first that isn't so ends the program. With the
 * name of a case it runs this one alone. Run it over a monitor for four clients. */
#define _GNU_SOURCE
#include "verbs.h"

#include <stdio.h>
#include <stdlib.h>
#include <string.h>
#include <sys/socket.h>
#include <sys/wait.h>
#include <unistd.h>

/* Tells the other side where to write, and hears where it is. */
static struct told exchange(int other, const struct side *side)
{
    const struct told own = told_by(side);
    struct told told;
    EXPECT(send(other, &own, sizeof own, 0) == (ssize_t)sizeof own && recv(other, &told, sizeof told, 0) == (ssize_t)sizeof told);
    return told;
}

static void turn(int other)
{
    char word = 0;
    EXPECT(send(other, &word, 1, 0) == 1 && recv(other, &word, 1, 0) == 1);
}

/* ---- a key that was dropped */

/* Lets the peer write once, drops the region and registers the same bytes again: the old key must lead nowhere. */
static void owner(int other)
{
    struct side side;
    open_side(&side);
    const struct told peer = exchange(other, &side);
    ready(&side, peer.qpn, ALL);
    turn(other);
    turn(other);
    EXPECT(side.buffer[0] == 9 && side.buffer[63] == 9 && side.buffer[64] == 1);
    const uint32_t dropped = side.mr->rkey;
    EXPECT(ibv_dereg_mr(side.mr) == 0);
    memset(side.buffer, 5, SIZE);
    EXPECT((side.mr = ibv_reg_mr(side.pd, side.buffer, SIZE, ALL)) != NULL && side.mr->rkey != dropped);
    turn(other);
    turn(other);
    for (int n = 0; n < SIZE; n++) {
        EXPECT(side.buffer[n] == 5);
    }
    close_side(&side);
}

static void writer(int other)
{
    struct side side;
    open_side(&side);
    const struct told peer = exchange(other, &side);
    ready(&side, peer.qpn, ALL);
    turn(other);
    memset(side.buffer, 9, SIZE);
    EXPECT(reach(&side, IBV_WR_RDMA_WRITE, &peer, 64) == IBV_WC_SUCCESS);
    turn(other);
    turn(other);
    EXPECT(reach(&side, IBV_WR_RDMA_WRITE, &peer, 64) == IBV_WC_REM_ACCESS_ERR);
    turn(other);
    close_side(&side);
}

static void dropped_key(void)
{
    int ends[2], status;
    EXPECT(socketpair(AF_UNIX, SOCK_SEQPACKET, 0, ends) == 0);
    const pid_t child = fork();
    if (child == 0) {
        close(ends[1]);
        owner(ends[0]);
        _exit(0);
    }
    close(ends[0]);
    writer(ends[1]);
    EXPECT(waitpid(child, &status, 0) == child && status == 0);
    close(ends[1]);
}

/* ---- access flags of a queue pair: the peer's reads and writes need them, whatever its regions grant */

static enum ibv_wc_status reach_with(enum ibv_wr_opcode opcode, unsigned access)
{
    struct side own, other;
    struct ibv_qp_attr attr;
    struct ibv_qp_init_attr init;
    open_side(&own);
    open_side(&other);
    const struct told peer = told_by(&other);
    ready(&own, other.qp->qp_num, 0);
    ready(&other, own.qp->qp_num, access);
    EXPECT(ibv_query_qp(other.qp, &attr, IBV_QP_ACCESS_FLAGS, &init) == 0 && attr.qp_access_flags == access);
    memset(own.buffer, 9, SIZE);
    const enum ibv_wc_status status = reach(&own, opcode, &peer, SIZE);
    for (int n = 0; n < SIZE; n++) {
        EXPECT(other.buffer[n] == (status == IBV_WC_SUCCESS && opcode == IBV_WR_RDMA_WRITE ? 9 : 1));
        EXPECT(own.buffer[n] == (status == IBV_WC_SUCCESS && opcode == IBV_WR_RDMA_READ ? 1 : 9));
    }
    attr.qp_state = IBV_QPS_RESET;
    EXPECT(ibv_modify_qp(other.qp, &attr, IBV_QP_STATE) == 0);
    EXPECT(ibv_query_qp(other.qp, &attr, IBV_QP_ACCESS_FLAGS, &init) == 0 && attr.qp_access_flags == 0);
    close_side(&own);
    close_side(&other);
    return status;
}

static void access_flags(void)
{
    for (unsigned access = 0; access <= ALL; access++) {
        const enum ibv_wc_status refused = IBV_WC_REM_ACCESS_ERR;
        EXPECT(reach_with(IBV_WR_RDMA_WRITE, access) == (access & IBV_ACCESS_REMOTE_WRITE ? IBV_WC_SUCCESS : refused));
        EXPECT(reach_with(IBV_WR_RDMA_READ, access) == (access & IBV_ACCESS_REMOTE_READ ? IBV_WC_SUCCESS : refused));
    }
}

/* ---- work of a queue pair in error: receives in the card, those behind them, what is posted later; sends, more than the queue has places */

static void posted_in_error(struct side *side)
{
    struct ibv_sge sge = {(uintptr_t)side->buffer, 1, side->mr->lkey};
    struct ibv_wc wc;
    for (unsigned n = 0; n < 2 * RECEIVES; n++) {
        struct ibv_send_wr wr = {.wr_id = n, .sg_list = &sge, .num_sge = 1, .opcode = IBV_WR_SEND}, *bad;
        EXPECT(ibv_post_send(side->qp, &wr, &bad) == 0);
    }
    for (unsigned n = 0; n < 2 * RECEIVES; n++) {
        while (ibv_poll_cq(side->cq, 1, &wc) == 0) {
        }
        EXPECT(wc.wr_id == n && wc.status == IBV_WC_WR_FLUSH_ERR && wc.qp_num == side->qp->qp_num);
    }
    for (unsigned n = 0; n < 3; n++) {
        struct ibv_recv_wr wr = {.wr_id = n, .sg_list = &sge, .num_sge = 1}, *bad;
        EXPECT(ibv_post_recv(side->qp, &wr, &bad) == 0 && ibv_poll_cq(side->cq, 1, &wc) == 1);
        EXPECT(wc.wr_id == n && wc.status == IBV_WC_WR_FLUSH_ERR && wc.opcode == IBV_WC_RECV);
    }
    EXPECT(ibv_poll_cq(side->cq, 1, &wc) == 0);
}

static void flushed_in_order(void)
{
    struct side side;
    struct ibv_wc wcs[RECEIVES + 1];
    open_side(&side);
    struct ibv_qp_attr attr = {.qp_state = IBV_QPS_INIT, .port_num = 1};
    EXPECT(ibv_modify_qp(side.qp, &attr, IBV_QP_STATE | IBV_QP_PKEY_INDEX | IBV_QP_PORT | IBV_QP_ACCESS_FLAGS) == 0);
    struct ibv_sge sge = {(uintptr_t)side.buffer, 1, side.mr->lkey};
    for (unsigned n = 0; n <= RECEIVES; n++) {
        struct ibv_recv_wr wr = {.wr_id = n, .sg_list = &sge, .num_sge = 1}, *bad;
        EXPECT(ibv_post_recv(side.qp, &wr, &bad) == (n < RECEIVES ? 0 : ENOMEM));
    }
    EXPECT(ibv_poll_cq(side.cq, RECEIVES, wcs) == 0);
    attr.qp_state = IBV_QPS_ERR;
    EXPECT(ibv_modify_qp(side.qp, &attr, IBV_QP_STATE) == 0);
    EXPECT(ibv_poll_cq(side.cq, RECEIVES + 1, wcs) == RECEIVES);
    for (unsigned n = 0; n < RECEIVES; n++) {
        EXPECT(wcs[n].wr_id == n && wcs[n].status == IBV_WC_WR_FLUSH_ERR && wcs[n].qp_num == side.qp->qp_num);
    }
    posted_in_error(&side);
    close_side(&side);
}

/* ---- buffers that share pages: contents stay, one page may be in several regions */

static void shared_pages(void)
{
    struct side side;
    struct ibv_mr *mrs[3];
    open_side(&side);
    uint8_t *area = aligned_alloc(SIZE, 6 * SIZE);
    EXPECT(area != NULL);
    for (int n = 0; n < 6 * SIZE; n++) {
        area[n] = (uint8_t)(n * 7 + n / 256);
    }
    EXPECT((mrs[0] = ibv_reg_mr(side.pd, area + SIZE + 100, SIZE, ALL)) != NULL);
    EXPECT((mrs[1] = ibv_reg_mr(side.pd, area + SIZE + 200, 10, ALL)) != NULL);
    EXPECT((mrs[2] = ibv_reg_mr(side.pd, area + 2 * SIZE + 200, 2 * SIZE, ALL)) != NULL);
    EXPECT(mrs[0]->lkey != mrs[1]->lkey && mrs[1]->lkey != mrs[2]->lkey);
    for (int n = 0; n < 3; n++) {
        EXPECT(ibv_dereg_mr(mrs[n]) == 0);
        for (int at = 0; at < 6 * SIZE; at++) {
            EXPECT(area[at] == (uint8_t)(at * 7 + at / 256));
        }
    }
    EXPECT(ibv_reg_mr(side.pd, area, (size_t)1 << 30, ALL) == NULL && errno == ENOMEM);
    EXPECT(ibv_reg_mr(side.pd, NULL, SIZE, ALL) == NULL && errno == EFAULT);
    EXPECT(ibv_reg_mr(side.pd, area, SIZE, IBV_ACCESS_REMOTE_WRITE) == NULL && errno == EINVAL);
    free(area);
    close_side(&side);
}

/* ---- what the card lacks */

static void lacks(void)
{
    struct side side;
    open_side(&side);
    struct ibv_qp_init_attr init = {.send_cq = side.cq, .recv_cq = side.cq, .cap = {1, 1, 1, 1, 0}, .qp_type = IBV_QPT_UD};
    EXPECT(ibv_create_qp(side.pd, &init) == NULL && errno == EOPNOTSUPP);
    init = (struct ibv_qp_init_attr){.send_cq = side.cq, .recv_cq = side.cq, .cap = {1, 1, 5, 1, 0}, .qp_type = IBV_QPT_RC};
    EXPECT(ibv_create_qp(side.pd, &init) == NULL && errno == EINVAL);
    EXPECT(ibv_create_cq(side.context, 1 << 20, NULL, NULL, 0) == NULL && errno == EINVAL);
    struct ibv_srq_init_attr srq = {.attr = {1, 1, 0}};
    EXPECT(ibv_create_srq(side.pd, &srq) == NULL && errno == EOPNOTSUPP);
    struct ibv_send_wr wr = {.opcode = IBV_WR_ATOMIC_CMP_AND_SWP}, *bad = NULL;
    EXPECT(ibv_post_send(side.qp, &wr, &bad) == EOPNOTSUPP && bad == &wr);
    wr.opcode = IBV_WR_SEND;
    EXPECT(ibv_post_send(side.qp, &wr, &bad) == EINVAL);
    EXPECT(ibv_dealloc_pd(side.pd) == EBUSY && ibv_destroy_cq(side.cq) == EBUSY);
    close_side(&side);
}

static const struct {
    const char *name;
    void (*run)(void);
} cases[] = {{"dropped key", dropped_key},
             {"access flags", access_flags},
             {"flushed", flushed_in_order},
             {"shared pages", shared_pages},
             {"stack buffers", stack_buffers},
             {"two contexts", two_contexts},
             {"other memory", other_memory},
             {"fork", forks},
             {"queries", extended_queries},
             {"atomics", atomics_flag},
             {"peer in error", peer_in_error},
             {"no receive", no_receive},
             {"peer gone", peer_gone},
             {"no limits", no_limits},
             {"slow peer", slow_peer},
             {"limits by events", limits_by_events},
             {"signals", interrupted_waits},
             {"extended", extended_queue_pairs},
             {"extended completions", extended_completion_queues},
             {"lacks", lacks}};

int main(int argc, char **argv)
{
    for (size_t n = 0; n < sizeof cases / sizeof *cases; n++) {
        if (argc < 2 || strcmp(argv[1], cases[n].name) == 0) {
            printf("%s\n", cases[n].name);
            fflush(stdout);
            cases[n].run();
        }
    }
    return 0;
}
