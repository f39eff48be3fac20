#define _GNU_SOURCE
#include "verbs.h"

#include <stdio.h>
#include <stdlib.h>
#include <string.h>
#include <unistd.h>

void expect(int holds, const char *what, const char *file, int line)
{
    if (!holds) {
        printf("UNEXPECTED: %s, line %d: not %s (errno %d)\n", file, line, what, errno);
        fflush(stdout);
        _exit(1);
    }
}

static void open_all(struct side *side, int events)
{
    struct ibv_device **list = ibv_get_device_list(NULL);
    EXPECT(list != NULL && list[0] != NULL && (side->context = ibv_open_device(list[0])) != NULL);
    ibv_free_device_list(list);
    EXPECT((side->pd = ibv_alloc_pd(side->context)) != NULL);
    side->channel = events ? ibv_create_comp_channel(side->context) : NULL;
    EXPECT((side->channel != NULL) == events);
    EXPECT((side->cq = ibv_create_cq(side->context, 100, NULL, side->channel, 0)) != NULL);
    struct ibv_qp_init_attr init = {.send_cq = side->cq, .recv_cq = side->cq, .cap = {10, RECEIVES, 1, 1, 0}, .qp_type = IBV_QPT_RC, .sq_sig_all = 1};
    EXPECT((side->qp = ibv_create_qp(side->pd, &init)) != NULL);
    EXPECT((side->buffer = aligned_alloc(SIZE, SIZE)) != NULL);
    memset(side->buffer, 1, SIZE);
    EXPECT((side->mr = ibv_reg_mr(side->pd, side->buffer, SIZE, ALL)) != NULL);
}

void open_side(struct side *side) { open_all(side, 0); }

void open_side_with_events(struct side *side) { open_all(side, 1); }

void close_side(struct side *side)
{
    EXPECT(ibv_destroy_qp(side->qp) == 0 && ibv_destroy_cq(side->cq) == 0);
    EXPECT(side->channel == NULL || ibv_destroy_comp_channel(side->channel) == 0);
    EXPECT(side->mr == NULL || ibv_dereg_mr(side->mr) == 0);
    EXPECT(ibv_dealloc_pd(side->pd) == 0 && ibv_close_device(side->context) == 0);
    free(side->buffer);
}

void ready_within(struct side *side, uint32_t peer, unsigned access, const uint8_t limits[4])
{
    struct ibv_qp_attr attr = {.qp_state = IBV_QPS_INIT, .port_num = 1, .qp_access_flags = access};
    EXPECT(ibv_modify_qp(side->qp, &attr, IBV_QP_STATE | IBV_QP_PKEY_INDEX) == EINVAL);
    EXPECT(ibv_modify_qp(side->qp, &attr, IBV_QP_STATE | IBV_QP_PKEY_INDEX | IBV_QP_PORT | IBV_QP_ACCESS_FLAGS) == 0);
    attr = (struct ibv_qp_attr){.qp_state = IBV_QPS_RTR, .dest_qp_num = peer, .path_mtu = IBV_MTU_1024, .min_rnr_timer = limits[3]};
    EXPECT(ibv_modify_qp(side->qp, &attr,
                         IBV_QP_STATE | IBV_QP_AV | IBV_QP_PATH_MTU | IBV_QP_DEST_QPN | IBV_QP_RQ_PSN | IBV_QP_MAX_DEST_RD_ATOMIC |
                             IBV_QP_MIN_RNR_TIMER) == 0);
    attr = (struct ibv_qp_attr){.qp_state = IBV_QPS_RTS, .timeout = limits[0], .retry_cnt = limits[1], .rnr_retry = limits[2]};
    EXPECT(ibv_modify_qp(side->qp, &attr,
                         IBV_QP_STATE | IBV_QP_TIMEOUT | IBV_QP_RETRY_CNT | IBV_QP_RNR_RETRY | IBV_QP_SQ_PSN | IBV_QP_MAX_QP_RD_ATOMIC) == 0);
}

void ready(struct side *side, uint32_t peer, unsigned access)
{
    static const uint8_t none[4] = {0, 7, 7, 12};
    ready_within(side, peer, access, none);
}

struct told told_by(const struct side *side) { return (struct told){side->qp->qp_num, side->mr->rkey, (uintptr_t)side->buffer}; }

struct ibv_wc next_completion(struct side *side)
{
    struct ibv_wc wc;
    int got;
    while ((got = ibv_poll_cq(side->cq, 1, &wc)) == 0) {
        usleep(100);
    }
    EXPECT(got == 1 && wc.qp_num == side->qp->qp_num);
    return wc;
}

void post(struct side *side, enum ibv_wr_opcode opcode, const struct told *peer, uint32_t length)
{
    struct ibv_sge sge = {(uintptr_t)side->buffer, length, side->mr->lkey};
    struct ibv_send_wr wr = {.sg_list = &sge, .num_sge = 1, .opcode = opcode}, *bad;
    wr.wr.rdma.remote_addr = peer->address;
    wr.wr.rdma.rkey = peer->key;
    EXPECT(ibv_post_send(side->qp, &wr, &bad) == 0);
}

enum ibv_wc_status reach(struct side *side, enum ibv_wr_opcode opcode, const struct told *peer, uint32_t length)
{
    post(side, opcode, peer, length);
    return next_completion(side).status;
}
