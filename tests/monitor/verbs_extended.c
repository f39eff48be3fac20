/* Cases of extended queue pairs, whose requests are put together by calls and posted at once, and of extended completion queues, whose
 * completions are read by calls. */
#include "verbs.h"

#include <arpa/inet.h>
#include <string.h>

enum {
    OPS = IBV_QP_EX_WITH_RDMA_WRITE | IBV_QP_EX_WITH_RDMA_WRITE_WITH_IMM | IBV_QP_EX_WITH_SEND | IBV_QP_EX_WITH_SEND_WITH_IMM | IBV_QP_EX_WITH_RDMA_READ
};

/* Puts an extended queue pair in the place of the side's. */
static struct ibv_qp_ex *extend(struct side *side)
{
    struct ibv_qp_init_attr_ex init = {.send_cq = side->cq,
                                       .recv_cq = side->cq,
                                       .cap = {6, 4, 2, 1, 0},
                                       .qp_type = IBV_QPT_RC,
                                       .comp_mask = IBV_QP_INIT_ATTR_PD | IBV_QP_INIT_ATTR_SEND_OPS_FLAGS,
                                       .pd = side->pd,
                                       .send_ops_flags = OPS | IBV_QP_EX_WITH_LOCAL_INV};
    EXPECT(ibv_qp_to_qp_ex(side->qp) == NULL && ibv_destroy_qp(side->qp) == 0);
    EXPECT(ibv_create_qp_ex(side->context, &init) == NULL && errno == EOPNOTSUPP);
    init.send_ops_flags = OPS;
    init.comp_mask |= IBV_QP_INIT_ATTR_CREATE_FLAGS;
    init.create_flags = IBV_QP_CREATE_SCATTER_FCS;
    EXPECT(ibv_create_qp_ex(side->context, &init) == NULL && errno == EOPNOTSUPP);
    init.create_flags = 0;
    EXPECT((side->qp = ibv_create_qp_ex(side->context, &init)) != NULL && ibv_qp_to_qp_ex(side->qp) != NULL);
    return ibv_qp_to_qp_ex(side->qp);
}

static void post_receive(struct side *side, uint8_t *bytes, uint32_t length)
{
    struct ibv_sge sge = {(uintptr_t)bytes, length, side->mr->lkey};
    struct ibv_recv_wr wr = {.sg_list = &sge, .num_sge = 1}, *bad;
    EXPECT(ibv_post_recv(side->qp, &wr, &bad) == 0);
}

/* Six requests in one batch, the last two with bytes that are gone when it is posted. */
static void batch(struct side *own, struct ibv_qp_ex *qp, struct side *peer)
{
    uint8_t bytes[8] = {1, 2, 3, 4, 5, 6, 7, 8};
    const struct ibv_sge sges[2] = {{(uintptr_t)own->buffer + 8, 4, own->mr->lkey}, {(uintptr_t)own->buffer, 4, own->mr->lkey}};
    const struct ibv_data_buf bufs[2] = {{bytes + 4, 4}, {bytes, 4}};
    const uint64_t to = (uintptr_t)peer->buffer;
    ibv_wr_start(qp);
    for (qp->wr_id = 1; qp->wr_id <= 6; qp->wr_id++) {
        qp->wr_flags = qp->wr_id % 2 == 0 ? IBV_SEND_SIGNALED : 0;
        switch (qp->wr_id) {
        case 1: ibv_wr_rdma_write(qp, peer->mr->rkey, to); break;
        case 2: ibv_wr_rdma_write_imm(qp, peer->mr->rkey, to + 8, htonl(22)); break;
        case 3: ibv_wr_send(qp); break;
        case 4: ibv_wr_rdma_read(qp, peer->mr->rkey, to); break;
        case 5: ibv_wr_rdma_write(qp, peer->mr->rkey, to + 16); break;
        default: ibv_wr_send_imm(qp, htonl(66));
        }
        switch (qp->wr_id) {
        case 2: ibv_wr_set_sge_list(qp, 2, sges); break;
        case 4: ibv_wr_set_sge(qp, own->mr->lkey, (uintptr_t)own->buffer + 1024, 8); break;
        case 5: ibv_wr_set_inline_data(qp, bytes, sizeof bytes); break;
        case 6: ibv_wr_set_inline_data_list(qp, 2, bufs); break;
        default: ibv_wr_set_sge(qp, own->mr->lkey, (uintptr_t)own->buffer, 8);
        }
    }
    memset(bytes, 0, sizeof bytes);
    EXPECT(ibv_wr_complete(qp) == 0);
}

void extended_queue_pairs(void)
{
    static const uint8_t mixed[24] = {10, 11, 12, 13, 14, 15, 16, 17, 18, 19, 20, 21, 10, 11, 12, 13, 1, 2, 3, 4, 5, 6, 7, 8};
    static const uint8_t turned[8] = {5, 6, 7, 8, 1, 2, 3, 4};
    struct side own, peer;
    open_side(&own);
    open_side(&peer);
    struct ibv_qp_ex *qp = extend(&own);
    ready(&own, peer.qp->qp_num, ALL);
    ready(&peer, own.qp->qp_num, ALL);
    for (int n = 0; n < 16; n++) {
        own.buffer[n] = (uint8_t)(n + 10);
    }
    post_receive(&peer, peer.buffer + 2048, 64);
    post_receive(&peer, peer.buffer + 2048, 64);
    post_receive(&peer, peer.buffer + 3072, 64);
    batch(&own, qp, &peer);
    for (uint64_t n = 2; n <= 6; n += 2) {
        const struct ibv_wc wc = next_completion(&own);
        EXPECT(wc.status == IBV_WC_SUCCESS && wc.wr_id == n);
    }
    EXPECT(ntohl(next_completion(&peer).imm_data) == 22 && next_completion(&peer).byte_len == 8);
    EXPECT(ntohl(next_completion(&peer).imm_data) == 66);
    EXPECT(memcmp(peer.buffer, mixed, sizeof mixed) == 0 && memcmp(peer.buffer + 2048, mixed, 8) == 0);
    EXPECT(memcmp(peer.buffer + 3072, turned, sizeof turned) == 0 && memcmp(own.buffer + 1024, mixed, 8) == 0);
    struct ibv_wc wc;
    post_receive(&peer, peer.buffer + 3072, 64);
    ibv_wr_start(qp);
    ibv_wr_send(qp);
    ibv_wr_set_sge(qp, own.mr->lkey, (uintptr_t)own.buffer, 8);
    ibv_wr_abort(qp);
    ibv_wr_start(qp);
    EXPECT(ibv_wr_complete(qp) == 0 && ibv_poll_cq(peer.cq, 1, &wc) == 0);
    ibv_wr_start(qp);
    for (int n = 0; n < 7; n++) {
        ibv_wr_send(qp);
    }
    EXPECT(ibv_wr_complete(qp) == ENOMEM);
    ibv_wr_start(qp);
    ibv_wr_send(qp);
    ibv_wr_set_inline_data(qp, own.buffer, 513);
    EXPECT(ibv_wr_complete(qp) == EINVAL && ibv_poll_cq(own.cq, 1, &wc) == 0);
    close_side(&own);
    close_side(&peer);
}

/* ---- completions */

/* A side whose queue is an extended one. */
static struct ibv_cq_ex *extend_queue(struct side *side)
{
    struct ibv_cq_init_attr_ex init = {.cqe = 8, .wc_flags = IBV_WC_STANDARD_FLAGS | IBV_WC_EX_WITH_FLOW_TAG, .cq_context = side};
    EXPECT(ibv_destroy_qp(side->qp) == 0 && ibv_destroy_cq(side->cq) == 0);
    EXPECT(ibv_create_cq_ex(side->context, &init) == NULL && errno == EOPNOTSUPP);
    init.wc_flags = IBV_WC_STANDARD_FLAGS;
    init.comp_vector = 1;
    EXPECT(ibv_create_cq_ex(side->context, &init) == NULL && errno == EINVAL);
    init.comp_vector = 0;
    struct ibv_cq_ex *cq = ibv_create_cq_ex(side->context, &init);
    EXPECT(cq != NULL && cq->cqe == 8 && cq->cq_context == side);
    side->cq = ibv_cq_ex_to_cq(cq);
    struct ibv_qp_init_attr qp = {.send_cq = side->cq, .recv_cq = side->cq, .cap = {4, 4, 1, 1, 0}, .qp_type = IBV_QPT_RC};
    EXPECT((side->qp = ibv_create_qp(side->pd, &qp)) != NULL);
    return cq;
}

void extended_completion_queues(void)
{
    struct side own, peer;
    struct ibv_poll_cq_attr attr = {.comp_mask = 0}, wrong = {.comp_mask = 1};
    open_side(&own);
    open_side(&peer);
    struct ibv_cq_ex *cq = extend_queue(&own);
    ready(&own, peer.qp->qp_num, ALL);
    ready(&peer, own.qp->qp_num, ALL);
    EXPECT(ibv_start_poll(cq, &wrong) == EINVAL && ibv_start_poll(cq, &attr) == ENOENT && ibv_start_poll(cq, &attr) == ENOENT);
    post_receive(&own, own.buffer, 64);
    struct ibv_sge sge = {(uintptr_t)peer.buffer, 24, peer.mr->lkey};
    struct ibv_send_wr wr = {.wr_id = 3, .sg_list = &sge, .num_sge = 1, .opcode = IBV_WR_SEND_WITH_IMM, .imm_data = htonl(44)}, *bad;
    EXPECT(ibv_post_send(peer.qp, &wr, &bad) == 0 && next_completion(&peer).status == IBV_WC_SUCCESS);
    sge.lkey++;
    struct ibv_send_wr write = {.wr_id = 5, .sg_list = &sge, .num_sge = 1, .opcode = IBV_WR_RDMA_WRITE};
    EXPECT(ibv_post_send(own.qp, &write, &bad) == 0);
    EXPECT(ibv_start_poll(cq, &attr) == 0 && cq->status == IBV_WC_SUCCESS && cq->wr_id == 0);
    EXPECT(ibv_wc_read_opcode(cq) == IBV_WC_RECV && ibv_wc_read_byte_len(cq) == 24 && ntohl(ibv_wc_read_imm_data(cq)) == 44);
    EXPECT(ibv_wc_read_wc_flags(cq) == IBV_WC_WITH_IMM && ibv_wc_read_qp_num(cq) == own.qp->qp_num && ibv_wc_read_src_qp(cq) == 0);
    EXPECT(ibv_wc_read_slid(cq) == 0 && ibv_wc_read_sl(cq) == 0 && ibv_wc_read_dlid_path_bits(cq) == 0);
    EXPECT(ibv_next_poll(cq) == 0 && cq->status == IBV_WC_LOC_PROT_ERR && cq->wr_id == 5 && ibv_wc_read_vendor_err(cq) == 0);
    EXPECT(ibv_next_poll(cq) == ENOENT);
    ibv_end_poll(cq);
    EXPECT(ibv_start_poll(cq, &attr) == ENOENT);
    close_side(&own);
    close_side(&peer);
}
