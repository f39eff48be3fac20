/* Extended completion queues: a program reads the fields of one completion after another by calls.
 */
#include "verbs.h"

#include <errno.h>

static struct lk_cq *queue_of(struct ibv_cq_ex *ex)
{
    return (struct lk_cq *)(void *)ex;
}

/* ---- polls */

/* Takes the next completion; 0, ENOENT where there is none, or an errno. */
static int take(struct lk_cq *cq)
{
    const int got = work_poll(&cq->base, 1, &cq->polled);
    if (got != 1) {
        return got == 0 ? ENOENT : EIO;
    }
    cq->ex.status = cq->polled.status;
    cq->ex.wr_id = cq->polled.wr_id;
    return 0;
}

static int start_poll(struct ibv_cq_ex *ex, struct ibv_poll_cq_attr *attr)
{
    struct lk_cq *cq = queue_of(ex);
    if (attr->comp_mask != 0) {
        return EINVAL;
    }
    pthread_mutex_lock(&cq->polling);
    const int why = take(cq);
    if (why != 0) {
        pthread_mutex_unlock(&cq->polling);
    }
    return why;
}

static int next_poll(struct ibv_cq_ex *ex)
{
    return take(queue_of(ex));
}

static void end_poll(struct ibv_cq_ex *ex)
{
    pthread_mutex_unlock(&queue_of(ex)->polling);
}

/* ---- fields; those of addresses are 0 */

static enum ibv_wc_opcode read_opcode(struct ibv_cq_ex *ex)
{
    return queue_of(ex)->polled.opcode;
}

static uint32_t read_vendor_err(struct ibv_cq_ex *ex)
{
    return queue_of(ex)->polled.vendor_err;
}

static uint32_t read_byte_len(struct ibv_cq_ex *ex)
{
    return queue_of(ex)->polled.byte_len;
}

static __be32 read_imm_data(struct ibv_cq_ex *ex)
{
    return queue_of(ex)->polled.imm_data;
}

static uint32_t read_qp_num(struct ibv_cq_ex *ex)
{
    return queue_of(ex)->polled.qp_num;
}

static unsigned read_wc_flags(struct ibv_cq_ex *ex)
{
    return queue_of(ex)->polled.wc_flags;
}

static uint32_t read_none(struct ibv_cq_ex *ex)
{
    (void)ex;
    return 0;
}

static uint8_t read_none_of_8(struct ibv_cq_ex *ex)
{
    (void)ex;
    return 0;
}

static void set_calls(struct ibv_cq_ex *ex)
{
    ex->start_poll = start_poll;
    ex->next_poll = next_poll;
    ex->end_poll = end_poll;
    ex->read_opcode = read_opcode;
    ex->read_vendor_err = read_vendor_err;
    ex->read_byte_len = read_byte_len;
    ex->read_imm_data = read_imm_data;
    ex->read_qp_num = read_qp_num;
    ex->read_wc_flags = read_wc_flags;
    ex->read_src_qp = ex->read_slid = read_none;
    ex->read_sl = ex->read_dlid_path_bits = read_none_of_8;
}

/* ---- the queue */

struct ibv_cq_ex *extended_create_cq(struct ibv_context *base, struct ibv_cq_init_attr_ex *attr)
{
    const uint64_t fields = IBV_WC_STANDARD_FLAGS;
    const uint32_t flags = attr->comp_mask & IBV_CQ_INIT_ATTR_MASK_FLAGS ? attr->flags : 0;
    if ((attr->wc_flags & ~fields) || (attr->comp_mask & ~(uint32_t)IBV_CQ_INIT_ATTR_MASK_FLAGS) ||
        (flags & ~(uint32_t)IBV_CREATE_CQ_ATTR_SINGLE_THREADED)) {
        return no_object(EOPNOTSUPP);
    }
    if (attr->cqe > MOST_CQE || attr->comp_vector > MOST_CQE) {
        return no_object(EINVAL);
    }
    struct lk_cq *cq = (struct lk_cq *)ibv_create_cq(base, (int)attr->cqe, attr->cq_context,
                                                     attr->channel, (int)attr->comp_vector);
    if (cq == NULL) {
        return NULL;
    }
    set_calls(&cq->ex);
    return &cq->ex;
}
