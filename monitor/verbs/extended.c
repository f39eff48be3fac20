/* Extended queue pairs: requests that a program puts together by calls, one after another, and
 * posts at once. They are kept in a batch of the queue pair, from wr_start to wr_complete or
 * wr_abort. */
#include "verbs.h"

#include <errno.h>
#include <stdlib.h>

/* A request; its entries, or its bytes if they are inline. */
struct request {
    struct ibv_send_wr wr;
    struct ibv_sge sges[LESUNGKAP_SEND_MOST_SGES];
    uint8_t bytes[LESUNGKAP_MOST_INLINE];
};

struct batch {
    pthread_mutex_t lock; /* from wr_start on */
    int why;              /* it can't be posted; or 0 */
    unsigned count;
    unsigned most;
    struct request *at;
};

static struct batch *batch_of(struct ibv_qp_ex *qp)
{
    return ((struct lk_qp *)(void *)qp)->batch;
}

/* ---- requests */

static struct request *begin(struct ibv_qp_ex *qp, enum ibv_wr_opcode opcode)
{
    struct batch *batch = batch_of(qp);
    if (batch->count == batch->most) {
        batch->why = ENOMEM;
        return NULL;
    }
    struct request *request = batch->at + batch->count++;
    memset(&request->wr, 0, sizeof request->wr);
    request->wr.wr_id = qp->wr_id;
    request->wr.send_flags = qp->wr_flags;
    request->wr.opcode = opcode;
    return request;
}

static void begin_remote(struct ibv_qp_ex *qp, enum ibv_wr_opcode opcode, uint32_t key,
                         uint64_t address, __be32 immediate)
{
    struct request *request = begin(qp, opcode);
    if (request != NULL) {
        request->wr.wr.rdma.rkey = key;
        request->wr.wr.rdma.remote_addr = address;
        request->wr.imm_data = immediate;
    }
}

static void wr_write(struct ibv_qp_ex *qp, uint32_t key, uint64_t address)
{
    begin_remote(qp, IBV_WR_RDMA_WRITE, key, address, 0);
}

static void wr_write_imm(struct ibv_qp_ex *qp, uint32_t key, uint64_t address, __be32 immediate)
{
    begin_remote(qp, IBV_WR_RDMA_WRITE_WITH_IMM, key, address, immediate);
}

static void wr_read(struct ibv_qp_ex *qp, uint32_t key, uint64_t address)
{
    begin_remote(qp, IBV_WR_RDMA_READ, key, address, 0);
}

static void wr_send(struct ibv_qp_ex *qp)
{
    begin(qp, IBV_WR_SEND);
}

static void wr_send_imm(struct ibv_qp_ex *qp, __be32 immediate)
{
    struct request *request = begin(qp, IBV_WR_SEND_WITH_IMM);
    if (request != NULL) {
        request->wr.imm_data = immediate;
    }
}

/* ---- their bytes: of the last request that was begun */

static void set_sge_list(struct ibv_qp_ex *qp, size_t count, const struct ibv_sge *sges)
{
    struct batch *batch = batch_of(qp);
    if (batch->count == 0 || count > LESUNGKAP_SEND_MOST_SGES) {
        batch->why = batch->why != 0 ? batch->why : EINVAL;
        return;
    }
    struct request *request = batch->at + batch->count - 1;
    memcpy(request->sges, sges, count * sizeof *sges);
    request->wr.num_sge = (int)count;
}

static void set_sge(struct ibv_qp_ex *qp, uint32_t key, uint64_t address, uint32_t length)
{
    const struct ibv_sge sge = {address, length, key};
    set_sge_list(qp, 1, &sge);
}

/* The bytes are copied now, and are one entry then. */
static void set_inline_list(struct ibv_qp_ex *qp, size_t count, const struct ibv_data_buf *parts)
{
    struct batch *batch = batch_of(qp);
    struct ibv_sge sge = {0, 0, 0};
    for (size_t n = 0; n < count && batch->count > 0; n++) {
        if (parts[n].length > LESUNGKAP_MOST_INLINE - sge.length) {
            batch->why = EINVAL;
            return;
        }
        memcpy(batch->at[batch->count - 1].bytes + sge.length, parts[n].addr, parts[n].length);
        sge.length += (uint32_t)parts[n].length;
    }
    set_sge_list(qp, 1, &sge);
    if (batch->count > 0) {
        batch->at[batch->count - 1].wr.send_flags |= IBV_SEND_INLINE;
    }
}

static void set_inline(struct ibv_qp_ex *qp, void *bytes, size_t length)
{
    const struct ibv_data_buf part = {bytes, length};
    set_inline_list(qp, 1, &part);
}

/* ---- batches */

static void wr_start(struct ibv_qp_ex *qp)
{
    struct batch *batch = batch_of(qp);
    pthread_mutex_lock(&batch->lock);
    batch->count = 0;
    batch->why = 0;
}

static void wr_abort(struct ibv_qp_ex *qp)
{
    pthread_mutex_unlock(&batch_of(qp)->lock);
}

static int wr_complete(struct ibv_qp_ex *qp)
{
    struct batch *batch = batch_of(qp);
    struct ibv_send_wr *bad;
    for (unsigned n = 0; n < batch->count; n++) {
        struct request *request = batch->at + n;
        request->wr.next = n + 1 < batch->count ? &request[1].wr : NULL;
        request->wr.sg_list = request->sges;
        if (request->wr.send_flags & IBV_SEND_INLINE) {
            request->sges[0].addr = (uintptr_t)request->bytes;
        }
    }
    int why = batch->why;
    if (why == 0 && batch->count > 0) {
        why = work_post_send(&qp->qp_base, &batch->at[0].wr, &bad);
    }
    pthread_mutex_unlock(&batch->lock);
    return why;
}

/* ---- the queue pair */

static int extend(struct lk_qp *qp)
{
    const unsigned most = qp->init.cap.max_send_wr;
    struct batch *batch = calloc(1, sizeof *batch);
    struct request *requests = calloc(most + 1, sizeof *requests);
    if (batch == NULL || requests == NULL) {
        free(batch);
        free(requests);
        return ENOMEM;
    }
    *batch = (struct batch){.most = most, .at = requests};
    pthread_mutex_init(&batch->lock, NULL);
    qp->batch = batch;
    qp->ex.wr_rdma_write = wr_write;
    qp->ex.wr_rdma_write_imm = wr_write_imm;
    qp->ex.wr_rdma_read = wr_read;
    qp->ex.wr_send = wr_send;
    qp->ex.wr_send_imm = wr_send_imm;
    qp->ex.wr_set_sge = set_sge;
    qp->ex.wr_set_sge_list = set_sge_list;
    qp->ex.wr_set_inline_data = set_inline;
    qp->ex.wr_set_inline_data_list = set_inline_list;
    qp->ex.wr_start = wr_start;
    qp->ex.wr_complete = wr_complete;
    qp->ex.wr_abort = wr_abort;
    return 0;
}

void extended_free(struct lk_qp *qp)
{
    if (qp->batch != NULL) {
        pthread_mutex_destroy(&qp->batch->lock);
        free(qp->batch->at);
        free(qp->batch);
    }
}

/* What an extended queue pair may be asked for; 0 or an errno. */
static int check(const struct ibv_qp_init_attr_ex *attr)
{
    const uint32_t known =
        IBV_QP_INIT_ATTR_PD | IBV_QP_INIT_ATTR_SEND_OPS_FLAGS | IBV_QP_INIT_ATTR_CREATE_FLAGS;
    const uint64_t sends = IBV_QP_EX_WITH_RDMA_WRITE | IBV_QP_EX_WITH_RDMA_WRITE_WITH_IMM |
                           IBV_QP_EX_WITH_SEND | IBV_QP_EX_WITH_SEND_WITH_IMM |
                           IBV_QP_EX_WITH_RDMA_READ;
    if (!(attr->comp_mask & IBV_QP_INIT_ATTR_PD)) {
        return EINVAL;
    }
    if ((attr->comp_mask & ~known) ||
        ((attr->comp_mask & IBV_QP_INIT_ATTR_CREATE_FLAGS) && attr->create_flags != 0) ||
        ((attr->comp_mask & IBV_QP_INIT_ATTR_SEND_OPS_FLAGS) && (attr->send_ops_flags & ~sends))) {
        return EOPNOTSUPP;
    }
    return 0;
}

struct ibv_qp *extended_create_qp(struct ibv_context *base, struct ibv_qp_init_attr_ex *attr)
{
    struct ibv_qp_init_attr init = {.qp_context = attr->qp_context,
                                    .send_cq = attr->send_cq,
                                    .recv_cq = attr->recv_cq,
                                    .srq = attr->srq,
                                    .cap = attr->cap,
                                    .qp_type = attr->qp_type,
                                    .sq_sig_all = attr->sq_sig_all};
    (void)base;
    int why = check(attr);
    struct ibv_qp *qp = why == 0 ? ibv_create_qp(attr->pd, &init) : no_object(why);
    if (qp == NULL) {
        return NULL;
    }
    attr->cap = init.cap;
    why = attr->comp_mask & IBV_QP_INIT_ATTR_SEND_OPS_FLAGS ? extend((struct lk_qp *)qp) : 0;
    if (why != 0) {
        ibv_destroy_qp(qp);
        return no_object(why);
    }
    return qp;
}

EXPORTED struct ibv_qp_ex *ibv_qp_to_qp_ex(struct ibv_qp *base)
{
    struct lk_qp *qp = (struct lk_qp *)base;
    return qp->batch != NULL ? &qp->ex : NULL;
}
