/* Queue pairs: creation, moves, queries. */
#include "verbs.h"

#include <errno.h>
#include <stdlib.h>

enum { MOST_ACCESS_FLAGS = 15 }; /* of a queue pair, atomics' too */

/* ---- creation */

/* The caps that a queue pair gets; 0 or an errno. */
static int check_caps(const struct ibv_qp_init_attr *attr)
{
    const struct ibv_qp_cap *cap = &attr->cap;
    if (attr->qp_type != IBV_QPT_RC) {
        return EOPNOTSUPP;
    }
    if (attr->srq != NULL || attr->send_cq == NULL || attr->recv_cq == NULL ||
        cap->max_send_wr > MOST_WR || cap->max_recv_wr > MOST_WR ||
        cap->max_send_sge > LESUNGKAP_SEND_MOST_SGES ||
        cap->max_recv_sge > LESUNGKAP_RECEIVE_MOST_SGES ||
        cap->max_inline_data > LESUNGKAP_MOST_INLINE) {
        return EINVAL;
    }
    return 0;
}

static int create_qp(struct lk_context *context, struct lk_qp *qp)
{
    const struct lesungkap_create_qp wanted = {qp->base.pd->handle, LESUNGKAP_QP_TYPE_RC,
                                               qp->init.sq_sig_all ? LESUNGKAP_SIGNAL_ALL
                                                                   : LESUNGKAP_SIGNAL_FLAGGED,
                                               ((const struct lk_cq *)qp->base.send_cq)->cqn,
                                               ((const struct lk_cq *)qp->base.recv_cq)->cqn};
    const uint32_t result = ask_create_qp(&context->link, &wanted, &qp->base.qp_num);
    if (result == LESUNGKAP_DONE) {
        qp->base.handle = qp_number(qp->base.qp_num);
        context->qps[qp->base.handle] = qp;
        context->names[qp->base.handle] = qp->base.qp_num;
    }
    return link_errno(result);
}

static void free_qp(struct lk_qp *qp)
{
    pthread_cond_destroy(&qp->base.cond);
    pthread_mutex_destroy(&qp->base.mutex);
    extended_free(qp);
    free(qp->receives);
    free(qp);
}

EXPORTED struct ibv_qp *ibv_create_qp(struct ibv_pd *pd, struct ibv_qp_init_attr *attr)
{
    struct lk_context *context = context_of(pd->context);
    int why = check_caps(attr);
    struct lk_qp *qp = why == 0 ? calloc(1, sizeof *qp) : NULL;
    if (qp == NULL) {
        return no_object(why == 0 ? ENOMEM : why);
    }
    attr->cap.max_inline_data = LESUNGKAP_MOST_INLINE;
    qp->init = *attr;
    qp->receives = calloc(attr->cap.max_recv_wr + 1, sizeof *qp->receives);
    qp->base.context = pd->context;
    qp->base.qp_context = attr->qp_context;
    qp->base.pd = pd;
    qp->base.send_cq = attr->send_cq;
    qp->base.recv_cq = attr->recv_cq;
    qp->base.qp_type = attr->qp_type;
    qp->base.state = qp->attr.qp_state = IBV_QPS_RESET;
    pthread_mutex_init(&qp->base.mutex, NULL);
    pthread_cond_init(&qp->base.cond, NULL);
    pthread_mutex_lock(&context->lock);
    why = qp->receives == NULL ? ENOMEM : create_qp(context, qp);
    pthread_mutex_unlock(&context->lock);
    if (why != 0) {
        free_qp(qp);
        return no_object(why);
    }
    return &qp->base;
}

EXPORTED int ibv_destroy_qp(struct ibv_qp *base)
{
    struct lk_qp *qp = (struct lk_qp *)base;
    struct lk_context *context = context_of(base->context);
    pthread_mutex_lock(&context->lock);
    const uint32_t result = ask_destroy_qp(&context->link, base->qp_num);
    if (result == LESUNGKAP_DONE) {
        context->qps[base->handle] = NULL;
        free_qp(qp);
    }
    pthread_mutex_unlock(&context->lock);
    return link_errno(result);
}

/* ---- moves */

/* What a move asks for, as the kernel's table has it for RC. */
static int needed_mask(enum ibv_qp_state from, enum ibv_qp_state to)
{
    if (from == IBV_QPS_RESET && to == IBV_QPS_INIT) {
        return IBV_QP_PKEY_INDEX | IBV_QP_PORT | IBV_QP_ACCESS_FLAGS;
    }
    if (from == IBV_QPS_INIT && to == IBV_QPS_RTR) {
        return IBV_QP_AV | IBV_QP_PATH_MTU | IBV_QP_DEST_QPN | IBV_QP_RQ_PSN |
               IBV_QP_MAX_DEST_RD_ATOMIC | IBV_QP_MIN_RNR_TIMER;
    }
    if (from == IBV_QPS_RTR && to == IBV_QPS_RTS) {
        return IBV_QP_TIMEOUT | IBV_QP_RETRY_CNT | IBV_QP_RNR_RETRY | IBV_QP_SQ_PSN |
               IBV_QP_MAX_QP_RD_ATOMIC;
    }
    return 0;
}

/* Whether the attributes can be meant for this card. */
static int check_attr(const struct lk_qp *qp, const struct ibv_qp_attr *attr, int mask)
{
    const int needed = needed_mask(qp->base.state, attr->qp_state);
    if (!(mask & IBV_QP_STATE) || (mask & needed) != needed) {
        return EINVAL;
    }
    if (((mask & IBV_QP_PORT) && attr->port_num != PORT) ||
        ((mask & IBV_QP_PKEY_INDEX) && attr->pkey_index != 0) ||
        ((mask & IBV_QP_ACCESS_FLAGS) && attr->qp_access_flags > MOST_ACCESS_FLAGS)) {
        return EINVAL;
    }
    return 0;
}

static int move(struct lk_context *context, const struct lk_qp *qp, const struct ibv_qp_attr *attr,
                int mask)
{
    struct lesungkap_modify_qp wanted;
    memset(&wanted, 0, sizeof wanted);
    wanted.qpn = qp->base.qp_num;
    wanted.mask = LESUNGKAP_MASK_STATE;
    wanted.state = (uint8_t)attr->qp_state;
    if (attr->qp_state == IBV_QPS_RTR) {
        wanted.mask |= LESUNGKAP_MASK_DESTINATION;
        wanted.destination = attr->dest_qp_num;
    }
    if (mask & IBV_QP_ACCESS_FLAGS) {
        put_rights(&wanted, attr->qp_access_flags);
    }
    return link_errno(ask_modify_qp(&context->link, &wanted));
}

static void keep(struct ibv_qp_attr *kept, const struct ibv_qp_attr *attr, int mask)
{
    kept->qp_state = kept->cur_qp_state = attr->qp_state;
    kept->path_mtu = mask & IBV_QP_PATH_MTU ? attr->path_mtu : kept->path_mtu;
    kept->rq_psn = mask & IBV_QP_RQ_PSN ? attr->rq_psn : kept->rq_psn;
    kept->sq_psn = mask & IBV_QP_SQ_PSN ? attr->sq_psn : kept->sq_psn;
    kept->dest_qp_num = mask & IBV_QP_DEST_QPN ? attr->dest_qp_num : kept->dest_qp_num;
    kept->qp_access_flags =
        mask & IBV_QP_ACCESS_FLAGS ? rights_of(attr->qp_access_flags) : kept->qp_access_flags;
    kept->qp_access_flags = attr->qp_state == IBV_QPS_RESET ? 0 : kept->qp_access_flags;
    kept->ah_attr = mask & IBV_QP_AV ? attr->ah_attr : kept->ah_attr;
    kept->max_rd_atomic =
        mask & IBV_QP_MAX_QP_RD_ATOMIC ? attr->max_rd_atomic : kept->max_rd_atomic;
    kept->max_dest_rd_atomic =
        mask & IBV_QP_MAX_DEST_RD_ATOMIC ? attr->max_dest_rd_atomic : kept->max_dest_rd_atomic;
    kept->min_rnr_timer = mask & IBV_QP_MIN_RNR_TIMER ? attr->min_rnr_timer : kept->min_rnr_timer;
    kept->port_num = mask & IBV_QP_PORT ? attr->port_num : kept->port_num;
    kept->timeout = mask & IBV_QP_TIMEOUT ? attr->timeout : kept->timeout;
    kept->retry_cnt = mask & IBV_QP_RETRY_CNT ? attr->retry_cnt : kept->retry_cnt;
    kept->rnr_retry = mask & IBV_QP_RNR_RETRY ? attr->rnr_retry : kept->rnr_retry;
}

/* What is left of the state before: held work's time, and receives that are now flushed or
 * forgotten. */
static void enter(struct lk_context *context, struct lk_qp *qp, enum ibv_qp_state state)
{
    struct lk_cq *cq = (struct lk_cq *)qp->base.recv_cq;
    qp->base.state = state;
    qp->broken = state == IBV_QPS_ERR;
    qp->drained = 0;
    qp->ended = IBV_WC_SUCCESS;
    qp->limits = (struct limits){0};
    if (state == IBV_QPS_RESET) {
        qp->waiting = qp->in_card = 0;
    } else if (qp->broken && flushes_into(context, cq)) {
        events_raise(cq);
    }
}

EXPORTED int ibv_modify_qp(struct ibv_qp *base, struct ibv_qp_attr *attr, int mask)
{
    struct lk_qp *qp = (struct lk_qp *)base;
    struct lk_context *context = context_of(base->context);
    pthread_mutex_lock(&context->lock);
    int why = check_attr(qp, attr, mask);
    if (why == 0) {
        why = move(context, qp, attr, mask);
    }
    if (why == 0) {
        keep(&qp->attr, attr, mask);
        enter(context, qp, attr->qp_state);
    }
    pthread_mutex_unlock(&context->lock);
    return why;
}

EXPORTED int ibv_query_qp(struct ibv_qp *base, struct ibv_qp_attr *attr, int mask,
                          struct ibv_qp_init_attr *init)
{
    struct lk_qp *qp = (struct lk_qp *)base;
    (void)mask;
    *attr = qp->attr;
    attr->qp_state = attr->cur_qp_state = base->state = qp->broken ? IBV_QPS_ERR : base->state;
    attr->cap = qp->init.cap;
    *init = qp->init;
    return 0;
}
