/* Posting and polling. A send goes to the monitor at once, which holds it where the card can't take
 * it yet. A receive that the card has no room for waits here, and follows when one has been
 * completed. Of a queue pair in error, the card's receives are flushed by request, and those that
 * wait here follow one by one: the card flushes each as it is posted. */
#include "verbs.h"

#include <errno.h>

/* ---- sends */

/* Copies what the entries point to; 0, or an errno where it is too much. */
static int gather(const struct ibv_send_wr *wr, uint8_t bytes[LESUNGKAP_MOST_INLINE],
                  uint32_t *length)
{
    *length = 0;
    for (int n = 0; n < wr->num_sge; n++) {
        const struct ibv_sge *sge = wr->sg_list + n;
        if (sge->length > LESUNGKAP_MOST_INLINE - *length) {
            return EINVAL;
        }
        memcpy(bytes + *length, (const void *)(uintptr_t)sge->addr, sge->length);
        *length += sge->length;
    }
    return 0;
}

static void copy_entries(struct lesungkap_sge *to, const struct ibv_sge *from, uint32_t count)
{
    for (uint32_t n = 0; n < count; n++) {
        to[n] = (struct lesungkap_sge){from[n].addr, from[n].length, from[n].lkey};
    }
}

/* The card's record of a request; 0 or an errno. */
static int put_request(const struct lk_qp *qp, const struct ibv_send_wr *wr,
                       struct lesungkap_send *send, uint8_t *bytes)
{
    const unsigned flags = LESUNGKAP_FLAG_FENCE | LESUNGKAP_FLAG_SIGNALED |
                           LESUNGKAP_FLAG_SOLICITED | LESUNGKAP_FLAG_INLINE;
    if (wr->opcode > IBV_WR_RDMA_READ) {
        return EOPNOTSUPP;
    }
    if (wr->num_sge < 0 || (unsigned)wr->num_sge > qp->init.cap.max_send_sge ||
        (wr->send_flags & ~flags)) {
        return EINVAL;
    }
    memset(send, 0, sizeof *send);
    send->wr_id = wr->wr_id;
    send->opcode = (uint8_t)wr->opcode;
    send->flags = (uint8_t)wr->send_flags;
    if (wr->opcode == IBV_WR_SEND_WITH_IMM || wr->opcode == IBV_WR_RDMA_WRITE_WITH_IMM) {
        send->immediate = wr->imm_data;
    }
    if (wr->opcode != IBV_WR_SEND && wr->opcode != IBV_WR_SEND_WITH_IMM) {
        send->remote_address = wr->wr.rdma.remote_addr;
        send->remote_key = wr->wr.rdma.rkey;
    }
    if (wr->send_flags & IBV_SEND_INLINE) {
        send->inline_bytes = bytes;
        return gather(wr, bytes, &send->count);
    }
    send->count = (uint32_t)wr->num_sge;
    copy_entries(send->sges, wr->sg_list, send->count);
    return 0;
}

/* The next receives that wait here and that the card has room for. */
static unsigned next_receives(const struct lk_qp *qp, const struct lesungkap_receive **next)
{
    unsigned count = 0;
    while (count < qp->waiting && qp->in_card + count < LESUNGKAP_QP_MOST_RECEIVES && !qp->broken) {
        next[count] = qp->receives + (qp->first + count) % qp->init.cap.max_recv_wr;
        count++;
    }
    return count;
}

static void given(struct lk_qp *qp, unsigned count)
{
    qp->first = (qp->first + count) % qp->init.cap.max_recv_wr;
    qp->waiting -= count;
    qp->in_card += count;
}

/* Makes a send, with receives that were deferred; where it completes at once, its completion is
 * taken along and waits here. */
static uint32_t send_together(struct lk_context *context, struct lk_qp *qp,
                              const struct lesungkap_send *send)
{
    struct lk_cq *cq = (struct lk_cq *)qp->base.send_cq;
    const int signaled = qp->init.sq_sig_all || (send->flags & LESUNGKAP_FLAG_SIGNALED);
    struct together with = {.cqn = cq->cqn, .polls = signaled && cq->early_count < EARLY_MOST};
    with.count = next_receives(qp, with.receives);
    const uint32_t result = ask_together(&context->link, qp->base.qp_num, send, &with);
    given(qp, with.given);
    if (with.polled) {
        cq->early[(cq->early_first + cq->early_count++) % EARLY_MOST] = with.completion;
    }
    return result;
}

static int post_one(struct lk_context *context, struct lk_qp *qp, const struct ibv_send_wr *wr)
{
    uint8_t bytes[LESUNGKAP_MOST_INLINE];
    struct lesungkap_send send;
    const int why = put_request(qp, wr, &send, bytes);
    if (why != 0) {
        return why;
    }
    const uint32_t result = send_together(context, qp, &send);
    switch (lesungkap_answer(result)) {
    case LESUNGKAP_DONE: return 0;
    case LESUNGKAP_HELD_PEER:
    case LESUNGKAP_HELD_PLACE: limits_begin(context, qp); return 0;
    default: return link_errno(result);
    }
}

int work_post_send(struct ibv_qp *base, struct ibv_send_wr *wr, struct ibv_send_wr **bad)
{
    struct lk_context *context = context_of(base->context);
    int why = 0;
    pthread_mutex_lock(&context->lock);
    for (; wr != NULL && why == 0; wr = why == 0 ? wr->next : wr) {
        why = post_one(context, (struct lk_qp *)base, wr);
        *bad = wr;
    }
    pthread_mutex_unlock(&context->lock);
    return why;
}

/* ---- receives */

/* Gives the card the oldest receive that waits here, if it takes it. */
static uint32_t give_first(struct lk_context *context, struct lk_qp *qp)
{
    const uint32_t result = ask_receive(&context->link, qp->base.qp_num, qp->receives + qp->first);
    if (lesungkap_answer(result) == LESUNGKAP_DONE) {
        given(qp, 1);
    }
    return result;
}

/* The same with several in one request. */
static uint32_t give_several(struct lk_context *context, struct lk_qp *qp)
{
    const struct lesungkap_receive *next[LESUNGKAP_QP_MOST_RECEIVES];
    const unsigned count = next_receives(qp, next);
    uint32_t result;
    given(qp, ask_receives(&context->link, qp->base.qp_num, next, count, &result));
    return result;
}

/* Moves receives that wait here into the card, as many as it takes. */
static uint32_t top_up(struct lk_context *context, struct lk_qp *qp)
{
    uint32_t result = LESUNGKAP_DONE;
    while (qp->waiting > 0 && qp->in_card < LESUNGKAP_QP_MOST_RECEIVES && !qp->broken &&
           lesungkap_answer(result) == LESUNGKAP_DONE) {
        result = qp->waiting > 1 && context->link.counters != NULL ? give_several(context, qp)
                                                                   : give_first(context, qp);
    }
    return result;
}

static int receive_one(struct lk_context *context, struct lk_qp *qp, const struct ibv_recv_wr *wr)
{
    if (wr->num_sge < 0 || (unsigned)wr->num_sge > qp->init.cap.max_recv_sge ||
        qp->base.state == IBV_QPS_RESET) {
        return EINVAL;
    }
    if (qp->waiting + qp->in_card >= qp->init.cap.max_recv_wr) {
        return ENOMEM;
    }
    struct lesungkap_receive *receive =
        qp->receives + (qp->first + qp->waiting) % qp->init.cap.max_recv_wr;
    memset(receive, 0, sizeof *receive);
    receive->wr_id = wr->wr_id;
    receive->count = (uint32_t)wr->num_sge;
    copy_entries(receive->sges, wr->sg_list, receive->count);
    qp->waiting++;
    const uint32_t result = top_up(context, qp);
    return lesungkap_answer(result) == LINK_LOST ? EIO : 0;
}

int work_post_receive(struct ibv_qp *base, struct ibv_recv_wr *wr, struct ibv_recv_wr **bad)
{
    struct lk_context *context = context_of(base->context);
    struct lk_qp *qp = (struct lk_qp *)base;
    int why = 0;
    pthread_mutex_lock(&context->lock);
    for (; wr != NULL && why == 0; wr = why == 0 ? wr->next : wr) {
        why = receive_one(context, qp, wr);
        *bad = wr;
    }
    if (qp->broken && qp->waiting > 0) {
        events_raise((struct lk_cq *)base->recv_cq);
    }
    pthread_mutex_unlock(&context->lock);
    return why;
}

/* ---- completions */

static enum ibv_wc_status status_of(unsigned status)
{
    switch (status) {
    case LESUNGKAP_SUCCESS: return IBV_WC_SUCCESS;
    case LESUNGKAP_LOCAL_LENGTH: return IBV_WC_LOC_LEN_ERR;
    case LESUNGKAP_LOCAL_PROTECTION: return IBV_WC_LOC_PROT_ERR;
    case LESUNGKAP_FLUSHED: return IBV_WC_WR_FLUSH_ERR;
    case LESUNGKAP_REMOTE_INVALID: return IBV_WC_REM_INV_REQ_ERR;
    case LESUNGKAP_REMOTE_ACCESS: return IBV_WC_REM_ACCESS_ERR;
    default: return IBV_WC_GENERAL_ERR;
    }
}

static enum ibv_wc_opcode opcode_of(unsigned opcode)
{
    switch (opcode) {
    case LESUNGKAP_COMPLETED_SEND: return IBV_WC_SEND;
    case LESUNGKAP_COMPLETED_WRITE: return IBV_WC_RDMA_WRITE;
    case LESUNGKAP_COMPLETED_READ: return IBV_WC_RDMA_READ;
    case LESUNGKAP_COMPLETED_RECEIVE_OF_WRITE: return IBV_WC_RECV_RDMA_WITH_IMM;
    default: return IBV_WC_RECV;
    }
}

static int is_receive(const struct lesungkap_completion *done)
{
    return done->opcode == LESUNGKAP_COMPLETED_RECEIVE ||
           done->opcode == LESUNGKAP_COMPLETED_RECEIVE_OF_WRITE;
}

/* A completion has no mark of an immediate: a write's is always there, a send's where it isn't 0.
 */
static void put_wc(struct lk_context *context, const struct lesungkap_completion *done,
                   struct ibv_wc *wc)
{
    const int write = done->opcode == LESUNGKAP_COMPLETED_RECEIVE_OF_WRITE;
    struct lk_qp *qp = context->qps[qp_number(done->qpn)];
    memset(wc, 0, sizeof *wc);
    wc->wr_id = done->wr_id;
    wc->status = status_of(done->status);
    if (qp != NULL && done->status == LESUNGKAP_FLUSHED && !is_receive(done)) {
        wc->status = limits_status(context, qp);
    }
    wc->opcode = opcode_of(done->opcode);
    wc->byte_len = done->byte_length;
    wc->qp_num = context->names[qp_number(done->qpn)];
    wc->imm_data = done->immediate;
    wc->wc_flags =
        done->status == LESUNGKAP_SUCCESS && (write || done->immediate != 0) ? IBV_WC_WITH_IMM : 0;
}

/* What a completion says of its queue pair: a failure leaves it in error, a receive makes room for
 * the next, and after a send the time of the next begins. */
static void note(struct lk_context *context, const struct lesungkap_completion *done)
{
    struct lk_qp *qp = context->qps[qp_number(done->qpn)];
    if (qp == NULL) {
        return;
    }
    if (done->status != LESUNGKAP_SUCCESS) {
        qp->broken = 1;
    }
    if (is_receive(done)) {
        qp->in_card -= qp->in_card > 0;
    } else {
        qp->limits.seen = 0;
    }
}

/* Has the card flush the next receive of a queue pair in error: its own first, then those that wait
 * here. */
static uint32_t flush_next(struct lk_context *context, struct lk_qp *qp)
{
    uint32_t result =
        qp->drained ? (uint32_t)LESUNGKAP_NOTHING : ask_flush(&context->link, qp->base.qp_num);
    if (result == LESUNGKAP_NOTHING) {
        qp->drained = 1;
        qp->in_card = 0;
        result = qp->waiting > 0 ? give_first(context, qp) : result;
    } else if (result == LESUNGKAP_WRONG_STATE) { /* the failure was of before a reset */
        qp->broken = 0;
        top_up(context, qp);
    }
    return result;
}

static uint32_t poll_flushed(struct lk_context *context, const struct lk_cq *cq,
                             struct lesungkap_completion *done)
{
    unsigned left;
    for (unsigned n = 0; n < NUMBERS; n++) {
        struct lk_qp *qp = context->qps[n];
        if (qp != NULL && qp->broken && qp->base.recv_cq == &cq->base &&
            lesungkap_answer(flush_next(context, qp)) == LESUNGKAP_DONE) {
            return ask_poll(&context->link, cq->cqn, done, &left);
        }
    }
    return LESUNGKAP_NOTHING;
}

/* Takes completions that the monitor shows, several in one request; how many, and the result of the
 * last. */
static int poll_shown(struct lk_context *context, const struct lk_cq *cq, int count,
                      struct ibv_wc *wcs, unsigned *left, uint32_t *result)
{
    struct lesungkap_completion done[PACKET_BATCH_MOST];
    const unsigned shown = link_unread(&context->link, cq->cqn);
    const unsigned wanted = shown < (unsigned)count ? shown : (unsigned)count;
    const unsigned most = wanted < PACKET_BATCH_MOST ? wanted : PACKET_BATCH_MOST;
    if (most < 2) {
        return 0;
    }
    const unsigned got = ask_polls(&context->link, cq->cqn, done, most, left, result);
    for (unsigned n = 0; n < got; n++) {
        put_wc(context, done + n, wcs + n);
        note(context, done + n);
    }
    return (int)got;
}

/* The next completion, one that is there or is flushed now. */
static uint32_t poll_next(struct lk_context *context, const struct lk_cq *cq,
                          struct lesungkap_completion *done, unsigned *left)
{
    const uint32_t result = ask_poll(&context->link, cq->cqn, done, left);
    if (lesungkap_answer(result) != LESUNGKAP_NOTHING) {
        return result;
    }
    *left = 0;
    return poll_flushed(context, cq, done);
}

/* Whether a receive that waits here may do so until the next request: the card has another one of
 * its queue pair, which no message has taken. */
static int may_wait(const struct lk_context *context, const struct lk_qp *qp)
{
    const struct lk_cq *cq = (const struct lk_cq *)qp->base.recv_cq;
    return context->link.counters != NULL &&
           qp->in_card >= 2 + link_unread(&context->link, cq->cqn);
}

/* Receives that have completed make room for others: at once where the card needs them, or all. */
static void refill(struct lk_context *context, int all)
{
    context->deferred = 0;
    for (unsigned n = 0; n < NUMBERS; n++) {
        struct lk_qp *qp = context->qps[n];
        if (qp != NULL && qp->waiting > 0 && !all && may_wait(context, qp)) {
            context->deferred = 1;
        } else if (qp != NULL) {
            top_up(context, qp);
        }
    }
}

void work_refill(struct lk_context *context)
{
    if (context->deferred) {
        refill(context, 1);
    }
}

/* Hands out completions that were taken before. */
static int take_early(struct lk_context *context, struct lk_cq *cq, int count, struct ibv_wc *wcs)
{
    int got = 0;
    while (got < count && cq->early_count > 0) {
        const struct lesungkap_completion *done = cq->early + cq->early_first;
        put_wc(context, done, wcs + got++);
        note(context, done);
        cq->early_first = (cq->early_first + 1) % EARLY_MOST;
        cq->early_count--;
    }
    return got;
}

int work_poll(struct ibv_cq *base, int count, struct ibv_wc *wcs)
{
    struct lk_context *context = context_of(base->context);
    struct lk_cq *cq = (struct lk_cq *)base;
    struct lesungkap_completion done;
    uint32_t result = LESUNGKAP_DONE;
    pthread_mutex_lock(&context->lock);
    int got = take_early(context, cq, count, wcs);
    unsigned left = got == 0 || link_unread(&context->link, cq->cqn) > 0;
    got += poll_shown(context, cq, count - got, wcs + got, &left, &result);
    while (got < count && result == LESUNGKAP_DONE && (left > 0 || flushes_into(context, cq))) {
        result = poll_next(context, cq, &done, &left);
        if (result == LESUNGKAP_DONE) {
            put_wc(context, &done, wcs + got++);
            note(context, &done);
        }
    }
    if (got > 0) {
        refill(context, 0);
    } else {
        work_refill(context);
    }
    pthread_mutex_unlock(&context->lock);
    return lesungkap_answer(result) == LINK_LOST ? -1 : got;
}
