/* How long a send may be held: timeout and retry_cnt say it of a peer that is not ready, rnr_retry
 * and min_rnr_timer of one without a receive. A thread of the context, which is started with the
 * first held send that has a limit, asks the monitor what the oldest one waits for. Where that
 * stays the same for the whole time, it moves the queue pair to the error state: the card flushes
 * what is held, and the first of it is given the status of this case. */
#define _GNU_SOURCE
#include "verbs.h"

#include <signal.h>
#include <time.h>

static const uint64_t NO_LIMIT = UINT64_MAX;

enum {
    ACK_UNIT = 4096,        /* nanoseconds; timeout is their power of two */
    RNR_UNIT = 10000,       /* nanoseconds */
    RNR_FOR_EVER = 7,       /* of rnr_retry */
    LEAST_CHECK = 20000000, /* nanoseconds between two questions that nothing hangs on */
    STACK_BYTES = 1 << 18,
    SECOND = 1000000000
};

/* The time of min_rnr_timer, in units of RNR_UNIT. */
static const uint32_t rnr_times[32] = {65536, 1,    2,    3,     4,     6,     8,     12,
                                       16,    24,   32,   48,    64,    96,    128,   192,
                                       256,   384,  512,  768,   1024,  1536,  2048,  3072,
                                       4096,  6144, 8192, 12288, 16384, 24576, 32768, 49152};

static uint64_t now(void)
{
    struct timespec time;
    clock_gettime(CLOCK_MONOTONIC, &time);
    return (uint64_t)time.tv_sec * SECOND + (uint64_t)time.tv_nsec;
}

/* ---- times */

/* As long as all tries of a request take, or NO_LIMIT. The peer's own min_rnr_timer isn't known
 * here. */
static uint64_t time_for(const struct lk_qp *qp, uint32_t what)
{
    const struct ibv_qp_attr *attr = &qp->attr;
    if (what == PACKET_WAITS_FOR_PEER && attr->timeout != 0) {
        return ((uint64_t)ACK_UNIT << (attr->timeout & 31)) * ((attr->retry_cnt & 7u) + 1);
    }
    if (what == PACKET_WAITS_FOR_RECEIVE && (attr->rnr_retry & 7) != RNR_FOR_EVER) {
        return (uint64_t)rnr_times[attr->min_rnr_timer & 31] * RNR_UNIT * (attr->rnr_retry & 7u);
    }
    return NO_LIMIT;
}

static uint64_t shortest_time(const struct lk_qp *qp)
{
    const uint64_t peer = time_for(qp, PACKET_WAITS_FOR_PEER);
    const uint64_t receive = time_for(qp, PACKET_WAITS_FOR_RECEIVE);
    return peer < receive ? peer : receive;
}

/* ---- checks */

static void time_is_over(struct lk_context *context, struct lk_qp *qp)
{
    struct lesungkap_modify_qp wanted;
    memset(&wanted, 0, sizeof wanted);
    wanted.qpn = qp->base.qp_num;
    wanted.mask = LESUNGKAP_MASK_STATE;
    wanted.state = LESUNGKAP_QP_ERROR;
    qp->ended =
        qp->limits.what == PACKET_WAITS_FOR_PEER ? IBV_WC_RETRY_EXC_ERR : IBV_WC_RNR_RETRY_EXC_ERR;
    qp->limits.check = 0;
    if (ask_modify_qp(&context->link, &wanted) == LESUNGKAP_DONE) {
        qp->broken = 1;
        if (flushes_into(context, (struct lk_cq *)qp->base.recv_cq)) {
            events_raise((struct lk_cq *)qp->base.recv_cq);
        }
    }
}

/* Asks what a queue pair's oldest send waits for, and when that is to be asked again. */
static void check(struct lk_context *context, struct lk_qp *qp, uint64_t time)
{
    struct limits *limits = &qp->limits;
    uint32_t oldest = 0, what = PACKET_WAITS_FOR_NOTHING;
    if (ask_waits(&context->link, qp->base.qp_num, &oldest, &what) != LESUNGKAP_DONE ||
        what == PACKET_WAITS_FOR_NOTHING || what == PACKET_WAITS_FOR_GONE) {
        limits->check = 0;
        limits->seen = 0;
        return;
    }
    const uint64_t most = time_for(qp, what);
    if (!limits->seen || limits->oldest != oldest || limits->what != what) {
        *limits = (struct limits){.seen = 1, .since = time, .oldest = oldest, .what = what};
    } else if (most != NO_LIMIT && time - limits->since >= most) {
        time_is_over(context, qp);
        return;
    }
    const uint64_t shortest = shortest_time(qp);
    limits->check = most != NO_LIMIT ? limits->since + most
                                     : time + (shortest > LEAST_CHECK ? shortest : LEAST_CHECK);
}

/* Checks what is due, and says when the next is; 0: never. */
static uint64_t check_all(struct lk_context *context)
{
    uint64_t next = 0;
    for (unsigned n = 0; n < NUMBERS; n++) {
        struct lk_qp *qp = context->qps[n];
        if (qp != NULL && qp->limits.check != 0 && qp->limits.check <= now()) {
            check(context, qp, now());
        }
        if (qp != NULL && qp->limits.check != 0 && (next == 0 || qp->limits.check < next)) {
            next = qp->limits.check;
        }
    }
    return next;
}

/* ---- the thread */

static void *keep_time(void *given)
{
    struct lk_context *context = given;
    pthread_mutex_lock(&context->lock);
    while (!context->closing) {
        const uint64_t next = check_all(context);
        const struct timespec until = {(time_t)(next / SECOND), (long)(next % SECOND)};
        if (next == 0) {
            pthread_cond_wait(&context->clock, &context->lock);
        } else if (next > now()) {
            pthread_cond_timedwait(&context->clock, &context->lock, &until);
        }
    }
    pthread_mutex_unlock(&context->lock);
    return NULL;
}

/* Without signals, which are the program's. */
static int start_thread(struct lk_context *context)
{
    pthread_attr_t attributes;
    sigset_t all, before;
    sigfillset(&all);
    pthread_attr_init(&attributes);
    pthread_attr_setstacksize(&attributes, STACK_BYTES);
    pthread_sigmask(SIG_SETMASK, &all, &before);
    const int why = pthread_create(&context->thread, &attributes, keep_time, context);
    pthread_sigmask(SIG_SETMASK, &before, NULL);
    pthread_attr_destroy(&attributes);
    return why;
}

void limits_begin(struct lk_context *context, struct lk_qp *qp)
{
    const uint64_t shortest = shortest_time(qp);
    if (qp->limits.check != 0 || shortest == NO_LIMIT) {
        return;
    }
    qp->limits = (struct limits){.check = now() + shortest / 4};
    if (context->has_thread) {
        pthread_cond_signal(&context->clock);
    } else if (start_thread(context) == 0) {
        context->has_thread = 1;
    } else {
        qp->limits.check = 0; /* the next held send tries again */
    }
}

enum ibv_wc_status limits_status(struct lk_context *context, struct lk_qp *qp)
{
    enum ibv_wc_status status = qp->ended != 0 ? qp->ended : IBV_WC_WR_FLUSH_ERR;
    uint32_t oldest, what;
    if (!qp->broken &&
        ask_waits(&context->link, qp->base.qp_num, &oldest, &what) == LESUNGKAP_DONE &&
        what == PACKET_WAITS_FOR_GONE) {
        status = IBV_WC_RETRY_EXC_ERR;
    }
    qp->ended = 0;
    return status;
}

void limits_init(struct lk_context *context)
{
    pthread_condattr_t attributes;
    pthread_condattr_init(&attributes);
    pthread_condattr_setclock(&attributes, CLOCK_MONOTONIC);
    pthread_cond_init(&context->clock, &attributes);
    pthread_condattr_destroy(&attributes);
    context->has_thread = 0;
}

void limits_stop(struct lk_context *context)
{
    pthread_mutex_lock(&context->lock);
    context->closing = 1;
    pthread_cond_signal(&context->clock);
    pthread_mutex_unlock(&context->lock);
    if (context->has_thread) {
        pthread_join(context->thread, NULL);
    }
}
