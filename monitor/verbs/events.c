/* Completion channels: the monitor writes the number of a queue that was armed and has got a
 * completion. */
#define _GNU_SOURCE
#include "verbs.h"

#include <errno.h>
#include <fcntl.h>
#include <poll.h>
#include <signal.h>
#include <stdlib.h>
#include <sys/socket.h>
#include <unistd.h>

EXPORTED struct ibv_comp_channel *ibv_create_comp_channel(struct ibv_context *base)
{
    int ends[2];
    struct lk_channel *channel = calloc(1, sizeof *channel);
    if (channel == NULL) {
        return no_object(ENOMEM);
    }
    if (socketpair(AF_UNIX, SOCK_SEQPACKET | SOCK_CLOEXEC, 0, ends) != 0) {
        const int why = errno;
        free(channel);
        return no_object(why);
    }
    channel->base.context = base;
    channel->base.fd = ends[0];
    channel->other = ends[1];
    return &channel->base;
}

EXPORTED int ibv_destroy_comp_channel(struct ibv_comp_channel *base)
{
    struct lk_channel *channel = (struct lk_channel *)base;
    struct lk_context *context = context_of(base->context);
    for (unsigned n = 0; n < NUMBERS; n++) {
        if (context->cqs[n] != NULL && context->cqs[n]->base.channel == base) {
            return EBUSY;
        }
    }
    close(base->fd);
    close(channel->other);
    free(channel);
    return 0;
}

int flushes_into(struct lk_context *context, const struct lk_cq *cq)
{
    for (unsigned n = 0; n < NUMBERS; n++) {
        const struct lk_qp *qp = context->qps[n];
        if (qp != NULL && qp->broken && qp->base.recv_cq == &cq->base &&
            qp->in_card + qp->waiting > 0) {
            return 1;
        }
    }
    return 0;
}

void events_raise(struct lk_cq *cq)
{
    const uint8_t number = (uint8_t)cq->cqn;
    if (cq->armed && cq->base.channel != NULL) {
        cq->armed = 0;
        (void)!send(((struct lk_channel *)cq->base.channel)->other, &number, sizeof number,
                    MSG_DONTWAIT | MSG_NOSIGNAL);
    }
}

/* The card does not mark solicited messages: any completion gives the event. */
int events_arm(struct ibv_cq *base, int solicited_only)
{
    struct lk_cq *cq = (struct lk_cq *)base;
    struct lk_context *context = context_of(base->context);
    (void)solicited_only;
    pthread_mutex_lock(&context->lock);
    work_refill(context);
    const uint32_t result = ask_arm(&context->link, cq->cqn);
    cq->armed = result == LESUNGKAP_DONE;
    if (cq->armed && flushes_into(context, cq)) {
        events_raise(cq);
    }
    pthread_mutex_unlock(&context->lock);
    return link_errno(result);
}

/* Whether a wait that a signal has interrupted goes on, as a read would: no handler of the
 * program's wants it to end. Handlers of faults interrupt nothing. */
static int goes_on(void)
{
    static const int faults[] = {SIGSEGV, SIGBUS, SIGFPE, SIGILL, SIGTRAP, SIGABRT};
    struct sigaction action;
    for (int number = 1; number < NSIG; number++) {
        int fault = 0;
        for (size_t n = 0; n < sizeof faults / sizeof *faults; n++) {
            fault |= number == faults[n];
        }
        if (!fault && sigaction(number, NULL, &action) == 0 && action.sa_handler != SIG_DFL &&
            action.sa_handler != SIG_IGN && !(action.sa_flags & SA_RESTART)) {
            return 0;
        }
    }
    return 1;
}

/* The next event's queue number; 0 or an errno: the channel gives none, the monitor has gone, or a
 * signal has come. */
static int next_event(struct ibv_comp_channel *channel, uint8_t *number)
{
    const int monitor = context_of(channel->context)->link.fd;
    struct pollfd wait[2] = {{.fd = channel->fd, .events = POLLIN},
                             {.fd = monitor, .events = POLLRDHUP}};
    while (1) {
        const ssize_t got = recv(channel->fd, number, sizeof *number, MSG_DONTWAIT);
        if (got == (ssize_t)sizeof *number) {
            return 0;
        }
        if (got >= 0 || errno != EAGAIN) {
            return got >= 0 ? EIO : errno;
        }
        if (fcntl(channel->fd, F_GETFL) & O_NONBLOCK) {
            return EAGAIN;
        }
        if (wait[1].revents != 0 || monitor < 0) {
            return EIO;
        }
        const int why = poll(wait, 2, -1) < 0 ? errno : 0;
        if (why != 0 && (why != EINTR || !goes_on())) {
            return why;
        }
    }
}

EXPORTED int ibv_get_cq_event(struct ibv_comp_channel *channel, struct ibv_cq **cq,
                              void **cq_context)
{
    const struct lk_context *context = context_of(channel->context);
    uint8_t number = 0;
    do {
        const int why = next_event(channel, &number);
        if (why != 0) {
            return minus_one(why);
        }
    } while (context->cqs[number] == NULL || context->cqs[number]->base.channel != channel);
    *cq = &context->cqs[number]->base;
    *cq_context = (*cq)->cq_context;
    return 0;
}

EXPORTED void ibv_ack_cq_events(struct ibv_cq *cq, unsigned count)
{
    pthread_mutex_lock(&cq->mutex);
    cq->comp_events_completed += count;
    pthread_mutex_unlock(&cq->mutex);
}
