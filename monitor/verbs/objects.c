/* Protection domains, regions and completion queues. */
#include "verbs.h"

#include <errno.h>
#include <stdlib.h>

/* ---- protection domains */

EXPORTED struct ibv_pd *ibv_alloc_pd(struct ibv_context *base)
{
    struct lk_context *context = context_of(base);
    struct ibv_pd *pd = calloc(1, sizeof *pd);
    if (pd == NULL) {
        return no_object(ENOMEM);
    }
    pthread_mutex_lock(&context->lock);
    int why = join_monitor(context);
    if (why == 0) {
        why = link_errno(ask_create_pd(&context->link, &pd->handle));
    }
    pthread_mutex_unlock(&context->lock);
    if (why != 0) {
        free(pd);
        return no_object(why);
    }
    pd->context = base;
    return pd;
}

EXPORTED int ibv_dealloc_pd(struct ibv_pd *pd)
{
    const uint32_t result = ask_destroy_pd(&context_of(pd->context)->link, pd->handle);
    if (result != LESUNGKAP_DONE) {
        return link_errno(result);
    }
    free(pd);
    return 0;
}

/* ---- regions */

/* The card's access flags of a region: its bits are those of IBV_ACCESS_*. What is optional is left
 * out, and atomics, of which it has none, though they ask for LOCAL_WRITE too. */
static int region_access(unsigned access, uint32_t *wanted)
{
    *wanted = rights_of(access);
    if (access & ~(unsigned)(IBV_ACCESS_OPTIONAL_RANGE | IBV_ACCESS_REMOTE_ATOMIC) & ~*wanted) {
        return EOPNOTSUPP;
    }
    return (access & IBV_ACCESS_REMOTE_ATOMIC) && !(access & IBV_ACCESS_LOCAL_WRITE) ? EINVAL : 0;
}

static int share_and_register(struct lk_context *context, struct lk_mr *mr, uint64_t virt,
                              unsigned access)
{
    const uintptr_t address = (uintptr_t)mr->base.addr;
    struct lesungkap_register_mr_ack made = {0, 0, 0};
    if (context->link.fd < 0) {
        return EIO;
    }
    uint32_t flags;
    int why = region_access(access, &flags);
    if (why != 0) {
        return why;
    }
    why = pages_share(&context->pages, address, mr->base.length,
                      (flags & LESUNGKAP_LOCAL_WRITE) != 0, &mr->first_page, &mr->pages);
    if (why != 0) {
        return why;
    }
    const struct lesungkap_register_mr wanted = {
        mr->base.pd->handle, flags, mr->first_page * PACKET_PAGE + address % PACKET_PAGE,
        mr->base.length, virt};
    const uint32_t result = ask_register_mr(&context->link, &wanted, &made);
    if (result != LESUNGKAP_DONE) {
        pages_release(&context->pages, mr->first_page, mr->pages);
        return link_errno(result);
    }
    mr->mrn = mr->base.handle = made.mrn;
    mr->base.lkey = made.lkey;
    mr->base.rkey = made.rkey;
    return 0;
}

EXPORTED struct ibv_mr *ibv_reg_mr_iova2(struct ibv_pd *pd, void *address, size_t length,
                                         uint64_t virt, unsigned access)
{
    struct lk_context *context = context_of(pd->context);
    struct lk_mr *mr = calloc(1, sizeof *mr);
    if (mr == NULL) {
        return no_object(ENOMEM);
    }
    mr->base.context = pd->context;
    mr->base.pd = pd;
    mr->base.addr = address;
    mr->base.length = length;
    contexts_lock_all();
    int why = contexts_share(context, (uintptr_t)address, length) ? EBUSY : 0;
    if (why == 0) {
        pthread_mutex_lock(&context->lock);
        why = share_and_register(context, mr, virt, access);
        pthread_mutex_unlock(&context->lock);
    }
    contexts_unlock_all();
    if (why != 0) {
        free(mr);
        return no_object(why);
    }
    return &mr->base;
}

EXPORTED struct ibv_mr *ibv_reg_mr(struct ibv_pd *pd, void *address, size_t length, int access)
{
    return ibv_reg_mr_iova2(pd, address, length, (uintptr_t)address, (unsigned)access);
}

EXPORTED struct ibv_mr *ibv_reg_mr_iova(struct ibv_pd *pd, void *address, size_t length,
                                        uint64_t virt, int access)
{
    return ibv_reg_mr_iova2(pd, address, length, virt, (unsigned)access);
}

EXPORTED int ibv_dereg_mr(struct ibv_mr *base)
{
    struct lk_mr *mr = (struct lk_mr *)base;
    struct lk_context *context = context_of(base->context);
    contexts_lock_all();
    pthread_mutex_lock(&context->lock);
    const uint32_t result = ask_deregister_mr(&context->link, mr->mrn);
    if (result == LESUNGKAP_DONE) {
        pages_release(&context->pages, mr->first_page, mr->pages);
        free(mr);
    }
    pthread_mutex_unlock(&context->lock);
    contexts_unlock_all();
    return link_errno(result);
}

/* ---- completion queues */

static int create_cq(struct lk_context *context, struct lk_cq *cq)
{
    const struct lk_channel *channel = (const struct lk_channel *)cq->base.channel;
    const int places =
        cq->base.cqe < LESUNGKAP_CQ_MOST_PLACES ? cq->base.cqe : LESUNGKAP_CQ_MOST_PLACES;
    const int why = join_monitor(context);
    if (why != 0) {
        return why;
    }
    uint32_t result = ask_create_cq(&context->link, (uint32_t)places, &cq->cqn);
    if (result == LESUNGKAP_DONE && channel != NULL) {
        result = ask_channel(&context->link, cq->cqn, channel->other);
        if (result != LESUNGKAP_DONE) {
            ask_destroy_cq(&context->link, cq->cqn);
        }
    }
    return link_errno(result);
}

static void free_cq(struct lk_cq *cq)
{
    pthread_mutex_destroy(&cq->polling);
    pthread_cond_destroy(&cq->base.cond);
    pthread_mutex_destroy(&cq->base.mutex);
    free(cq);
}

EXPORTED struct ibv_cq *ibv_create_cq(struct ibv_context *base, int cqe, void *cq_context,
                                      struct ibv_comp_channel *channel, int vector)
{
    struct lk_context *context = context_of(base);
    if (cqe < 1 || cqe > MOST_CQE || vector < 0 || vector >= base->num_comp_vectors) {
        return no_object(EINVAL);
    }
    struct lk_cq *cq = calloc(1, sizeof *cq);
    if (cq == NULL) {
        return no_object(ENOMEM);
    }
    cq->base.context = base;
    cq->base.channel = channel;
    cq->base.cq_context = cq_context;
    cq->base.cqe = cqe;
    pthread_mutex_init(&cq->base.mutex, NULL);
    pthread_cond_init(&cq->base.cond, NULL);
    pthread_mutex_init(&cq->polling, NULL);
    pthread_mutex_lock(&context->lock);
    const int why = create_cq(context, cq);
    if (why == 0) {
        context->cqs[cq->cqn] = cq;
        cq->base.handle = cq->cqn;
    }
    pthread_mutex_unlock(&context->lock);
    if (why != 0) {
        free_cq(cq);
        return no_object(why);
    }
    return &cq->base;
}

EXPORTED int ibv_destroy_cq(struct ibv_cq *base)
{
    struct lk_cq *cq = (struct lk_cq *)base;
    struct lk_context *context = context_of(base->context);
    pthread_mutex_lock(&context->lock);
    const uint32_t result = ask_destroy_cq(&context->link, cq->cqn);
    if (result == LESUNGKAP_DONE) {
        context->cqs[cq->cqn] = NULL;
        free_cq(cq);
    }
    pthread_mutex_unlock(&context->lock);
    return link_errno(result);
}
