/* The one device and its contexts. LESUNGKAP_SOCKET names the monitor's socket. */
#define _GNU_SOURCE
#include "verbs.h"

#include <endian.h>
#include <errno.h>
#include <stdio.h>
#include <stdlib.h>
#include <sys/eventfd.h>
#include <unistd.h>

/* Behind a device libibverbs keeps what its drivers know; they look there whether it is theirs. */
static struct {
    struct ibv_device device;
    const void *driver[8];
} known = {.device = {.node_type = IBV_NODE_CA,
                      .transport_type = IBV_TRANSPORT_IB,
                      .name = "lesungkap0",
                      .dev_name = "lesungkap0"}};

/* ---- errors */

void *no_object(int why)
{
    errno = why;
    return NULL;
}

int minus_one(int why)
{
    errno = why;
    return -1;
}

void complain(const char *what, const char *why)
{
    fprintf(stderr, "liblesungkap-verbs: %s: %s\n", what, why);
}

/* ---- devices */

EXPORTED struct ibv_device **ibv_get_device_list(int *count)
{
    struct ibv_device **list = calloc(2, sizeof *list);
    const int named = getenv("LESUNGKAP_SOCKET") != NULL;
    if (list == NULL) {
        return no_object(ENOMEM);
    }
    if (named) {
        list[0] = &known.device;
    } else {
        complain("no device", "LESUNGKAP_SOCKET doesn't name a monitor's socket");
    }
    if (count != NULL) {
        *count = named;
    }
    return list;
}

EXPORTED void ibv_free_device_list(struct ibv_device **list)
{
    free(list);
}

EXPORTED const char *ibv_get_device_name(struct ibv_device *of)
{
    return of->name;
}

EXPORTED __be64 ibv_get_device_guid(struct ibv_device *of)
{
    (void)of;
    return htobe64(DEVICE_GUID);
}

EXPORTED int ibv_get_device_index(struct ibv_device *of)
{
    (void)of;
    return -1;
}

/* ---- contexts */

static void set_ops(struct ibv_context_ops *ops)
{
    lacks_ops(ops);
    ops->post_send = work_post_send;
    ops->post_recv = work_post_receive;
    ops->poll_cq = work_poll;
    ops->req_notify_cq = events_arm;
}

/* An extended context with three extended calls: libibverbs' headers see of the others that there
 * are none. */
static int set_base(struct verbs_context *extended, struct ibv_device *of, int fd)
{
    struct ibv_context *base = &extended->context;
    base->async_fd = eventfd(0, EFD_CLOEXEC);
    if (base->async_fd < 0) {
        return errno;
    }
    extended->sz = sizeof *extended;
    extended->query_device_ex = query_device_ex;
    extended->create_qp_ex = extended_create_qp;
    extended->create_cq_ex = extended_create_cq;
    base->abi_compat = __VERBS_ABI_IS_EXTENDED;
    set_ops(&base->ops);
    base->device = of;
    base->cmd_fd = fd;
    base->num_comp_vectors = 1;
    pthread_mutex_init(&base->mutex, NULL);
    return 0;
}

static int open_context(struct lk_context *context, struct ibv_device *of, const char *path)
{
    int why = link_open(&context->link, path);
    if (why != 0) {
        complain(path, strerror(why));
        return why;
    }
    const char *user = getenv("LESUNGKAP_USER");
    if (user != NULL && !link_is_of(&context->link, user)) {
        complain(path, "the monitor is not that of the user whom LESUNGKAP_USER names");
        link_close(&context->link);
        return EPERM;
    }
    why = set_base(&context->extended, of, context->link.fd);
    if (why != 0) {
        link_close(&context->link);
        return why;
    }
    context->pages.file = context->pages.copy = -1;
    pthread_mutex_init(&context->lock, NULL);
    limits_init(context);
    contexts_add(context);
    return 0;
}

EXPORTED struct ibv_context *ibv_open_device(struct ibv_device *of)
{
    const char *path = getenv("LESUNGKAP_SOCKET");
    struct lk_context *context = path != NULL ? calloc(1, sizeof *context) : NULL;
    if (context == NULL) {
        return no_object(path == NULL ? ENODEV : ENOMEM);
    }
    const int why = open_context(context, of, path);
    if (why != 0) {
        free(context);
        return no_object(why);
    }
    return &context->extended.context;
}

EXPORTED int ibv_close_device(struct ibv_context *base)
{
    struct lk_context *context = context_of(base);
    limits_stop(context);
    contexts_lock_all();
    contexts_remove(context);
    link_close(&context->link);
    pages_close(&context->pages);
    contexts_unlock_all();
    close(base->async_fd);
    pthread_cond_destroy(&context->clock);
    pthread_mutex_destroy(&context->lock);
    pthread_mutex_destroy(&base->mutex);
    free(context);
    return 0;
}

int join_monitor(struct lk_context *context)
{
    uint32_t bytes = 0;
    if (context->joined) {
        return 0;
    }
    uint32_t result = ask_window(&context->link, &bytes);
    int why = link_errno(result);
    if (why == 0) {
        why = pages_open(&context->pages, bytes);
    }
    if (why != 0) {
        return why;
    }
    result = ask_join(&context->link, context->pages.file);
    if (result != LESUNGKAP_DONE) {
        pages_close(&context->pages);
        complain("the monitor takes no more clients",
                 lesungkap_answer_text(lesungkap_answer(result)));
        return link_errno(result);
    }
    ask_counters(&context->link); /* where there are none, every poll is asked for */
    context->joined = 1;
    return 0;
}
