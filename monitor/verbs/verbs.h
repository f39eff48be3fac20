/* What the preload library keeps behind the objects of libibverbs. */
#ifndef LESUNGKAP_VERBS_H
#define LESUNGKAP_VERBS_H

#include "link.h"

#include <infiniband/verbs.h>

/* The headers' wrappers; the functions themselves are defined here. */
#undef ibv_get_device_list
#undef ibv_query_port
#undef ibv_reg_mr
#undef ibv_reg_mr_iova

#define PAGES_NAME "lesungkap" /* of the client's memory, in /proc/self/maps too */

#define EXPORTED __attribute__((visibility("default")))

static const uint64_t DEVICE_GUID = 0x024c53fffe4b0001u;

enum {
    MOST_CQE = 4096,
    MOST_WR = PACKET_HELD_MOST,
    PORT = 1,
    EARLY_MOST = 16,                 /* completions that were taken before the program asked */
    NUMBERS = 1 << PACKET_NAME_SHIFT /* of queue pairs and completion queues, in one byte */
};

struct page {
    uintptr_t address; /* of the program's page that lies here */
    unsigned uses;     /* by regions; 0: free */
};

/* The program's pages in the client's memory file. */
struct pages {
    int file;
    int copy;     /* of one page, on its way */
    uint8_t *all; /* the file, mapped in a row */
    size_t count;
    struct page *at;
};

struct lk_cq {
    union {
        struct ibv_cq base;
        struct ibv_cq_ex ex; /* its first part is the same */
    };
    pthread_mutex_t polling; /* of an extended queue, from start_poll to end_poll */
    struct ibv_wc polled;    /* then the completion whose fields are read */
    uint32_t cqn;
    int armed;
    struct lesungkap_completion early[EARLY_MOST]; /* taken with a send, the oldest first */
    unsigned early_first;
    unsigned early_count;
};

/* The time of sends that the monitor holds (limits.c). */
struct limits {
    uint64_t check; /* when the monitor is asked, by the clock; 0: it need not be */
    int seen;       /* it was, and no send has completed since: */
    uint64_t since; /* then the oldest */
    uint32_t oldest;
    uint32_t what; /* waited for this */
};

/* Receives that the card has no room for wait here, the oldest first. */
struct lk_qp {
    union {
        struct ibv_qp base;
        struct ibv_qp_ex ex; /* its first part is the same */
    };
    struct batch *batch; /* of an extended queue pair; or NULL */
    struct ibv_qp_attr attr;
    struct ibv_qp_init_attr init;
    struct limits limits;
    enum ibv_wc_status ended; /* what the next flushed send ends with, its time being over; or 0 */
    int broken;               /* in error: receives are flushed */
    int drained;              /* and none is left in the card */
    unsigned first;
    unsigned waiting;
    unsigned in_card;
    struct lesungkap_receive *receives; /* init.cap.max_recv_wr of them */
};

struct lk_mr {
    struct ibv_mr base;
    uint32_t mrn;
    size_t first_page;
    size_t pages;
};

struct lk_channel {
    struct ibv_comp_channel base;
    int other; /* the end that the monitor writes to */
};

struct lk_context {
    struct verbs_context extended; /* its last part is the ibv_context that the program has */
    struct lk_context *next;       /* of this process's */
    struct link link;
    struct pages pages;
    int joined;
    int deferred; /* a receive waits here that the card has room for */
    pthread_mutex_t lock;
    pthread_cond_t clock; /* wakes the thread of limits.c */
    pthread_t thread;
    int has_thread;
    int closing;
    struct lk_cq *cqs[NUMBERS];
    struct lk_qp *qps[NUMBERS];
    uint32_t names[NUMBERS]; /* the last name of each number */
};

static inline struct lk_context *context_of(struct ibv_context *context)
{
    const size_t at = offsetof(struct lk_context, extended.context);
    return (struct lk_context *)(void *)((uint8_t *)context - at);
}

/* An error is 0 or an errno in this library. libibverbs' calls tell it in three ways: as it is, or
 * by NULL or -1 with errno. */
void *no_object(int why);
int minus_one(int why);
/* One line on standard error. */
void complain(const char *what, const char *why);

/* ---- device.c */

/* Brings the client's memory to the monitor, once; 0 or an errno. */
int join_monitor(struct lk_context *context);

/* ---- aside.c */

/* Runs a function on a stack of its own, while the caller's stack stands still; 0 or an errno. */
int run_aside(int (*what)(void *), void *given, int *result);

/* ---- fork.c */

/* Taken before any context's lock by who opens, closes, registers, deregisters or forks. */
void contexts_lock_all(void);
void contexts_unlock_all(void);
void contexts_add(struct lk_context *context);
void contexts_remove(struct lk_context *context);
/* Whether a page of these bytes is shared by a context, but for this one or NULL. */
int contexts_share(const struct lk_context *except, uintptr_t address, size_t length);

/* ---- maps.c */

/* Whether these bytes are the program's alone, and can be written if they will be; 0 or an errno.
 * Called aside, as it needs more of a stack than others. */
int maps_check(uintptr_t address, size_t length, int writes);

/* ---- pages.c */

int pages_open(struct pages *pages, uint32_t bytes);
/* Gives all pages back to the program. */
void pages_close(struct pages *pages);
/* Forgets the parent's pages, in a child. */
void pages_lose(struct pages *pages);
/* Whether a page of these bytes is shared. */
int pages_hold(const struct pages *pages, uintptr_t address, size_t length);
size_t pages_used(const struct pages *pages);
/* Copies the pages that are shared, and where each lies; how many they are. */
size_t pages_copy(const struct pages *pages, uint8_t *copies, uintptr_t *addresses);
/* Puts the program's pages that hold these bytes into the file, in place and in a row; `writes` if
 * the card will write to them. 0 or an errno. */
int pages_share(struct pages *pages, uintptr_t address, size_t length, int writes, size_t *first,
                size_t *count);
void pages_release(struct pages *pages, size_t first, size_t count);

/* ---- queries.c */

int query_device_ex(struct ibv_context *base, const struct ibv_query_device_ex_input *input,
                    struct ibv_device_attr_ex *attr, size_t size);

/* ---- work.c */

/* Gives the card the receives that it has room for. */
void work_refill(struct lk_context *context);
int work_post_send(struct ibv_qp *qp, struct ibv_send_wr *wr, struct ibv_send_wr **bad);
int work_post_receive(struct ibv_qp *qp, struct ibv_recv_wr *wr, struct ibv_recv_wr **bad);
int work_poll(struct ibv_cq *cq, int count, struct ibv_wc *wcs);

/* ---- extended.c */

struct ibv_qp *extended_create_qp(struct ibv_context *base, struct ibv_qp_init_attr_ex *attr);
void extended_free(struct lk_qp *qp);

/* ---- extended_cq.c */

struct ibv_cq_ex *extended_create_cq(struct ibv_context *base, struct ibv_cq_init_attr_ex *attr);

/* ---- limits.c: called with the context's lock, but for the first and the last */

/* Of a new context, and of a child's: without a thread. */
void limits_init(struct lk_context *context);
/* A send of the queue pair is held. */
void limits_begin(struct lk_context *context, struct lk_qp *qp);
/* The status of a send that was flushed: the first's, if its time was over or its peer has gone. */
enum ibv_wc_status limits_status(struct lk_context *context, struct lk_qp *qp);
/* Ends the context's thread. */
void limits_stop(struct lk_context *context);

/* ---- events.c */

int events_arm(struct ibv_cq *cq, int solicited_only);
/* An event of the library's own, where the queue waits for one. */
void events_raise(struct lk_cq *cq);
/* Whether a queue pair in error has receives to flush into the queue. */
int flushes_into(struct lk_context *context, const struct lk_cq *cq);

/* ---- lacks.c */

void lacks_ops(struct ibv_context_ops *ops);

#endif
