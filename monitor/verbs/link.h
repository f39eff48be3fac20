/* A client's end of the monitor's socket, and the requests that a client can make, encoded with the
 * card's own puts and gets. */
#ifndef LESUNGKAP_LINK_H
#define LESUNGKAP_LINK_H

#include "packet.h"

#include <pthread.h>

enum { LINK_LOST = 255 }; /* an answer that no monitor gives: it has gone */

struct link {
    int fd;
    pthread_mutex_t lock;
    const _Atomic uint32_t *counters; /* of unread completions, which the monitor writes; or NULL */
    unsigned looks;                   /* at an empty queue's, since the monitor was asked */
};

/* Connects to a monitor; 0 or an errno. */
int link_open(struct link *link, const char *path);
/* Whether who listens at the other end is this user, by name or number. */
int link_is_of(const struct link *link, const char *user);
void link_close(struct link *link);
/* Leaves the connection to the parent, in a child: no request is answered any more. */
void link_lose(struct link *link);
/* The errno of a result; EIO where the monitor has gone. */
int link_errno(uint32_t result);

/* The card's access flags: the bits are those of IBV_ACCESS_*, and atomics it has none. */
static inline uint32_t rights_of(unsigned access)
{
    return access & (LESUNGKAP_LOCAL_WRITE | LESUNGKAP_REMOTE_WRITE | LESUNGKAP_REMOTE_READ);
}

static inline void put_rights(struct lesungkap_modify_qp *wanted, unsigned access)
{
    wanted->mask |= LESUNGKAP_MASK_ACCESS_FLAGS;
    wanted->access_flags = rights_of(access);
}

/* Each makes one request and returns its result. Numbers of queue pairs are names in commands, and
 * the name's lowest byte in work. */
uint32_t ask_window(struct link *link, uint32_t *bytes);
uint32_t ask_join(struct link *link, int memory);
/* Has the monitor show unread completions: from then on ask_poll asks for no completion where none
 * is. */
uint32_t ask_counters(struct link *link);
uint32_t ask_channel(struct link *link, uint32_t cqn, int socket);
uint32_t ask_arm(struct link *link, uint32_t cqn);
/* Where the oldest held send lies, and what it waits for, of PACKET_WAITS_FOR_*. */
uint32_t ask_waits(struct link *link, uint32_t name, uint32_t *oldest, uint32_t *what);

uint32_t ask_query_device(struct link *link, struct lesungkap_query_device_ack *device);
uint32_t ask_query_port(struct link *link, struct lesungkap_query_port_ack *port);
uint32_t ask_create_pd(struct link *link, uint32_t *pdn);
uint32_t ask_create_cq(struct link *link, uint32_t places, uint32_t *cqn);
uint32_t ask_register_mr(struct link *link, const struct lesungkap_register_mr *wanted,
                         struct lesungkap_register_mr_ack *made);
uint32_t ask_create_qp(struct link *link, const struct lesungkap_create_qp *wanted, uint32_t *name);
uint32_t ask_modify_qp(struct link *link, const struct lesungkap_modify_qp *wanted);
uint32_t ask_destroy_pd(struct link *link, uint32_t pdn);
uint32_t ask_destroy_cq(struct link *link, uint32_t cqn);
uint32_t ask_deregister_mr(struct link *link, uint32_t mrn);
uint32_t ask_destroy_qp(struct link *link, uint32_t name);

uint32_t ask_send(struct link *link, uint32_t name, const struct lesungkap_send *send);
uint32_t ask_receive(struct link *link, uint32_t name, const struct lesungkap_receive *receive);
uint32_t ask_flush(struct link *link, uint32_t name);
/* *left: how many completions the queue still has. */
uint32_t ask_poll(struct link *link, uint32_t cqn, struct lesungkap_completion *completion,
                  unsigned *left);

/* Receives, or polls of one queue, in one request. Each returns how many were done; *result is that
 * of the first that was not, or LESUNGKAP_DONE. */
unsigned ask_receives(struct link *link, uint32_t name,
                      const struct lesungkap_receive *const *receives, unsigned count,
                      uint32_t *result);
unsigned ask_polls(struct link *link, uint32_t cqn, struct lesungkap_completion *completions,
                   unsigned count, unsigned *left, uint32_t *result);
/* A send with receives of its queue pair before it and a poll behind it, in one request; the send's
 * result. */
struct together {
    const struct lesungkap_receive *receives[LESUNGKAP_QP_MOST_RECEIVES];
    unsigned count; /* of them */
    unsigned given; /* of them, that the card has taken */
    int polls;      /* a completion of queue `cqn` is wanted */
    uint32_t cqn;
    int polled; /* and here it is */
    struct lesungkap_completion completion;
};
uint32_t ask_together(struct link *link, uint32_t name, const struct lesungkap_send *send,
                      struct together *with);
/* How many completions of a queue the monitor shows; 0 also where it shows none at all. */
unsigned link_unread(const struct link *link, uint32_t cqn);

/* Sends a request by its bytes, with a file or -1; whether it was taken. */
int link_send(const struct link *link, const uint8_t *request, size_t length, int file);
/* The same, and its answer's bytes in PACKET_MOST_BYTES; the answer's length, or 0 where the
 * monitor has gone. */
size_t link_exchange(struct link *link, const uint8_t *request, size_t length, int file,
                     uint8_t *answer);

/* ---- for link_more.c */

struct asked {
    uint32_t result;
    struct packet packet;
    uint8_t bytes[PACKET_MOST_BYTES];
};

/* One request, one answer: its result. */
uint32_t link_ask(struct link *link, unsigned kind, uint32_t number, const uint8_t *body,
                  size_t length, int file, struct asked *asked);
void link_drop_counters(struct link *link);

#endif
