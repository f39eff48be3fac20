/* What the cases of the verbs program share: a side is one process's or one peer's device with a queue pair and a registered page. */
#ifndef TESTS_MONITOR_VERBS_H
#define TESTS_MONITOR_VERBS_H

#include <errno.h>
#include <infiniband/verbs.h>
#include <stdint.h>

#define EXPECT(holds) expect(holds, #holds, __FILE__, __LINE__)

enum {
    ALL = IBV_ACCESS_LOCAL_WRITE | IBV_ACCESS_REMOTE_WRITE | IBV_ACCESS_REMOTE_READ,
    SIZE = 4096,
    RECEIVES = 20
};

struct side {
    struct ibv_context *context;
    struct ibv_pd *pd;
    struct ibv_comp_channel *channel; /* NULL: none */
    struct ibv_cq *cq;
    struct ibv_qp *qp;
    struct ibv_mr *mr;
    uint8_t *buffer;
};

/* What two sides tell each other. */
struct told {
    uint32_t qpn, key;
    uint64_t address;
};

/* Ends the program where something isn't so. */
void expect(int holds, const char *what, const char *file, int line);

void open_side(struct side *side);
void open_side_with_events(struct side *side);
void close_side(struct side *side);
/* Moves a queue pair to RTS, joined with the peer's, without limits. */
void ready(struct side *side, uint32_t peer, unsigned access);
/* The same with timeout, retry_cnt, rnr_retry and min_rnr_timer. */
void ready_within(struct side *side, uint32_t peer, unsigned access, const uint8_t limits[4]);
struct told told_by(const struct side *side);

/* The next completion. */
struct ibv_wc next_completion(struct side *side);
/* Posts one request of `length` bytes of the buffer, and the status that it ends with. */
void post(struct side *side, enum ibv_wr_opcode opcode, const struct told *peer, uint32_t length);
enum ibv_wc_status reach(struct side *side, enum ibv_wr_opcode opcode, const struct told *peer, uint32_t length);

/* ---- cases */

void stack_buffers(void);
void forks(void);
void two_contexts(void);
void other_memory(void);
void extended_queries(void);
void atomics_flag(void);
void peer_in_error(void);
void no_receive(void);
void peer_gone(void);
void no_limits(void);
void slow_peer(void);
void limits_by_events(void);
void interrupted_waits(void);
void extended_queue_pairs(void);
void extended_completion_queues(void);

#endif
