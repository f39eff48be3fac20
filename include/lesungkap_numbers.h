/* Lesungkap's numbers and their names: limits, answers, statuses, commands, access bits, queue pair states, opcodes, flags. Included by
 * lesungkap.h.
 */
#ifndef LESUNGKAP_NUMBERS_H
#define LESUNGKAP_NUMBERS_H

#include <errno.h>
#include <stddef.h>
#include <stdint.h>

/* The minor number grows by one with each landing that changes what a call answers or does, a record or the state's layout, its length
 * included; a state and a tape belong to one minor number. */
#define LESUNGKAP_VERSION_MAJOR 0
#define LESUNGKAP_VERSION_MINOR 9
#define LESUNGKAP_VERSION_PATCH 0
#define LESUNGKAP_VERSION "0.9.0"

#ifdef __cplusplus
extern "C" {
#endif

/* How many of each there are, and the largest of each. */
enum {
    LESUNGKAP_PD_COUNT = 8,
    LESUNGKAP_CQ_COUNT = 8,
    LESUNGKAP_CQ_MOST_PLACES = 16,
    LESUNGKAP_MR_COUNT = 256,
    LESUNGKAP_MR_MOST_PAGES = 16,   /* of a region over pages */
    LESUNGKAP_QP_COUNT = 8,
    LESUNGKAP_QP_MOST_RECEIVES = 4, /* waiting on one queue pair */
    LESUNGKAP_QP_MOST_SENDS = 8,    /* queued on one queue pair */
    LESUNGKAP_SEND_MOST_SGES = 4,
    LESUNGKAP_RECEIVE_MOST_SGES = 2,
    LESUNGKAP_MOST_INLINE = 512,
    LESUNGKAP_MOST_MESSAGE = 4096,
    LESUNGKAP_MOST_MEMORY = 16777216,
    LESUNGKAP_PAGE_BYTES = 4096
};

/* Answers. Held calls did nothing and may be made again later. */
enum {
    LESUNGKAP_DONE = 0,             /* a work request or a receive also has a status, and may have failed */
    LESUNGKAP_RECORD_LENGTH = 1,
    LESUNGKAP_NOT_LIVE = 2,         /* no object of this number */
    LESUNGKAP_WRONG_STATE = 3,      /* of the queue pair, or no such move */
    LESUNGKAP_BAD_FIELD = 4,
    LESUNGKAP_HELD_PEER = 5,        /* the peer is not ready, or no receive waits there */
    LESUNGKAP_HELD_PLACE = 6,       /* no place for a completion */
    LESUNGKAP_MEMORY_LENGTH = 7,    /* the lent memory's length isn't that of the reset */
    LESUNGKAP_FULL = 8,
    LESUNGKAP_NOTHING = 9,          /* no completion, no waiting receive; of a turn: no queued send that isn't held */
    LESUNGKAP_IN_USE = 10,          /* a live object names it; of a direct send: older sends are queued */
    LESUNGKAP_RANGE = 11,
    LESUNGKAP_BUFFER_TOO_SHORT = 12,
    LESUNGKAP_UNKNOWN = 13,         /* class or command */
    LESUNGKAP_BAD_TAPE_RECORD = 14, /* by no call: of the replay program, and of the monitor for a packet that is none */
    LESUNGKAP_BAD_STATE = 15
};

/* Statuses of work requests, receives and completions. lesungkap_status_verbs has their names in libibverbs, whose numbers are others. */
enum {
    LESUNGKAP_SUCCESS = 0,
    LESUNGKAP_LOCAL_LENGTH = 1,     /* over LESUNGKAP_MOST_MESSAGE; of a receive: the message is longer than its entries */
    LESUNGKAP_LOCAL_PROTECTION = 3, /* a byte of its own entries is not permitted */
    LESUNGKAP_FLUSHED = 4,          /* posted on a queue pair in error, or waiting when it came there */
    LESUNGKAP_REMOTE_INVALID = 7,   /* the peer's receive could not take it */
    LESUNGKAP_REMOTE_ACCESS = 8     /* a byte of the remote range is not permitted */
};

/* Control commands. */
enum {
    LESUNGKAP_QUERY_DEVICE = 0,
    LESUNGKAP_QUERY_PORT = 1,
    LESUNGKAP_CREATE_CQ = 2,
    LESUNGKAP_DESTROY_CQ = 3,
    LESUNGKAP_CREATE_PD = 4,
    LESUNGKAP_DESTROY_PD = 5,
    LESUNGKAP_REGISTER_MR = 7,
    LESUNGKAP_DEREGISTER_MR = 8,
    LESUNGKAP_CREATE_QP = 9,
    LESUNGKAP_MODIFY_QP = 10,
    LESUNGKAP_DESTROY_QP = 12
};

/* Access bits of a region, as IBV_ACCESS_*. Reading by its own side needs none. As in libibverbs, a region with LESUNGKAP_REMOTE_WRITE has
 * LESUNGKAP_LOCAL_WRITE too: 2 and 6 are no access.
 *
 * A queue pair's access flags are the same bits, in any combination: what its peer may do to the regions of its domain, where they grant it too.
 * LESUNGKAP_LOCAL_WRITE has no effect there. */
enum { LESUNGKAP_LOCAL_WRITE = 1, LESUNGKAP_REMOTE_WRITE = 2, LESUNGKAP_REMOTE_READ = 4 };

/* Queue pairs. A new one is in RESET. Modify QP moves it from RESET to INIT, from INIT to RTR (with the destination), from RTR to RTS, and
 * from any state to RESET or ERROR; a work request that fails moves it to ERROR. RESET drops waiting receives, queued sends, the destination
 * and the access flags, ERROR nothing. Any move may set the access flags, but RESET leaves them 0, as a new queue pair has them: then a remote write or
 * read of some bytes by its peer fails. Receives may be posted in INIT, RTR and RTS, work requests in RTS, to a peer in RTR or RTS. In ERROR
 * both are taken and flushed: they complete with LESUNGKAP_FLUSHED, a receive behind those that wait. Sends are queued in RTS and ERROR.
 *
 * Type and states are as IBV_QPT_* and IBV_QPS_*. Signal and the mask's bits are the card's own: signal 0 completes everything, where
 * libibverbs has sq_sig_all 1 for that; the access flags are bit 2 and the destination is bit 15, where IBV_QP_ACCESS_FLAGS is bit 3 and
 * IBV_QP_DEST_QPN bit 20. */
enum {
    LESUNGKAP_QP_TYPE_RC = 2,
    LESUNGKAP_SIGNAL_ALL = 0,     /* every success puts a completion */
    LESUNGKAP_SIGNAL_FLAGGED = 1, /* only one with LESUNGKAP_FLAG_SIGNALED; failures always do */
    LESUNGKAP_QP_RESET = 0,
    LESUNGKAP_QP_INIT = 1,
    LESUNGKAP_QP_RTR = 2,         /* ready to receive */
    LESUNGKAP_QP_RTS = 3,         /* ready to send */
    LESUNGKAP_QP_ERROR = 6,
    LESUNGKAP_MASK_STATE = 1,     /* always set */
    LESUNGKAP_MASK_ACCESS_FLAGS = 4,
    LESUNGKAP_MASK_DESTINATION = 32768 /* set exactly with LESUNGKAP_QP_RTR */
};

/* Opcodes and flags of a send record, as IBV_WR_* and IBV_SEND_*. */
enum {
    LESUNGKAP_WRITE = 0,
    LESUNGKAP_WRITE_IMMEDIATE = 1,
    LESUNGKAP_SEND = 2,
    LESUNGKAP_SEND_IMMEDIATE = 3,
    LESUNGKAP_READ = 4,
    LESUNGKAP_FLAG_FENCE = 1,     /* no effect */
    LESUNGKAP_FLAG_SIGNALED = 2,
    LESUNGKAP_FLAG_SOLICITED = 4, /* no effect */
    LESUNGKAP_FLAG_INLINE = 8
};

/* Opcodes of completions. The first three are as IBV_WC_*; the last two are IBV_WC_RECV and IBV_WC_RECV_RDMA_WITH_IMM, 128 and 129
 * there. */
enum {
    LESUNGKAP_COMPLETED_SEND = 0,
    LESUNGKAP_COMPLETED_WRITE = 1,
    LESUNGKAP_COMPLETED_READ = 2,
    LESUNGKAP_COMPLETED_RECEIVE = 3,
    LESUNGKAP_COMPLETED_RECEIVE_OF_WRITE = 4
};

/* ---- names */

static inline const char *lesungkap_answer_text(unsigned answer)
{
    switch (answer) {
    case LESUNGKAP_DONE: return "done";
    case LESUNGKAP_RECORD_LENGTH: return "record length wrong";
    case LESUNGKAP_NOT_LIVE: return "number not live";
    case LESUNGKAP_WRONG_STATE: return "wrong QP state or move";
    case LESUNGKAP_BAD_FIELD: return "bad field";
    case LESUNGKAP_HELD_PEER: return "held: peer not ready or no receive waiting";
    case LESUNGKAP_HELD_PLACE: return "held: no completion place";
    case LESUNGKAP_MEMORY_LENGTH: return "lent memory's length isn't the reset length";
    case LESUNGKAP_FULL: return "table or queue full";
    case LESUNGKAP_NOTHING: return "nothing there";
    case LESUNGKAP_IN_USE: return "in use";
    case LESUNGKAP_RANGE: return "range";
    case LESUNGKAP_BUFFER_TOO_SHORT: return "answer buffer too short";
    case LESUNGKAP_UNKNOWN: return "unknown class or command";
    case LESUNGKAP_BAD_TAPE_RECORD: return "bad tape record";
    case LESUNGKAP_BAD_STATE: return "lent card state not acceptable";
    default: return "no answer of the table";
    }
}

/* The nearest errno: what libibverbs and the kernel's verbs answer where they have the case. */
static inline int lesungkap_answer_errno(unsigned answer)
{
    switch (answer) {
    case LESUNGKAP_DONE: return 0;
    case LESUNGKAP_NOT_LIVE: return ENOENT;
    case LESUNGKAP_HELD_PEER:
    case LESUNGKAP_HELD_PLACE: return EAGAIN;
    case LESUNGKAP_MEMORY_LENGTH: return EFAULT;
    case LESUNGKAP_FULL: return ENOMEM;
    case LESUNGKAP_NOTHING: return ENOMSG;
    case LESUNGKAP_IN_USE: return EBUSY;
    case LESUNGKAP_RANGE: return ERANGE;
    case LESUNGKAP_BUFFER_TOO_SHORT: return ENOSPC;
    case LESUNGKAP_UNKNOWN: return EOPNOTSUPP;
    case LESUNGKAP_BAD_TAPE_RECORD: return EBADMSG;
    case LESUNGKAP_BAD_STATE: return ENOTRECOVERABLE;
    default: return EINVAL; /* RECORD_LENGTH, WRONG_STATE, BAD_FIELD, and what is no answer */
    }
}

static inline const char *lesungkap_status_text(unsigned status)
{
    switch (status) {
    case LESUNGKAP_SUCCESS: return "success";
    case LESUNGKAP_LOCAL_LENGTH: return "local length";
    case LESUNGKAP_LOCAL_PROTECTION: return "local protection";
    case LESUNGKAP_FLUSHED: return "flushed";
    case LESUNGKAP_REMOTE_INVALID: return "remote invalid request";
    case LESUNGKAP_REMOTE_ACCESS: return "remote access";
    default: return "no status of the table";
    }
}

/* A status by its name in libibverbs (enum ibv_wc_status). */
static inline const char *lesungkap_status_verbs(unsigned status)
{
    switch (status) {
    case LESUNGKAP_SUCCESS: return "IBV_WC_SUCCESS";
    case LESUNGKAP_LOCAL_LENGTH: return "IBV_WC_LOC_LEN_ERR";
    case LESUNGKAP_LOCAL_PROTECTION: return "IBV_WC_LOC_PROT_ERR";
    case LESUNGKAP_FLUSHED: return "IBV_WC_WR_FLUSH_ERR";
    case LESUNGKAP_REMOTE_INVALID: return "IBV_WC_REM_INV_REQ_ERR";
    case LESUNGKAP_REMOTE_ACCESS: return "IBV_WC_REM_ACCESS_ERR";
    default: return "IBV_WC_GENERAL_ERR";
    }
}

static inline const char *lesungkap_completed_text(unsigned opcode)
{
    switch (opcode) {
    case LESUNGKAP_COMPLETED_SEND: return "send";
    case LESUNGKAP_COMPLETED_WRITE: return "write";
    case LESUNGKAP_COMPLETED_READ: return "read";
    case LESUNGKAP_COMPLETED_RECEIVE: return "receive";
    case LESUNGKAP_COMPLETED_RECEIVE_OF_WRITE: return "receive of a write";
    default: return "no opcode of the table";
    }
}

static inline const char *lesungkap_qp_state_text(unsigned state)
{
    switch (state) {
    case LESUNGKAP_QP_RESET: return "reset";
    case LESUNGKAP_QP_INIT: return "init";
    case LESUNGKAP_QP_RTR: return "ready to receive";
    case LESUNGKAP_QP_RTS: return "ready to send";
    case LESUNGKAP_QP_ERROR: return "error";
    default: return "no state of the table";
    }
}

#ifdef __cplusplus
}
#endif

#endif
