/* What a lent state holds, read without a call, so that a monitor keeps no copy of its own. Included by lesungkap.h. docs/STATE.md has the
 * layout in words.
 *
 *   unsigned lesungkap_peek_X(const uint8_t *state, size_t state_len, uint32_t number, .., struct lesungkap_X *x)
 *       reads object `number` into x and returns LESUNGKAP_DONE; else x stays as it was, and the answer is LESUNGKAP_BAD_STATE where
 *       state_len isn't LESUNGKAP_STATE_BYTES, LESUNGKAP_NOT_LIVE where there is no such object, LESUNGKAP_NOTHING where a ring has no
 *       entry, or a region no page, of this index.
 *
 * A peek writes nothing but x, and never reads outside the state. It makes no test of the content: what it says is true of a state that
 * a call has left. Of another, lesungkap_peek_receive and lesungkap_peek_send also answer LESUNGKAP_BAD_FIELD, where a receive has more than
 * two entries, or a queued send has what post send refuses with it.
 */
#ifndef LESUNGKAP_STATE_H
#define LESUNGKAP_STATE_H

#include "lesungkap_records.h"

#ifdef __cplusplus
extern "C" {
#endif

/* The layout: a row of each table; where each table begins, one block for each kind of object, its live flags first (1: live); and the
 * fields of a row. Nothing below this block knows an offset. */
enum {
    LESUNGKAP_STATE_HEADER = 16,
    LESUNGKAP_STATE_CQ_ROW = 4,
    LESUNGKAP_STATE_COMPLETION_ROW = LESUNGKAP_COMPLETION_BYTES, /* a completion */
    LESUNGKAP_STATE_MR_ROW = 32,
    LESUNGKAP_STATE_PAGE_ROW = 2, /* a page's number: its first byte over LESUNGKAP_PAGE_BYTES */
    LESUNGKAP_STATE_QP_ROW = 8,
    LESUNGKAP_STATE_WAITING_ROW = 2,
    LESUNGKAP_STATE_RECEIVE_ROW = LESUNGKAP_RECEIVE_MOST_BYTES, /* a receive record */
    LESUNGKAP_STATE_SENDS_ROW = 2,
    LESUNGKAP_STATE_KIND_ROW = 4, /* of a queued send record: what decides how it is read */
    LESUNGKAP_STATE_RECORD_ROW = LESUNGKAP_SEND_MOST_BYTES, /* the record as it was lent; what its kind says is not looked at here */

    LESUNGKAP_STATE_MEMORY_AT = 0,
    LESUNGKAP_STATE_TURN_AT = 8,
    LESUNGKAP_STATE_PD_LIVE_AT = LESUNGKAP_STATE_HEADER,
    LESUNGKAP_STATE_CQ_LIVE_AT = LESUNGKAP_STATE_PD_LIVE_AT + LESUNGKAP_PD_COUNT,
    LESUNGKAP_STATE_CQS_AT = LESUNGKAP_STATE_CQ_LIVE_AT + LESUNGKAP_CQ_COUNT,
    LESUNGKAP_STATE_COMPLETIONS_AT = LESUNGKAP_STATE_CQS_AT + LESUNGKAP_CQ_COUNT * LESUNGKAP_STATE_CQ_ROW,
    LESUNGKAP_STATE_MR_LIVE_AT =
        LESUNGKAP_STATE_COMPLETIONS_AT + LESUNGKAP_CQ_COUNT * LESUNGKAP_CQ_MOST_PLACES * LESUNGKAP_STATE_COMPLETION_ROW,
    LESUNGKAP_STATE_MRS_AT = LESUNGKAP_STATE_MR_LIVE_AT + LESUNGKAP_MR_COUNT,
    LESUNGKAP_STATE_PAGES_AT = LESUNGKAP_STATE_MRS_AT + LESUNGKAP_MR_COUNT * LESUNGKAP_STATE_MR_ROW,
    LESUNGKAP_STATE_QP_LIVE_AT = LESUNGKAP_STATE_PAGES_AT + LESUNGKAP_MR_COUNT * LESUNGKAP_MR_MOST_PAGES * LESUNGKAP_STATE_PAGE_ROW,
    LESUNGKAP_STATE_QPS_AT = LESUNGKAP_STATE_QP_LIVE_AT + LESUNGKAP_QP_COUNT,
    LESUNGKAP_STATE_WAITING_AT = LESUNGKAP_STATE_QPS_AT + LESUNGKAP_QP_COUNT * LESUNGKAP_STATE_QP_ROW,
    LESUNGKAP_STATE_RECEIVES_AT = LESUNGKAP_STATE_WAITING_AT + LESUNGKAP_QP_COUNT * LESUNGKAP_STATE_WAITING_ROW,
    LESUNGKAP_STATE_SENDS_AT =
        LESUNGKAP_STATE_RECEIVES_AT + LESUNGKAP_QP_COUNT * LESUNGKAP_QP_MOST_RECEIVES * LESUNGKAP_STATE_RECEIVE_ROW,
    LESUNGKAP_STATE_KINDS_AT = LESUNGKAP_STATE_SENDS_AT + LESUNGKAP_QP_COUNT * LESUNGKAP_STATE_SENDS_ROW,
    LESUNGKAP_STATE_RECORDS_AT = LESUNGKAP_STATE_KINDS_AT + LESUNGKAP_QP_COUNT * LESUNGKAP_QP_MOST_SENDS * LESUNGKAP_STATE_KIND_ROW,
    LESUNGKAP_STATE_BYTES = LESUNGKAP_STATE_RECORDS_AT + LESUNGKAP_QP_COUNT * LESUNGKAP_QP_MOST_SENDS * LESUNGKAP_STATE_RECORD_ROW,

    LESUNGKAP_STATE_CQ_PLACES_AT = 0,
    LESUNGKAP_STATE_CQ_FIRST_AT = 1,
    LESUNGKAP_STATE_CQ_UNREAD_AT = 2,
    LESUNGKAP_STATE_MR_ACCESS_AT = 0,
    LESUNGKAP_STATE_MR_VARIANT_AT = 1,
    LESUNGKAP_STATE_MR_PDN_AT = 2,
    LESUNGKAP_STATE_MR_KIND_AT = 3,
    LESUNGKAP_STATE_MR_START_AT = 8,
    LESUNGKAP_STATE_MR_LENGTH_AT = 16,
    LESUNGKAP_STATE_MR_VIRT_AT = 24,
    LESUNGKAP_STATE_QP_PDN_AT = 0,
    LESUNGKAP_STATE_QP_SIGNAL_AT = 1,
    LESUNGKAP_STATE_QP_SEND_CQN_AT = 2,
    LESUNGKAP_STATE_QP_RECEIVE_CQN_AT = 3,
    LESUNGKAP_STATE_QP_STATE_AT = 4,
    LESUNGKAP_STATE_QP_DESTINATION_AT = 5,
    LESUNGKAP_STATE_QP_ACCESS_FLAGS_AT = 6,
    LESUNGKAP_STATE_WAITING_FIRST_AT = 0,
    LESUNGKAP_STATE_WAITING_COUNT_AT = 1,
    LESUNGKAP_STATE_SENDS_FIRST_AT = 0,
    LESUNGKAP_STATE_SENDS_COUNT_AT = 1,
    LESUNGKAP_STATE_KIND_OPCODE_AT = 0,
    LESUNGKAP_STATE_KIND_FLAGS_AT = 1,
    LESUNGKAP_STATE_KIND_COUNT_AT = 2 /* 2 bytes: of entries, or with LESUNGKAP_FLAG_INLINE of inline bytes */
};

/* A region's kind. */
enum {
    LESUNGKAP_MR_ADJACENT = 0, /* by lesungkap_control: adjacent bytes of the memory */
    LESUNGKAP_MR_PAGED = 1     /* by lesungkap_register_pages */
};

/* A queue pair's destination where it has none. */
enum { LESUNGKAP_NO_QP = LESUNGKAP_QP_COUNT };

struct lesungkap_cq {
    uint8_t places;
    uint8_t unread; /* completions; the free places are places - unread */
};

struct lesungkap_mr {
    uint32_t pdn;
    uint32_t access;
    uint32_t key;   /* lkey and rkey */
    uint8_t kind;   /* LESUNGKAP_MR_ADJACENT or LESUNGKAP_MR_PAGED */
    uint8_t pages;  /* how many it lies over; 0 where it is of adjacent bytes */
    uint64_t start; /* of its first byte: in the memory; over pages, in the first of them */
    uint64_t length;
    uint64_t virt;
};

struct lesungkap_qp {
    uint32_t pdn;
    uint8_t signal;
    uint32_t send_cqn;
    uint32_t receive_cqn;
    uint8_t state;        /* LESUNGKAP_QP_RESET and so on */
    uint32_t destination; /* or LESUNGKAP_NO_QP */
    uint8_t access_flags; /* what its peer may do */
    uint8_t waiting;      /* receives */
    uint8_t queued;       /* sends; while there are any, a direct send is answered LESUNGKAP_IN_USE */
};

/* ---- peeks; names that end in _ are this header's own */

/* The memory length of the reset. */
static inline unsigned lesungkap_peek_memory(const uint8_t *state, size_t state_len, uint64_t *memory_len)
{
    if (state_len != LESUNGKAP_STATE_BYTES) {
        return LESUNGKAP_BAD_STATE;
    }
    *memory_len = lesungkap_get_le_(state + LESUNGKAP_STATE_MEMORY_AT, 8);
    return LESUNGKAP_DONE;
}

/* The queue pair that the next turn visits first. */
static inline unsigned lesungkap_peek_turn(const uint8_t *state, size_t state_len, uint32_t *qpn)
{
    if (state_len != LESUNGKAP_STATE_BYTES) {
        return LESUNGKAP_BAD_STATE;
    }
    *qpn = state[LESUNGKAP_STATE_TURN_AT];
    return LESUNGKAP_DONE;
}

/* Whether object `number` of `count` is live, by its flag of those from `at` on. */
static inline unsigned lesungkap_peek_live_(const uint8_t *state, size_t state_len, size_t at, uint32_t count, uint32_t number)
{
    if (state_len != LESUNGKAP_STATE_BYTES) {
        return LESUNGKAP_BAD_STATE;
    }
    return number < count && state[at + number] == 1 ? LESUNGKAP_DONE : LESUNGKAP_NOT_LIVE;
}

/* Whether the protection domain is live. */
static inline unsigned lesungkap_peek_pd(const uint8_t *state, size_t state_len, uint32_t pdn)
{
    return lesungkap_peek_live_(state, state_len, LESUNGKAP_STATE_PD_LIVE_AT, LESUNGKAP_PD_COUNT, pdn);
}

static inline unsigned lesungkap_peek_cq(const uint8_t *state, size_t state_len, uint32_t cqn, struct lesungkap_cq *cq)
{
    const unsigned answer = lesungkap_peek_live_(state, state_len, LESUNGKAP_STATE_CQ_LIVE_AT, LESUNGKAP_CQ_COUNT, cqn);
    if (answer == LESUNGKAP_DONE) {
        const uint8_t *row = state + LESUNGKAP_STATE_CQS_AT + (size_t)LESUNGKAP_STATE_CQ_ROW * cqn;
        cq->places = row[LESUNGKAP_STATE_CQ_PLACES_AT];
        cq->unread = row[LESUNGKAP_STATE_CQ_UNREAD_AT];
    }
    return answer;
}

/* Unread completion `index` of a completion queue, the oldest first. */
static inline unsigned lesungkap_peek_completion(const uint8_t *state, size_t state_len, uint32_t cqn, uint32_t index,
                                                 struct lesungkap_completion *completion)
{
    struct lesungkap_cq cq;
    const unsigned answer = lesungkap_peek_cq(state, state_len, cqn, &cq);
    if (answer != LESUNGKAP_DONE) {
        return answer;
    }
    if (index >= cq.unread) {
        return LESUNGKAP_NOTHING;
    }
    const size_t first = state[LESUNGKAP_STATE_CQS_AT + (size_t)LESUNGKAP_STATE_CQ_ROW * cqn + LESUNGKAP_STATE_CQ_FIRST_AT];
    const size_t row = (size_t)LESUNGKAP_CQ_MOST_PLACES * cqn + (first + index) % LESUNGKAP_CQ_MOST_PLACES;
    return lesungkap_get_completion(state + LESUNGKAP_STATE_COMPLETIONS_AT + LESUNGKAP_STATE_COMPLETION_ROW * row,
                                    LESUNGKAP_STATE_COMPLETION_ROW, completion);
}

/* How many pages a region lies over. */
static inline uint8_t lesungkap_pages_of_(uint64_t start, uint64_t length)
{
    const uint64_t pages = (start + length + LESUNGKAP_PAGE_BYTES - 1) / LESUNGKAP_PAGE_BYTES;
    return (uint8_t)(pages < LESUNGKAP_MR_MOST_PAGES ? pages : (uint64_t)LESUNGKAP_MR_MOST_PAGES);
}

static inline unsigned lesungkap_peek_mr(const uint8_t *state, size_t state_len, uint32_t mrn, struct lesungkap_mr *mr)
{
    const unsigned answer = lesungkap_peek_live_(state, state_len, LESUNGKAP_STATE_MR_LIVE_AT, LESUNGKAP_MR_COUNT, mrn);
    if (answer == LESUNGKAP_DONE) {
        const uint8_t *row = state + LESUNGKAP_STATE_MRS_AT + (size_t)LESUNGKAP_STATE_MR_ROW * mrn;
        mr->pdn = row[LESUNGKAP_STATE_MR_PDN_AT];
        mr->access = row[LESUNGKAP_STATE_MR_ACCESS_AT];
        mr->key = 256 * mrn + row[LESUNGKAP_STATE_MR_VARIANT_AT];
        mr->kind = row[LESUNGKAP_STATE_MR_KIND_AT];
        mr->start = lesungkap_get_le_(row + LESUNGKAP_STATE_MR_START_AT, 8);
        mr->length = lesungkap_get_le_(row + LESUNGKAP_STATE_MR_LENGTH_AT, 8);
        mr->virt = lesungkap_get_le_(row + LESUNGKAP_STATE_MR_VIRT_AT, 8);
        mr->pages = mr->kind == LESUNGKAP_MR_ADJACENT ? 0 : lesungkap_pages_of_(mr->start, mr->length);
    }
    return answer;
}

/* The first memory byte of page `index` of a region over pages. */
static inline unsigned lesungkap_peek_page(const uint8_t *state, size_t state_len, uint32_t mrn, uint32_t index, uint64_t *page)
{
    struct lesungkap_mr mr;
    const unsigned answer = lesungkap_peek_mr(state, state_len, mrn, &mr);
    if (answer != LESUNGKAP_DONE) {
        return answer;
    }
    if (index >= mr.pages) {
        return LESUNGKAP_NOTHING;
    }
    const size_t place = (size_t)LESUNGKAP_MR_MOST_PAGES * mrn + index;
    *page = LESUNGKAP_PAGE_BYTES *
            lesungkap_get_le_(state + LESUNGKAP_STATE_PAGES_AT + LESUNGKAP_STATE_PAGE_ROW * place, LESUNGKAP_STATE_PAGE_ROW);
    return LESUNGKAP_DONE;
}

static inline unsigned lesungkap_peek_qp(const uint8_t *state, size_t state_len, uint32_t qpn, struct lesungkap_qp *qp)
{
    const unsigned answer = lesungkap_peek_live_(state, state_len, LESUNGKAP_STATE_QP_LIVE_AT, LESUNGKAP_QP_COUNT, qpn);
    if (answer == LESUNGKAP_DONE) {
        const uint8_t *row = state + LESUNGKAP_STATE_QPS_AT + (size_t)LESUNGKAP_STATE_QP_ROW * qpn;
        const uint8_t *waiting = state + LESUNGKAP_STATE_WAITING_AT + (size_t)LESUNGKAP_STATE_WAITING_ROW * qpn;
        qp->pdn = row[LESUNGKAP_STATE_QP_PDN_AT];
        qp->signal = row[LESUNGKAP_STATE_QP_SIGNAL_AT];
        qp->send_cqn = row[LESUNGKAP_STATE_QP_SEND_CQN_AT];
        qp->receive_cqn = row[LESUNGKAP_STATE_QP_RECEIVE_CQN_AT];
        qp->state = row[LESUNGKAP_STATE_QP_STATE_AT];
        qp->destination = row[LESUNGKAP_STATE_QP_DESTINATION_AT];
        qp->access_flags = row[LESUNGKAP_STATE_QP_ACCESS_FLAGS_AT];
        qp->waiting = waiting[LESUNGKAP_STATE_WAITING_COUNT_AT];
        qp->queued = state[LESUNGKAP_STATE_SENDS_AT + (size_t)LESUNGKAP_STATE_SENDS_ROW * qpn + LESUNGKAP_STATE_SENDS_COUNT_AT];
    }
    return answer;
}

/* Waiting receive `index` of a queue pair, the oldest first. */
static inline unsigned lesungkap_peek_receive(const uint8_t *state, size_t state_len, uint32_t qpn, uint32_t index,
                                              struct lesungkap_receive *receive)
{
    struct lesungkap_qp qp;
    const unsigned answer = lesungkap_peek_qp(state, state_len, qpn, &qp);
    if (answer != LESUNGKAP_DONE) {
        return answer;
    }
    if (index >= qp.waiting) {
        return LESUNGKAP_NOTHING;
    }
    const size_t first = state[LESUNGKAP_STATE_WAITING_AT + (size_t)LESUNGKAP_STATE_WAITING_ROW * qpn + LESUNGKAP_STATE_WAITING_FIRST_AT];
    const size_t place = (size_t)LESUNGKAP_QP_MOST_RECEIVES * qpn + (first + index) % LESUNGKAP_QP_MOST_RECEIVES;
    const uint8_t *row = state + LESUNGKAP_STATE_RECEIVES_AT + LESUNGKAP_STATE_RECEIVE_ROW * place;
    const size_t count = lesungkap_get_32_(row + LESUNGKAP_RECEIVE_COUNT_AT);
    return lesungkap_get_receive(row, LESUNGKAP_RECEIVE_BYTES + count * LESUNGKAP_SGE_BYTES, receive);
}

/* Queued send `index` of a queue pair, the oldest first. Its inline bytes are those of the state. */
static inline unsigned lesungkap_peek_send(const uint8_t *state, size_t state_len, uint32_t qpn, uint32_t index, struct lesungkap_send *send)
{
    struct lesungkap_qp qp;
    const unsigned answer = lesungkap_peek_qp(state, state_len, qpn, &qp);
    if (answer != LESUNGKAP_DONE) {
        return answer;
    }
    if (index >= qp.queued) {
        return LESUNGKAP_NOTHING;
    }
    const size_t first = state[LESUNGKAP_STATE_SENDS_AT + (size_t)LESUNGKAP_STATE_SENDS_ROW * qpn + LESUNGKAP_STATE_SENDS_FIRST_AT];
    const size_t place = (size_t)LESUNGKAP_QP_MOST_SENDS * qpn + (first + index) % LESUNGKAP_QP_MOST_SENDS;
    const uint8_t *kind = state + LESUNGKAP_STATE_KINDS_AT + LESUNGKAP_STATE_KIND_ROW * place;
    const uint8_t opcode = kind[LESUNGKAP_STATE_KIND_OPCODE_AT];
    const uint8_t flags = kind[LESUNGKAP_STATE_KIND_FLAGS_AT];
    const uint32_t count = (uint32_t)lesungkap_get_le_(kind + LESUNGKAP_STATE_KIND_COUNT_AT, 2);
    if (lesungkap_test_kind_(opcode, flags, count) != LESUNGKAP_DONE) {
        return LESUNGKAP_BAD_FIELD;
    }
    lesungkap_read_send_(state + LESUNGKAP_STATE_RECORDS_AT + LESUNGKAP_STATE_RECORD_ROW * place, opcode, flags, count, send);
    return LESUNGKAP_DONE;
}

#ifdef __cplusplus
}
#endif

#endif
