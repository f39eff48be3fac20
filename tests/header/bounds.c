/* Random bytes and lengths for every get, put and peek, each buffer of exactly its length, to be run under gcc's address and
 * undefined-behaviour sanitizers: nothing is read or written outside what is lent, whatever it holds. */
#include <lesungkap.h>

#include <stdio.h>
#include <stdlib.h>

static uint64_t seed = 1;

static uint64_t word(void)
{
    seed = seed * 6364136223846793005u + 1442695040888963407u;
    return seed >> 20;
}

/* A buffer of this length, of its own, with random bytes, most of them small. */
static uint8_t *random_bytes(size_t length)
{
    uint8_t *bytes = (uint8_t *)malloc(length ? length : 1);
    for (size_t n = 0; n < length; n++) {
        bytes[n] = word() % 4 ? (uint8_t)(word() % 10) : (uint8_t)word();
    }
    return bytes;
}

#define TRY(call) (peeked += (call) == LESUNGKAP_DONE)

static unsigned peeked, sends, inline_sum;

/* Bytes of a record of this length that are likely to be read. */
static void shape_command(uint8_t *bytes, size_t length, uint8_t command)
{
    if (length >= LESUNGKAP_COMMAND_DATA_AT && word() % 4) {
        bytes[LESUNGKAP_COMMAND_CLASS_AT] = LESUNGKAP_CONTROL_CLASS;
        bytes[LESUNGKAP_COMMAND_NUMBER_AT] = command;
    }
}

static void shape_count(uint8_t *bytes, size_t length, size_t at, size_t head)
{
    if (length >= head && word() % 4) {
        lesungkap_put_le_(bytes + at, 4, (length - head) / LESUNGKAP_SGE_BYTES);
    }
}

static void shape_ack(uint8_t *bytes, size_t length)
{
    if (length > 0 && word() % 4) {
        bytes[LESUNGKAP_ACK_BYTE_AT] = LESUNGKAP_ACK_OK;
    }
}

/* Reads one; what was read is put into a buffer that may be too short. Counts the values that were read. */
#define RECORD(X, LENGTH, SHAPE) \
    static unsigned read_##X; \
    static void try_##X(void) \
    { \
        struct lesungkap_##X x; \
        const size_t length = word() % 4 ? (size_t)(LENGTH) : word() % 700; \
        uint8_t *bytes = random_bytes(length); \
        SHAPE; \
        if (lesungkap_get_##X(bytes, length, &x) == LESUNGKAP_DONE) { \
            const size_t room = word() % 2 ? length : word() % (length + 1); \
            uint8_t *copy = random_bytes(room); \
            read_##X++; \
            if (lesungkap_put_##X(copy, room, &x) > room) { \
                abort(); \
            } \
            free(copy); \
        } \
        free(bytes); \
    }

#define NUMBER(X, COMMAND) RECORD(X, LESUNGKAP_NUMBER_COMMAND_BYTES, shape_command(bytes, length, COMMAND))

RECORD(sge, LESUNGKAP_SGE_BYTES, (void)0)
RECORD(send, LESUNGKAP_SEND_BYTES + word() % 5 * LESUNGKAP_SGE_BYTES, shape_count(bytes, length, LESUNGKAP_SEND_COUNT_AT, LESUNGKAP_SEND_BYTES))
RECORD(receive, LESUNGKAP_RECEIVE_BYTES + word() % 3 * LESUNGKAP_SGE_BYTES,
       shape_count(bytes, length, LESUNGKAP_RECEIVE_COUNT_AT, LESUNGKAP_RECEIVE_BYTES))
RECORD(completion, LESUNGKAP_COMPLETION_BYTES, (void)0)
NUMBER(create_cq, LESUNGKAP_CREATE_CQ)
NUMBER(destroy_cq, LESUNGKAP_DESTROY_CQ)
NUMBER(destroy_pd, LESUNGKAP_DESTROY_PD)
NUMBER(deregister_mr, LESUNGKAP_DEREGISTER_MR)
NUMBER(destroy_qp, LESUNGKAP_DESTROY_QP)
RECORD(register_mr, LESUNGKAP_REGISTER_MR_BYTES, shape_command(bytes, length, LESUNGKAP_REGISTER_MR))
RECORD(create_qp, LESUNGKAP_CREATE_QP_BYTES, shape_command(bytes, length, LESUNGKAP_CREATE_QP))
RECORD(modify_qp, LESUNGKAP_MODIFY_QP_BYTES, shape_command(bytes, length, LESUNGKAP_MODIFY_QP))
RECORD(create_cq_ack, LESUNGKAP_NUMBER_ACK_BYTES, shape_ack(bytes, length))
RECORD(create_pd_ack, LESUNGKAP_NUMBER_ACK_BYTES, shape_ack(bytes, length))
RECORD(create_qp_ack, LESUNGKAP_NUMBER_ACK_BYTES, shape_ack(bytes, length))
RECORD(register_mr_ack, LESUNGKAP_KEYS_ACK_BYTES, shape_ack(bytes, length))
RECORD(query_device_ack, LESUNGKAP_DEVICE_ACK_BYTES, shape_ack(bytes, length))
RECORD(query_port_ack, LESUNGKAP_PORT_ACK_BYTES, shape_ack(bytes, length))

/* Queue pairs that are likely to be live, and queued sends that are likely to be read. */
static void shape_queues(uint8_t *state, size_t length)
{
    for (size_t n = 0; length == LESUNGKAP_STATE_BYTES && n < LESUNGKAP_QP_COUNT * LESUNGKAP_QP_MOST_SENDS; n++) {
        uint8_t *kind = state + LESUNGKAP_STATE_KINDS_AT + LESUNGKAP_STATE_KIND_ROW * n;
        if (word() % 2) {
            lesungkap_put_le_(kind + LESUNGKAP_STATE_KIND_COUNT_AT, 2,
                              kind[LESUNGKAP_STATE_KIND_FLAGS_AT] & LESUNGKAP_FLAG_INLINE ? word() % 514 : word() % 6);
        }
        state[LESUNGKAP_STATE_QP_LIVE_AT + n % LESUNGKAP_QP_COUNT] = word() % 4 != 0;
    }
}

static void try_state(void)
{
    struct lesungkap_cq cq;
    struct lesungkap_mr mr;
    struct lesungkap_qp qp;
    struct lesungkap_completion completion;
    struct lesungkap_receive receive;
    struct lesungkap_send send;
    uint32_t next;
    uint64_t memory, page;
    size_t length = word() % 8 ? LESUNGKAP_STATE_BYTES : word() % (2 * LESUNGKAP_STATE_BYTES);
    uint8_t *state = random_bytes(length);
    shape_queues(state, length);
    for (int n = 0; n < 100; n++) {
        uint32_t number = (uint32_t)(word() % 4 ? word() % (LESUNGKAP_MR_COUNT + 2) : word());
        uint32_t index = (uint32_t)(word() % 4 ? word() % 20 : word());
        TRY(lesungkap_peek_memory(state, length, &memory));
        TRY(lesungkap_peek_pd(state, length, number));
        TRY(lesungkap_peek_cq(state, length, number, &cq));
        TRY(lesungkap_peek_mr(state, length, number, &mr));
        TRY(lesungkap_peek_page(state, length, number, index, &page));
        TRY(lesungkap_peek_qp(state, length, number, &qp));
        TRY(lesungkap_peek_completion(state, length, number, index, &completion));
        TRY(lesungkap_peek_receive(state, length, number, index, &receive));
        TRY(lesungkap_peek_turn(state, length, &next));
        if (lesungkap_peek_send(state, length, number % 10, index, &send) == LESUNGKAP_DONE) {
            sends++;
            for (uint32_t k = 0; send.inline_bytes != NULL && k < send.count; k++) {
                inline_sum += send.inline_bytes[k];
            }
        }
    }
    free(state);
}

#define EACH(F) \
    F(sge) F(send) F(receive) F(completion) F(create_cq) F(destroy_cq) F(destroy_pd) F(deregister_mr) F(destroy_qp) F(register_mr) \
    F(create_qp) F(modify_qp) F(create_cq_ack) F(create_pd_ack) F(create_qp_ack) F(register_mr_ack) F(query_device_ack) F(query_port_ack)
#define RUN(X) try_##X();
#define SHOW(X) printf("%6u  %s\n", read_##X, #X); few |= read_##X < 1000;

int main(void)
{
    int few = 0;
    for (int n = 0; n < 20000; n++) {
        EACH(RUN)
    }
    for (int n = 0; n < 200; n++) {
        try_state();
    }
    EACH(SHOW)
    printf("%6u  peeks\n%6u  queued sends\n", peeked, sends);
    return few || peeked < 1000 || sends < 200 || inline_sum == 0;
}
