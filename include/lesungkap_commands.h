/* Lesungkap's control commands and their acks, as structs, with a put and a get for each: lesungkap_records.h says what a put and a get
 * are. Included by lesungkap.h. A command is class byte, command byte and data; its put writes all three. An ack is the ack byte and
 * what the command made.
 *
 * A new object takes the lowest free number of its table, FULL where there is none. A region's key is 256 x number + variant: 1 for the
 * first registration in a slot after a reset, then one more for each there. A slot whose variant 255 was deregistered is retired until a
 * reset: a registration passes it over, and is FULL where no other is free. So no key comes twice between two resets. A key stands until
 * its region is deregistered; a refused registration takes none. The answers of each command, after those of lesungkap_control, stand
 * with it in their order, without LESUNGKAP_.
 */
#ifndef LESUNGKAP_COMMANDS_H
#define LESUNGKAP_COMMANDS_H

#include "lesungkap_records.h"

#ifdef __cplusplus
extern "C" {
#endif

/* ---- offsets and lengths in bytes, from the command's or the ack's first byte */

enum {
    LESUNGKAP_CONTROL_CLASS = 6,
    LESUNGKAP_COMMAND_CLASS_AT = 0,
    LESUNGKAP_COMMAND_NUMBER_AT = 1,
    LESUNGKAP_COMMAND_DATA_AT = 2, /* first number of every command that has data */

    LESUNGKAP_QUERY_DEVICE_BYTES = LESUNGKAP_COMMAND_DATA_AT,
    LESUNGKAP_QUERY_PORT_BYTES = LESUNGKAP_COMMAND_DATA_AT,
    LESUNGKAP_CREATE_PD_BYTES = LESUNGKAP_COMMAND_DATA_AT,
    LESUNGKAP_NUMBER_COMMAND_BYTES = LESUNGKAP_COMMAND_DATA_AT + 4, /* of each command that has one number */

    LESUNGKAP_REGISTER_MR_ACCESS_AT = LESUNGKAP_COMMAND_DATA_AT + 4,
    LESUNGKAP_REGISTER_MR_START_AT = LESUNGKAP_COMMAND_DATA_AT + 8,
    LESUNGKAP_REGISTER_MR_LENGTH_AT = LESUNGKAP_COMMAND_DATA_AT + 16,
    LESUNGKAP_REGISTER_MR_VIRT_AT = LESUNGKAP_COMMAND_DATA_AT + 24,
    LESUNGKAP_REGISTER_MR_BYTES = LESUNGKAP_COMMAND_DATA_AT + 32,

    LESUNGKAP_CREATE_QP_TYPE_AT = LESUNGKAP_COMMAND_DATA_AT + 4,
    LESUNGKAP_CREATE_QP_SIGNAL_AT = LESUNGKAP_COMMAND_DATA_AT + 5,
    LESUNGKAP_CREATE_QP_SEND_CQN_AT = LESUNGKAP_COMMAND_DATA_AT + 8,
    LESUNGKAP_CREATE_QP_RECEIVE_CQN_AT = LESUNGKAP_COMMAND_DATA_AT + 12,
    LESUNGKAP_CREATE_QP_BYTES = LESUNGKAP_COMMAND_DATA_AT + 16,

    LESUNGKAP_MODIFY_QP_MASK_AT = LESUNGKAP_COMMAND_DATA_AT + 4,
    LESUNGKAP_MODIFY_QP_STATE_AT = LESUNGKAP_COMMAND_DATA_AT + 8,
    LESUNGKAP_MODIFY_QP_ZERO_AT = LESUNGKAP_COMMAND_DATA_AT + 9,
    LESUNGKAP_MODIFY_QP_DESTINATION_AT = LESUNGKAP_COMMAND_DATA_AT + 12,
    LESUNGKAP_MODIFY_QP_ACCESS_FLAGS_AT = LESUNGKAP_COMMAND_DATA_AT + 16,
    LESUNGKAP_MODIFY_QP_BYTES = LESUNGKAP_COMMAND_DATA_AT + 20, /* whatever the mask */

    LESUNGKAP_COMMAND_MOST_BYTES = LESUNGKAP_REGISTER_MR_BYTES
};

enum {
    LESUNGKAP_ACK_OK = 0,
    LESUNGKAP_ACK_ERROR = 1,
    LESUNGKAP_ACK_BYTE_AT = 0,
    LESUNGKAP_ACK_NUMBER_AT = 1,
    LESUNGKAP_ACK_LKEY_AT = 5,
    LESUNGKAP_ACK_RKEY_AT = 9,
    LESUNGKAP_EMPTY_ACK_BYTES = 1,  /* written by destroy, deregister, modify, and by each refusal */
    LESUNGKAP_NUMBER_ACK_BYTES = 5, /* by create */
    LESUNGKAP_KEYS_ACK_BYTES = 13,  /* by register */
    LESUNGKAP_ACK_BYTES = 13,       /* least length of an ack buffer, but for a query */

    LESUNGKAP_DEVICE_FLAGS_AT = 1,
    LESUNGKAP_DEVICE_MR_SIZE_AT = 9,
    LESUNGKAP_DEVICE_PAGE_SIZE_AT = 17,
    LESUNGKAP_DEVICE_HW_VER_AT = 25,
    LESUNGKAP_DEVICE_QP_WR_AT = 29,
    LESUNGKAP_DEVICE_SEND_SGE_AT = 33,
    LESUNGKAP_DEVICE_RECV_SGE_AT = 37,
    LESUNGKAP_DEVICE_SGE_RD_AT = 41,
    LESUNGKAP_DEVICE_CQE_AT = 45,
    LESUNGKAP_DEVICE_MR_AT = 49,
    LESUNGKAP_DEVICE_PD_AT = 53,
    LESUNGKAP_DEVICE_QP_RD_ATOM_AT = 57,
    LESUNGKAP_DEVICE_QP_INIT_RD_ATOM_AT = 61,
    LESUNGKAP_DEVICE_AH_AT = 65,
    LESUNGKAP_DEVICE_ACK_DELAY_AT = 69,
    LESUNGKAP_DEVICE_ACK_BYTES = 129, /* written by query device, and least length of its ack buffer */

    LESUNGKAP_PORT_GID_TABLE_AT = 1,
    LESUNGKAP_PORT_MESSAGE_SIZE_AT = 5,
    LESUNGKAP_PORT_ACK_BYTES = 33, /* written by query port, and least length of its ack buffer */

    LESUNGKAP_ACK_MOST_BYTES = LESUNGKAP_DEVICE_ACK_BYTES /* an ack buffer for any command */
};

/* ---- commands and what their acks carry; the others' acks carry nothing */

/* Query device has no data. What the card is, by 001's names, which are those of ibv_device_attr; its reserved bytes are written as 0 and not
 * read. The card says of itself: no flags; max_mr_size the memory's length; page_size_cap 4096; hw_ver 1; max_qp_wr 4, max_send_sge 4,
 * max_recv_sge 2, max_sge_rd 4, max_cqe 16, max_mr 256, max_pd 8, max_qp_rd_atom 1, max_qp_init_rd_atom 1, max_ah 0; no delay. */
struct lesungkap_query_device_ack {
    uint64_t device_cap_flags;
    uint64_t max_mr_size;
    uint64_t page_size_cap; /* a mask of sizes, not a shift */
    uint32_t hw_ver;
    uint32_t max_qp_wr;
    uint32_t max_send_sge;
    uint32_t max_recv_sge;
    uint32_t max_sge_rd;
    uint32_t max_cqe;
    uint32_t max_mr;
    uint32_t max_pd;
    uint32_t max_qp_rd_atom;
    uint32_t max_qp_init_rd_atom;
    uint32_t max_ah;
    uint8_t local_ca_ack_delay;
};

/* Query port has no data. No GIDs; max_msg_sz is LESUNGKAP_MOST_MESSAGE. */
struct lesungkap_query_port_ack {
    uint32_t gid_tbl_len;
    uint32_t max_msg_sz;
};

/* BAD_FIELD: places outside 1 to LESUNGKAP_CQ_MOST_PLACES. FULL. */
struct lesungkap_create_cq {
    uint32_t places;
};

struct lesungkap_create_cq_ack {
    uint32_t cqn;
};

/* NOT_LIVE. IN_USE: a live queue pair names it. Its unread completions are dropped. */
struct lesungkap_destroy_cq {
    uint32_t cqn;
};

/* Create PD has no data. FULL. */
struct lesungkap_create_pd_ack {
    uint32_t pdn;
};

/* NOT_LIVE. IN_USE: a live region or queue pair is in it. */
struct lesungkap_destroy_pd {
    uint32_t pdn;
};

/* Memory bytes start to start + length - 1, known under the addresses from virt on. BAD_FIELD: another access bit than LESUNGKAP_LOCAL_WRITE,
 * LESUNGKAP_REMOTE_WRITE, LESUNGKAP_REMOTE_READ, or LESUNGKAP_REMOTE_WRITE without LESUNGKAP_LOCAL_WRITE. NOT_LIVE: the domain. RANGE:
 * length 0, start + length over the memory's length, virt + length over 2^64 - 1. FULL. lesungkap_register_pages takes the same record for a
 * region over pages, with a RANGE of its own. */
struct lesungkap_register_mr {
    uint32_t pdn;
    uint32_t access;
    uint64_t start;
    uint64_t length;
    uint64_t virt;
};

struct lesungkap_register_mr_ack {
    uint32_t mrn;
    uint32_t lkey; /* both keys are one number */
    uint32_t rkey;
};

/* NOT_LIVE. Receives that name its key go on waiting; a message that would fill one fails. */
struct lesungkap_deregister_mr {
    uint32_t mrn;
};

/* BAD_FIELD: another type or signal. NOT_LIVE: the domain, then the send CQ, then the receive CQ; they may be one. FULL. */
struct lesungkap_create_qp {
    uint32_t pdn;
    uint8_t type;   /* LESUNGKAP_QP_TYPE_RC */
    uint8_t signal; /* LESUNGKAP_SIGNAL_ALL or LESUNGKAP_SIGNAL_FLAGGED */
    uint32_t send_cqn;
    uint32_t receive_cqn;
};

struct lesungkap_create_qp_ack {
    uint32_t qpn;
};

/* BAD_FIELD: another mask bit, LESUNGKAP_MASK_STATE not set, no such state, zero not 0, LESUNGKAP_MASK_DESTINATION set with another state
 * than LESUNGKAP_QP_RTR or not with it, and with it a destination past the table or the queue pair itself; it need not be live; with
 * LESUNGKAP_MASK_ACCESS_FLAGS, in any state, another bit than those of a region's access. NOT_LIVE. WRONG_STATE: no such move. */
struct lesungkap_modify_qp {
    uint32_t qpn;
    uint32_t mask;
    uint8_t state;
    uint8_t zero[3];
    uint32_t destination;  /* looked at with LESUNGKAP_MASK_DESTINATION only */
    uint32_t access_flags; /* looked at with LESUNGKAP_MASK_ACCESS_FLAGS only; without it they stay. LESUNGKAP_QP_RESET makes them 0 in any case */
};

/* NOT_LIVE. Its waiting receives are dropped; its completions stay in their queues, and others keep its number as destination. */
struct lesungkap_destroy_qp {
    uint32_t qpn;
};

/* ---- put and get: commands; names that end in _ are this header's own */

/* Class byte, command byte and zeros for the data. */
static inline size_t lesungkap_put_command_(uint8_t *bytes, size_t length, uint8_t command, size_t whole)
{
    if (length < whole) {
        return 0;
    }
    memset(bytes, 0, whole);
    bytes[LESUNGKAP_COMMAND_CLASS_AT] = LESUNGKAP_CONTROL_CLASS;
    bytes[LESUNGKAP_COMMAND_NUMBER_AT] = command;
    return whole;
}

static inline unsigned lesungkap_test_command_(const uint8_t *bytes, size_t length, uint8_t command, size_t whole)
{
    if (length < LESUNGKAP_COMMAND_DATA_AT) {
        return LESUNGKAP_RECORD_LENGTH;
    }
    if (bytes[LESUNGKAP_COMMAND_CLASS_AT] != LESUNGKAP_CONTROL_CLASS || bytes[LESUNGKAP_COMMAND_NUMBER_AT] != command) {
        return LESUNGKAP_UNKNOWN;
    }
    return length == whole ? LESUNGKAP_DONE : LESUNGKAP_RECORD_LENGTH;
}

/* A command with one number. */
static inline size_t lesungkap_put_number_(uint8_t *bytes, size_t length, uint8_t command, uint32_t number)
{
    const size_t whole = lesungkap_put_command_(bytes, length, command, LESUNGKAP_NUMBER_COMMAND_BYTES);
    if (whole > 0) {
        lesungkap_put_le_(bytes + LESUNGKAP_COMMAND_DATA_AT, 4, number);
    }
    return whole;
}

static inline unsigned lesungkap_get_number_(const uint8_t *bytes, size_t length, uint8_t command, uint32_t *number)
{
    const unsigned answer = lesungkap_test_command_(bytes, length, command, LESUNGKAP_NUMBER_COMMAND_BYTES);
    if (answer == LESUNGKAP_DONE) {
        *number = lesungkap_get_32_(bytes + LESUNGKAP_COMMAND_DATA_AT);
    }
    return answer;
}

static inline size_t lesungkap_put_query_device(uint8_t *bytes, size_t length)
{
    return lesungkap_put_command_(bytes, length, LESUNGKAP_QUERY_DEVICE, LESUNGKAP_QUERY_DEVICE_BYTES);
}

static inline unsigned lesungkap_get_query_device(const uint8_t *bytes, size_t length)
{
    return lesungkap_test_command_(bytes, length, LESUNGKAP_QUERY_DEVICE, LESUNGKAP_QUERY_DEVICE_BYTES);
}

static inline size_t lesungkap_put_query_port(uint8_t *bytes, size_t length)
{
    return lesungkap_put_command_(bytes, length, LESUNGKAP_QUERY_PORT, LESUNGKAP_QUERY_PORT_BYTES);
}

static inline unsigned lesungkap_get_query_port(const uint8_t *bytes, size_t length)
{
    return lesungkap_test_command_(bytes, length, LESUNGKAP_QUERY_PORT, LESUNGKAP_QUERY_PORT_BYTES);
}

static inline size_t lesungkap_put_create_cq(uint8_t *bytes, size_t length, const struct lesungkap_create_cq *data)
{
    return lesungkap_put_number_(bytes, length, LESUNGKAP_CREATE_CQ, data->places);
}

static inline unsigned lesungkap_get_create_cq(const uint8_t *bytes, size_t length, struct lesungkap_create_cq *data)
{
    return lesungkap_get_number_(bytes, length, LESUNGKAP_CREATE_CQ, &data->places);
}

static inline size_t lesungkap_put_destroy_cq(uint8_t *bytes, size_t length, const struct lesungkap_destroy_cq *data)
{
    return lesungkap_put_number_(bytes, length, LESUNGKAP_DESTROY_CQ, data->cqn);
}

static inline unsigned lesungkap_get_destroy_cq(const uint8_t *bytes, size_t length, struct lesungkap_destroy_cq *data)
{
    return lesungkap_get_number_(bytes, length, LESUNGKAP_DESTROY_CQ, &data->cqn);
}

static inline size_t lesungkap_put_create_pd(uint8_t *bytes, size_t length)
{
    return lesungkap_put_command_(bytes, length, LESUNGKAP_CREATE_PD, LESUNGKAP_CREATE_PD_BYTES);
}

static inline unsigned lesungkap_get_create_pd(const uint8_t *bytes, size_t length)
{
    return lesungkap_test_command_(bytes, length, LESUNGKAP_CREATE_PD, LESUNGKAP_CREATE_PD_BYTES);
}

static inline size_t lesungkap_put_destroy_pd(uint8_t *bytes, size_t length, const struct lesungkap_destroy_pd *data)
{
    return lesungkap_put_number_(bytes, length, LESUNGKAP_DESTROY_PD, data->pdn);
}

static inline unsigned lesungkap_get_destroy_pd(const uint8_t *bytes, size_t length, struct lesungkap_destroy_pd *data)
{
    return lesungkap_get_number_(bytes, length, LESUNGKAP_DESTROY_PD, &data->pdn);
}

static inline size_t lesungkap_put_register_mr(uint8_t *bytes, size_t length, const struct lesungkap_register_mr *data)
{
    const size_t whole = lesungkap_put_command_(bytes, length, LESUNGKAP_REGISTER_MR, LESUNGKAP_REGISTER_MR_BYTES);
    if (whole > 0) {
        lesungkap_put_le_(bytes + LESUNGKAP_COMMAND_DATA_AT, 4, data->pdn);
        lesungkap_put_le_(bytes + LESUNGKAP_REGISTER_MR_ACCESS_AT, 4, data->access);
        lesungkap_put_le_(bytes + LESUNGKAP_REGISTER_MR_START_AT, 8, data->start);
        lesungkap_put_le_(bytes + LESUNGKAP_REGISTER_MR_LENGTH_AT, 8, data->length);
        lesungkap_put_le_(bytes + LESUNGKAP_REGISTER_MR_VIRT_AT, 8, data->virt);
    }
    return whole;
}

static inline unsigned lesungkap_get_register_mr(const uint8_t *bytes, size_t length, struct lesungkap_register_mr *data)
{
    const unsigned answer = lesungkap_test_command_(bytes, length, LESUNGKAP_REGISTER_MR, LESUNGKAP_REGISTER_MR_BYTES);
    if (answer == LESUNGKAP_DONE) {
        data->pdn = lesungkap_get_32_(bytes + LESUNGKAP_COMMAND_DATA_AT);
        data->access = lesungkap_get_32_(bytes + LESUNGKAP_REGISTER_MR_ACCESS_AT);
        data->start = lesungkap_get_le_(bytes + LESUNGKAP_REGISTER_MR_START_AT, 8);
        data->length = lesungkap_get_le_(bytes + LESUNGKAP_REGISTER_MR_LENGTH_AT, 8);
        data->virt = lesungkap_get_le_(bytes + LESUNGKAP_REGISTER_MR_VIRT_AT, 8);
    }
    return answer;
}

static inline size_t lesungkap_put_deregister_mr(uint8_t *bytes, size_t length, const struct lesungkap_deregister_mr *data)
{
    return lesungkap_put_number_(bytes, length, LESUNGKAP_DEREGISTER_MR, data->mrn);
}

static inline unsigned lesungkap_get_deregister_mr(const uint8_t *bytes, size_t length, struct lesungkap_deregister_mr *data)
{
    return lesungkap_get_number_(bytes, length, LESUNGKAP_DEREGISTER_MR, &data->mrn);
}

static inline size_t lesungkap_put_create_qp(uint8_t *bytes, size_t length, const struct lesungkap_create_qp *data)
{
    const size_t whole = lesungkap_put_command_(bytes, length, LESUNGKAP_CREATE_QP, LESUNGKAP_CREATE_QP_BYTES);
    if (whole > 0) {
        lesungkap_put_le_(bytes + LESUNGKAP_COMMAND_DATA_AT, 4, data->pdn);
        bytes[LESUNGKAP_CREATE_QP_TYPE_AT] = data->type;
        bytes[LESUNGKAP_CREATE_QP_SIGNAL_AT] = data->signal;
        lesungkap_put_le_(bytes + LESUNGKAP_CREATE_QP_SEND_CQN_AT, 4, data->send_cqn);
        lesungkap_put_le_(bytes + LESUNGKAP_CREATE_QP_RECEIVE_CQN_AT, 4, data->receive_cqn);
    }
    return whole;
}

static inline unsigned lesungkap_get_create_qp(const uint8_t *bytes, size_t length, struct lesungkap_create_qp *data)
{
    const unsigned answer = lesungkap_test_command_(bytes, length, LESUNGKAP_CREATE_QP, LESUNGKAP_CREATE_QP_BYTES);
    if (answer == LESUNGKAP_DONE) {
        data->pdn = lesungkap_get_32_(bytes + LESUNGKAP_COMMAND_DATA_AT);
        data->type = bytes[LESUNGKAP_CREATE_QP_TYPE_AT];
        data->signal = bytes[LESUNGKAP_CREATE_QP_SIGNAL_AT];
        data->send_cqn = lesungkap_get_32_(bytes + LESUNGKAP_CREATE_QP_SEND_CQN_AT);
        data->receive_cqn = lesungkap_get_32_(bytes + LESUNGKAP_CREATE_QP_RECEIVE_CQN_AT);
    }
    return answer;
}

static inline size_t lesungkap_put_modify_qp(uint8_t *bytes, size_t length, const struct lesungkap_modify_qp *data)
{
    const size_t whole = lesungkap_put_command_(bytes, length, LESUNGKAP_MODIFY_QP, LESUNGKAP_MODIFY_QP_BYTES);
    if (whole > 0) {
        lesungkap_put_le_(bytes + LESUNGKAP_COMMAND_DATA_AT, 4, data->qpn);
        lesungkap_put_le_(bytes + LESUNGKAP_MODIFY_QP_MASK_AT, 4, data->mask);
        bytes[LESUNGKAP_MODIFY_QP_STATE_AT] = data->state;
        memcpy(bytes + LESUNGKAP_MODIFY_QP_ZERO_AT, data->zero, sizeof data->zero);
        lesungkap_put_le_(bytes + LESUNGKAP_MODIFY_QP_DESTINATION_AT, 4, data->destination);
        lesungkap_put_le_(bytes + LESUNGKAP_MODIFY_QP_ACCESS_FLAGS_AT, 4, data->access_flags);
    }
    return whole;
}

static inline unsigned lesungkap_get_modify_qp(const uint8_t *bytes, size_t length, struct lesungkap_modify_qp *data)
{
    const unsigned answer = lesungkap_test_command_(bytes, length, LESUNGKAP_MODIFY_QP, LESUNGKAP_MODIFY_QP_BYTES);
    if (answer == LESUNGKAP_DONE) {
        data->qpn = lesungkap_get_32_(bytes + LESUNGKAP_COMMAND_DATA_AT);
        data->mask = lesungkap_get_32_(bytes + LESUNGKAP_MODIFY_QP_MASK_AT);
        data->state = bytes[LESUNGKAP_MODIFY_QP_STATE_AT];
        memcpy(data->zero, bytes + LESUNGKAP_MODIFY_QP_ZERO_AT, sizeof data->zero);
        data->destination = lesungkap_get_32_(bytes + LESUNGKAP_MODIFY_QP_DESTINATION_AT);
        data->access_flags = lesungkap_get_32_(bytes + LESUNGKAP_MODIFY_QP_ACCESS_FLAGS_AT);
    }
    return answer;
}

static inline size_t lesungkap_put_destroy_qp(uint8_t *bytes, size_t length, const struct lesungkap_destroy_qp *data)
{
    return lesungkap_put_number_(bytes, length, LESUNGKAP_DESTROY_QP, data->qpn);
}

static inline unsigned lesungkap_get_destroy_qp(const uint8_t *bytes, size_t length, struct lesungkap_destroy_qp *data)
{
    return lesungkap_get_number_(bytes, length, LESUNGKAP_DESTROY_QP, &data->qpn);
}

/* ---- put and get: acks */

/* The least length of lesungkap_control's ack buffer for this command, whatever its bytes: the first two tell. A page list asks for
 * LESUNGKAP_ACK_BYTES. */
static inline size_t lesungkap_ack_need(const uint8_t *command, size_t length)
{
    if (length < LESUNGKAP_COMMAND_DATA_AT || command[LESUNGKAP_COMMAND_CLASS_AT] != LESUNGKAP_CONTROL_CLASS) {
        return LESUNGKAP_ACK_BYTES;
    }
    switch (command[LESUNGKAP_COMMAND_NUMBER_AT]) {
    case LESUNGKAP_QUERY_DEVICE: return LESUNGKAP_DEVICE_ACK_BYTES;
    case LESUNGKAP_QUERY_PORT: return LESUNGKAP_PORT_ACK_BYTES;
    default: return LESUNGKAP_ACK_BYTES;
    }
}

/* An ack that carries nothing, and the first byte of every ack: LESUNGKAP_ACK_OK or LESUNGKAP_ACK_ERROR. */
static inline size_t lesungkap_put_ack(uint8_t *bytes, size_t length, uint8_t ack)
{
    if (length < LESUNGKAP_EMPTY_ACK_BYTES) {
        return 0;
    }
    bytes[LESUNGKAP_ACK_BYTE_AT] = ack;
    return LESUNGKAP_EMPTY_ACK_BYTES;
}

static inline unsigned lesungkap_get_ack_(const uint8_t *bytes, size_t length, size_t whole)
{
    if (length < whole) {
        return LESUNGKAP_RECORD_LENGTH;
    }
    return bytes[LESUNGKAP_ACK_BYTE_AT] == LESUNGKAP_ACK_OK ? LESUNGKAP_DONE : LESUNGKAP_BAD_FIELD;
}

static inline unsigned lesungkap_get_ack(const uint8_t *bytes, size_t length)
{
    return lesungkap_get_ack_(bytes, length, LESUNGKAP_EMPTY_ACK_BYTES);
}

static inline size_t lesungkap_put_number_ack_(uint8_t *bytes, size_t length, uint32_t number)
{
    if (length < LESUNGKAP_NUMBER_ACK_BYTES) {
        return 0;
    }
    bytes[LESUNGKAP_ACK_BYTE_AT] = LESUNGKAP_ACK_OK;
    lesungkap_put_le_(bytes + LESUNGKAP_ACK_NUMBER_AT, 4, number);
    return LESUNGKAP_NUMBER_ACK_BYTES;
}

static inline unsigned lesungkap_get_number_ack_(const uint8_t *bytes, size_t length, uint32_t *number)
{
    const unsigned answer = lesungkap_get_ack_(bytes, length, LESUNGKAP_NUMBER_ACK_BYTES);
    if (answer == LESUNGKAP_DONE) {
        *number = lesungkap_get_32_(bytes + LESUNGKAP_ACK_NUMBER_AT);
    }
    return answer;
}

static inline size_t lesungkap_put_create_cq_ack(uint8_t *bytes, size_t length, const struct lesungkap_create_cq_ack *ack)
{
    return lesungkap_put_number_ack_(bytes, length, ack->cqn);
}

static inline unsigned lesungkap_get_create_cq_ack(const uint8_t *bytes, size_t length, struct lesungkap_create_cq_ack *ack)
{
    return lesungkap_get_number_ack_(bytes, length, &ack->cqn);
}

static inline size_t lesungkap_put_create_pd_ack(uint8_t *bytes, size_t length, const struct lesungkap_create_pd_ack *ack)
{
    return lesungkap_put_number_ack_(bytes, length, ack->pdn);
}

static inline unsigned lesungkap_get_create_pd_ack(const uint8_t *bytes, size_t length, struct lesungkap_create_pd_ack *ack)
{
    return lesungkap_get_number_ack_(bytes, length, &ack->pdn);
}

static inline size_t lesungkap_put_create_qp_ack(uint8_t *bytes, size_t length, const struct lesungkap_create_qp_ack *ack)
{
    return lesungkap_put_number_ack_(bytes, length, ack->qpn);
}

static inline unsigned lesungkap_get_create_qp_ack(const uint8_t *bytes, size_t length, struct lesungkap_create_qp_ack *ack)
{
    return lesungkap_get_number_ack_(bytes, length, &ack->qpn);
}

static inline size_t lesungkap_put_register_mr_ack(uint8_t *bytes, size_t length, const struct lesungkap_register_mr_ack *ack)
{
    if (length < LESUNGKAP_KEYS_ACK_BYTES) {
        return 0;
    }
    bytes[LESUNGKAP_ACK_BYTE_AT] = LESUNGKAP_ACK_OK;
    lesungkap_put_le_(bytes + LESUNGKAP_ACK_NUMBER_AT, 4, ack->mrn);
    lesungkap_put_le_(bytes + LESUNGKAP_ACK_LKEY_AT, 4, ack->lkey);
    lesungkap_put_le_(bytes + LESUNGKAP_ACK_RKEY_AT, 4, ack->rkey);
    return LESUNGKAP_KEYS_ACK_BYTES;
}

static inline unsigned lesungkap_get_register_mr_ack(const uint8_t *bytes, size_t length, struct lesungkap_register_mr_ack *ack)
{
    const unsigned answer = lesungkap_get_ack_(bytes, length, LESUNGKAP_KEYS_ACK_BYTES);
    if (answer == LESUNGKAP_DONE) {
        ack->mrn = lesungkap_get_32_(bytes + LESUNGKAP_ACK_NUMBER_AT);
        ack->lkey = lesungkap_get_32_(bytes + LESUNGKAP_ACK_LKEY_AT);
        ack->rkey = lesungkap_get_32_(bytes + LESUNGKAP_ACK_RKEY_AT);
    }
    return answer;
}

static inline size_t lesungkap_put_query_device_ack(uint8_t *bytes, size_t length, const struct lesungkap_query_device_ack *ack)
{
    if (length < LESUNGKAP_DEVICE_ACK_BYTES) {
        return 0;
    }
    memset(bytes, 0, LESUNGKAP_DEVICE_ACK_BYTES);
    lesungkap_put_le_(bytes + LESUNGKAP_DEVICE_FLAGS_AT, 8, ack->device_cap_flags);
    lesungkap_put_le_(bytes + LESUNGKAP_DEVICE_MR_SIZE_AT, 8, ack->max_mr_size);
    lesungkap_put_le_(bytes + LESUNGKAP_DEVICE_PAGE_SIZE_AT, 8, ack->page_size_cap);
    lesungkap_put_le_(bytes + LESUNGKAP_DEVICE_HW_VER_AT, 4, ack->hw_ver);
    lesungkap_put_le_(bytes + LESUNGKAP_DEVICE_QP_WR_AT, 4, ack->max_qp_wr);
    lesungkap_put_le_(bytes + LESUNGKAP_DEVICE_SEND_SGE_AT, 4, ack->max_send_sge);
    lesungkap_put_le_(bytes + LESUNGKAP_DEVICE_RECV_SGE_AT, 4, ack->max_recv_sge);
    lesungkap_put_le_(bytes + LESUNGKAP_DEVICE_SGE_RD_AT, 4, ack->max_sge_rd);
    lesungkap_put_le_(bytes + LESUNGKAP_DEVICE_CQE_AT, 4, ack->max_cqe);
    lesungkap_put_le_(bytes + LESUNGKAP_DEVICE_MR_AT, 4, ack->max_mr);
    lesungkap_put_le_(bytes + LESUNGKAP_DEVICE_PD_AT, 4, ack->max_pd);
    lesungkap_put_le_(bytes + LESUNGKAP_DEVICE_QP_RD_ATOM_AT, 4, ack->max_qp_rd_atom);
    lesungkap_put_le_(bytes + LESUNGKAP_DEVICE_QP_INIT_RD_ATOM_AT, 4, ack->max_qp_init_rd_atom);
    lesungkap_put_le_(bytes + LESUNGKAP_DEVICE_AH_AT, 4, ack->max_ah);
    bytes[LESUNGKAP_DEVICE_ACK_DELAY_AT] = ack->local_ca_ack_delay;
    return LESUNGKAP_DEVICE_ACK_BYTES;
}

static inline unsigned lesungkap_get_query_device_ack(const uint8_t *bytes, size_t length, struct lesungkap_query_device_ack *ack)
{
    const unsigned answer = lesungkap_get_ack_(bytes, length, LESUNGKAP_DEVICE_ACK_BYTES);
    if (answer == LESUNGKAP_DONE) {
        ack->device_cap_flags = lesungkap_get_le_(bytes + LESUNGKAP_DEVICE_FLAGS_AT, 8);
        ack->max_mr_size = lesungkap_get_le_(bytes + LESUNGKAP_DEVICE_MR_SIZE_AT, 8);
        ack->page_size_cap = lesungkap_get_le_(bytes + LESUNGKAP_DEVICE_PAGE_SIZE_AT, 8);
        ack->hw_ver = lesungkap_get_32_(bytes + LESUNGKAP_DEVICE_HW_VER_AT);
        ack->max_qp_wr = lesungkap_get_32_(bytes + LESUNGKAP_DEVICE_QP_WR_AT);
        ack->max_send_sge = lesungkap_get_32_(bytes + LESUNGKAP_DEVICE_SEND_SGE_AT);
        ack->max_recv_sge = lesungkap_get_32_(bytes + LESUNGKAP_DEVICE_RECV_SGE_AT);
        ack->max_sge_rd = lesungkap_get_32_(bytes + LESUNGKAP_DEVICE_SGE_RD_AT);
        ack->max_cqe = lesungkap_get_32_(bytes + LESUNGKAP_DEVICE_CQE_AT);
        ack->max_mr = lesungkap_get_32_(bytes + LESUNGKAP_DEVICE_MR_AT);
        ack->max_pd = lesungkap_get_32_(bytes + LESUNGKAP_DEVICE_PD_AT);
        ack->max_qp_rd_atom = lesungkap_get_32_(bytes + LESUNGKAP_DEVICE_QP_RD_ATOM_AT);
        ack->max_qp_init_rd_atom = lesungkap_get_32_(bytes + LESUNGKAP_DEVICE_QP_INIT_RD_ATOM_AT);
        ack->max_ah = lesungkap_get_32_(bytes + LESUNGKAP_DEVICE_AH_AT);
        ack->local_ca_ack_delay = bytes[LESUNGKAP_DEVICE_ACK_DELAY_AT];
    }
    return answer;
}

static inline size_t lesungkap_put_query_port_ack(uint8_t *bytes, size_t length, const struct lesungkap_query_port_ack *ack)
{
    if (length < LESUNGKAP_PORT_ACK_BYTES) {
        return 0;
    }
    memset(bytes, 0, LESUNGKAP_PORT_ACK_BYTES);
    lesungkap_put_le_(bytes + LESUNGKAP_PORT_GID_TABLE_AT, 4, ack->gid_tbl_len);
    lesungkap_put_le_(bytes + LESUNGKAP_PORT_MESSAGE_SIZE_AT, 4, ack->max_msg_sz);
    return LESUNGKAP_PORT_ACK_BYTES;
}

static inline unsigned lesungkap_get_query_port_ack(const uint8_t *bytes, size_t length, struct lesungkap_query_port_ack *ack)
{
    const unsigned answer = lesungkap_get_ack_(bytes, length, LESUNGKAP_PORT_ACK_BYTES);
    if (answer == LESUNGKAP_DONE) {
        ack->gid_tbl_len = lesungkap_get_32_(bytes + LESUNGKAP_PORT_GID_TABLE_AT);
        ack->max_msg_sz = lesungkap_get_32_(bytes + LESUNGKAP_PORT_MESSAGE_SIZE_AT);
    }
    return answer;
}

#ifdef __cplusplus
}
#endif

#endif
