/* Lesungkap's records: what a caller lends to a call and gets from it, as structs, with a put and a get for each. Included by lesungkap.h.
 *
 *   size_t lesungkap_put_X(uint8_t *bytes, size_t length, const struct lesungkap_X *x)
 *       writes x and returns how many bytes it took; bytes that no field names are written as 0. Returns 0 and writes nothing where x
 *       does not fit into length, has more entries or inline bytes than its record can hold, or inline bytes at NULL. Nothing else is
 *       judged: that is the call's work.
 *   unsigned lesungkap_get_X(const uint8_t *bytes, size_t length, struct lesungkap_X *x)
 *       reads x and returns LESUNGKAP_DONE, or the answer of the test that the bytes do not pass, and then leaves x as it was. A send or
 *       receive record has the card's own tests (LESUNGKAP_RECORD_LENGTH, LESUNGKAP_BAD_FIELD). A command is LESUNGKAP_UNKNOWN where it
 *       is another one. An ack is LESUNGKAP_RECORD_LENGTH where it is too short, LESUNGKAP_BAD_FIELD where its first byte isn't 0.
 *
 * Numbers are little-endian. Offsets count from the record's first byte; bytes of a record that no offset names are ignored.
 */
#ifndef LESUNGKAP_RECORDS_H
#define LESUNGKAP_RECORDS_H

#include "lesungkap_numbers.h"

#include <string.h>

#ifdef __cplusplus
extern "C" {
#endif

/* ---- offsets and lengths in bytes */

enum {
    LESUNGKAP_SGE_ADDRESS_AT = 0,
    LESUNGKAP_SGE_LENGTH_AT = 8,
    LESUNGKAP_SGE_KEY_AT = 12,
    LESUNGKAP_SGE_BYTES = 16,

    LESUNGKAP_SEND_WR_ID_AT = 0,
    LESUNGKAP_SEND_OPCODE_AT = 8,
    LESUNGKAP_SEND_FLAGS_AT = 9,
    LESUNGKAP_SEND_IMMEDIATE_AT = 12,
    LESUNGKAP_SEND_REMOTE_ADDRESS_AT = 16,
    LESUNGKAP_SEND_REMOTE_KEY_AT = 24,
    LESUNGKAP_SEND_INLINE_AT = 48,
    LESUNGKAP_SEND_COUNT_AT = 560, /* 4 bytes; of an inline length 2 */
    LESUNGKAP_SEND_BYTES = 576,    /* the entries follow; none with inline bytes */
    LESUNGKAP_SEND_MOST_BYTES = LESUNGKAP_SEND_BYTES + LESUNGKAP_SEND_MOST_SGES * LESUNGKAP_SGE_BYTES,

    LESUNGKAP_RECEIVE_WR_ID_AT = 0,
    LESUNGKAP_RECEIVE_COUNT_AT = 8,
    LESUNGKAP_RECEIVE_BYTES = 24, /* the entries follow */
    LESUNGKAP_RECEIVE_MOST_BYTES = LESUNGKAP_RECEIVE_BYTES + LESUNGKAP_RECEIVE_MOST_SGES * LESUNGKAP_SGE_BYTES,

    LESUNGKAP_COMPLETION_WR_ID_AT = 0,
    LESUNGKAP_COMPLETION_STATUS_AT = 8,
    LESUNGKAP_COMPLETION_OPCODE_AT = 9,
    LESUNGKAP_COMPLETION_BYTE_LENGTH_AT = 12,
    LESUNGKAP_COMPLETION_IMMEDIATE_AT = 16,
    LESUNGKAP_COMPLETION_QPN_AT = 20,
    LESUNGKAP_COMPLETION_BYTES = 24 /* least length of a poll's buffer */
};

/* ---- work requests and completions */

/* A scatter/gather entry: length bytes from address on, under key. One of no bytes looks at neither address nor key.
 *
 * A byte is permitted to a queue pair if a live region has exactly this key and the queue pair's domain, the address is in it, and its
 * access grants the use: LESUNGKAP_LOCAL_WRITE for a read's own entries and a receive's, LESUNGKAP_REMOTE_WRITE and LESUNGKAP_REMOTE_READ
 * for a remote range, which is judged in the peer's domain and needs the same bit in the peer's access flags, nothing for the own entries of
 * writes and sends. Sums never wrap. */
struct lesungkap_sge {
    uint64_t address;
    uint32_t length;
    uint32_t key;
};

/* A send record: a work request. */
struct lesungkap_send {
    uint64_t wr_id; /* any number; the completion has it */
    uint8_t opcode;
    uint8_t flags;
    uint32_t immediate;      /* for the receiver's completion; of opcodes with immediate */
    uint64_t remote_address; /* of writes and reads */
    uint32_t remote_key;
    uint32_t count; /* of the entries; with LESUNGKAP_FLAG_INLINE of the inline bytes */
    struct lesungkap_sge sges[LESUNGKAP_SEND_MOST_SGES];
    const uint8_t *inline_bytes; /* get points into the record, or to NULL without the flag */
};

/* A receive record. */
struct lesungkap_receive {
    uint64_t wr_id;
    uint32_t count;
    struct lesungkap_sge sges[LESUNGKAP_RECEIVE_MOST_SGES];
};

struct lesungkap_completion {
    uint64_t wr_id; /* of the send or receive record */
    uint8_t status;
    uint8_t opcode;
    uint32_t byte_length; /* of the message; 0 unless the status is LESUNGKAP_SUCCESS */
    uint32_t immediate;   /* of a receive that succeeded, from an opcode with immediate; else 0 */
    uint32_t qpn;         /* whose send or receive it was */
};

/* ---- numbers; names that end in _ are this header's own */

static inline void lesungkap_put_le_(uint8_t *bytes, size_t width, uint64_t number)
{
    for (size_t n = 0; n < width; n++) {
        bytes[n] = (uint8_t)(number >> (8 * n));
    }
}

static inline uint64_t lesungkap_get_le_(const uint8_t *bytes, size_t width)
{
    uint64_t number = 0;
    for (size_t n = 0; n < width; n++) {
        number |= (uint64_t)bytes[n] << (8 * n);
    }
    return number;
}

static inline uint32_t lesungkap_get_32_(const uint8_t *bytes) { return (uint32_t)lesungkap_get_le_(bytes, 4); }

/* ---- put and get: work requests and completions */

static inline size_t lesungkap_put_sge(uint8_t *bytes, size_t length, const struct lesungkap_sge *sge)
{
    if (length < LESUNGKAP_SGE_BYTES) {
        return 0;
    }
    lesungkap_put_le_(bytes + LESUNGKAP_SGE_ADDRESS_AT, 8, sge->address);
    lesungkap_put_le_(bytes + LESUNGKAP_SGE_LENGTH_AT, 4, sge->length);
    lesungkap_put_le_(bytes + LESUNGKAP_SGE_KEY_AT, 4, sge->key);
    return LESUNGKAP_SGE_BYTES;
}

static inline unsigned lesungkap_get_sge(const uint8_t *bytes, size_t length, struct lesungkap_sge *sge)
{
    if (length < LESUNGKAP_SGE_BYTES) {
        return LESUNGKAP_RECORD_LENGTH;
    }
    sge->address = lesungkap_get_le_(bytes + LESUNGKAP_SGE_ADDRESS_AT, 8);
    sge->length = lesungkap_get_32_(bytes + LESUNGKAP_SGE_LENGTH_AT);
    sge->key = lesungkap_get_32_(bytes + LESUNGKAP_SGE_KEY_AT);
    return LESUNGKAP_DONE;
}

/* The entries of a record; get sets those of the array that the record does not have to 0. */
static inline void lesungkap_put_sges_(uint8_t *bytes, const struct lesungkap_sge *sges, size_t count)
{
    for (size_t n = 0; n < count; n++) {
        lesungkap_put_sge(bytes + n * LESUNGKAP_SGE_BYTES, LESUNGKAP_SGE_BYTES, sges + n);
    }
}

static inline void lesungkap_get_sges_(const uint8_t *bytes, struct lesungkap_sge *sges, size_t count, size_t most)
{
    memset(sges, 0, most * sizeof *sges);
    for (size_t n = 0; n < count; n++) {
        lesungkap_get_sge(bytes + n * LESUNGKAP_SGE_BYTES, LESUNGKAP_SGE_BYTES, sges + n);
    }
}

static inline size_t lesungkap_put_send(uint8_t *bytes, size_t length, const struct lesungkap_send *send)
{
    const size_t in_line = send->flags & LESUNGKAP_FLAG_INLINE ? send->count : 0;
    const size_t sges = send->flags & LESUNGKAP_FLAG_INLINE ? 0 : send->count;
    if (in_line > LESUNGKAP_MOST_INLINE || (in_line > 0 && send->inline_bytes == NULL) || sges > LESUNGKAP_SEND_MOST_SGES ||
        length < LESUNGKAP_SEND_BYTES + sges * LESUNGKAP_SGE_BYTES) {
        return 0;
    }
    memset(bytes, 0, LESUNGKAP_SEND_BYTES);
    lesungkap_put_le_(bytes + LESUNGKAP_SEND_WR_ID_AT, 8, send->wr_id);
    bytes[LESUNGKAP_SEND_OPCODE_AT] = send->opcode;
    bytes[LESUNGKAP_SEND_FLAGS_AT] = send->flags;
    lesungkap_put_le_(bytes + LESUNGKAP_SEND_IMMEDIATE_AT, 4, send->immediate);
    lesungkap_put_le_(bytes + LESUNGKAP_SEND_REMOTE_ADDRESS_AT, 8, send->remote_address);
    lesungkap_put_le_(bytes + LESUNGKAP_SEND_REMOTE_KEY_AT, 4, send->remote_key);
    lesungkap_put_le_(bytes + LESUNGKAP_SEND_COUNT_AT, 4, send->count);
    if (in_line > 0) {
        memcpy(bytes + LESUNGKAP_SEND_INLINE_AT, send->inline_bytes, in_line);
    }
    lesungkap_put_sges_(bytes + LESUNGKAP_SEND_BYTES, send->sges, sges);
    return LESUNGKAP_SEND_BYTES + sges * LESUNGKAP_SGE_BYTES;
}

/* Whether post send takes this opcode, these flags and this many entries or inline bytes. */
static inline unsigned lesungkap_test_kind_(uint8_t opcode, uint8_t flags, uint32_t count)
{
    const int has_inline = flags & LESUNGKAP_FLAG_INLINE;
    const uint32_t most = has_inline ? (uint32_t)LESUNGKAP_MOST_INLINE : (uint32_t)LESUNGKAP_SEND_MOST_SGES;
    const int bad = opcode > LESUNGKAP_READ || flags >= 2 * LESUNGKAP_FLAG_INLINE || (has_inline && opcode == LESUNGKAP_READ) || count > most;
    return bad ? LESUNGKAP_BAD_FIELD : LESUNGKAP_DONE;
}

/* The tests of post send on the record alone, in their order. */
static inline unsigned lesungkap_test_send_(const uint8_t *bytes, size_t length, uint32_t *count)
{
    if (length < LESUNGKAP_SEND_BYTES) {
        return LESUNGKAP_RECORD_LENGTH;
    }
    const uint8_t flags = bytes[LESUNGKAP_SEND_FLAGS_AT];
    const int has_inline = flags & LESUNGKAP_FLAG_INLINE;
    *count = (uint32_t)lesungkap_get_le_(bytes + LESUNGKAP_SEND_COUNT_AT, has_inline ? 2 : 4);
    if (lesungkap_test_kind_(bytes[LESUNGKAP_SEND_OPCODE_AT], flags, *count) != LESUNGKAP_DONE) {
        return LESUNGKAP_BAD_FIELD;
    }
    const size_t sges = has_inline ? 0 : *count;
    return length == LESUNGKAP_SEND_BYTES + sges * LESUNGKAP_SGE_BYTES ? LESUNGKAP_DONE : LESUNGKAP_RECORD_LENGTH;
}

/* A record of this opcode, these flags and this many entries or inline bytes, which have passed the tests. */
static inline void lesungkap_read_send_(const uint8_t *bytes, uint8_t opcode, uint8_t flags, uint32_t count, struct lesungkap_send *send)
{
    send->wr_id = lesungkap_get_le_(bytes + LESUNGKAP_SEND_WR_ID_AT, 8);
    send->opcode = opcode;
    send->flags = flags;
    send->immediate = lesungkap_get_32_(bytes + LESUNGKAP_SEND_IMMEDIATE_AT);
    send->remote_address = lesungkap_get_le_(bytes + LESUNGKAP_SEND_REMOTE_ADDRESS_AT, 8);
    send->remote_key = lesungkap_get_32_(bytes + LESUNGKAP_SEND_REMOTE_KEY_AT);
    send->count = count;
    const int has_inline = flags & LESUNGKAP_FLAG_INLINE;
    send->inline_bytes = has_inline ? bytes + LESUNGKAP_SEND_INLINE_AT : NULL;
    lesungkap_get_sges_(bytes + LESUNGKAP_SEND_BYTES, send->sges, has_inline ? 0 : count, LESUNGKAP_SEND_MOST_SGES);
}

static inline unsigned lesungkap_get_send(const uint8_t *bytes, size_t length, struct lesungkap_send *send)
{
    uint32_t count = 0;
    const unsigned answer = lesungkap_test_send_(bytes, length, &count);
    if (answer == LESUNGKAP_DONE) {
        lesungkap_read_send_(bytes, bytes[LESUNGKAP_SEND_OPCODE_AT], bytes[LESUNGKAP_SEND_FLAGS_AT], count, send);
    }
    return answer;
}

static inline size_t lesungkap_put_receive(uint8_t *bytes, size_t length, const struct lesungkap_receive *receive)
{
    const size_t sges = receive->count;
    if (sges > LESUNGKAP_RECEIVE_MOST_SGES || length < LESUNGKAP_RECEIVE_BYTES + sges * LESUNGKAP_SGE_BYTES) {
        return 0;
    }
    memset(bytes, 0, LESUNGKAP_RECEIVE_BYTES);
    lesungkap_put_le_(bytes + LESUNGKAP_RECEIVE_WR_ID_AT, 8, receive->wr_id);
    lesungkap_put_le_(bytes + LESUNGKAP_RECEIVE_COUNT_AT, 4, receive->count);
    lesungkap_put_sges_(bytes + LESUNGKAP_RECEIVE_BYTES, receive->sges, sges);
    return LESUNGKAP_RECEIVE_BYTES + sges * LESUNGKAP_SGE_BYTES;
}

static inline unsigned lesungkap_get_receive(const uint8_t *bytes, size_t length, struct lesungkap_receive *receive)
{
    if (length < LESUNGKAP_RECEIVE_BYTES) {
        return LESUNGKAP_RECORD_LENGTH;
    }
    const uint32_t count = lesungkap_get_32_(bytes + LESUNGKAP_RECEIVE_COUNT_AT);
    if (count > LESUNGKAP_RECEIVE_MOST_SGES) {
        return LESUNGKAP_BAD_FIELD;
    }
    if (length != LESUNGKAP_RECEIVE_BYTES + (size_t)count * LESUNGKAP_SGE_BYTES) {
        return LESUNGKAP_RECORD_LENGTH;
    }
    receive->wr_id = lesungkap_get_le_(bytes + LESUNGKAP_RECEIVE_WR_ID_AT, 8);
    receive->count = count;
    lesungkap_get_sges_(bytes + LESUNGKAP_RECEIVE_BYTES, receive->sges, count, LESUNGKAP_RECEIVE_MOST_SGES);
    return LESUNGKAP_DONE;
}

static inline size_t lesungkap_put_completion(uint8_t *bytes, size_t length, const struct lesungkap_completion *completion)
{
    if (length < LESUNGKAP_COMPLETION_BYTES) {
        return 0;
    }
    memset(bytes, 0, LESUNGKAP_COMPLETION_BYTES);
    lesungkap_put_le_(bytes + LESUNGKAP_COMPLETION_WR_ID_AT, 8, completion->wr_id);
    bytes[LESUNGKAP_COMPLETION_STATUS_AT] = completion->status;
    bytes[LESUNGKAP_COMPLETION_OPCODE_AT] = completion->opcode;
    lesungkap_put_le_(bytes + LESUNGKAP_COMPLETION_BYTE_LENGTH_AT, 4, completion->byte_length);
    lesungkap_put_le_(bytes + LESUNGKAP_COMPLETION_IMMEDIATE_AT, 4, completion->immediate);
    lesungkap_put_le_(bytes + LESUNGKAP_COMPLETION_QPN_AT, 4, completion->qpn);
    return LESUNGKAP_COMPLETION_BYTES;
}

static inline unsigned lesungkap_get_completion(const uint8_t *bytes, size_t length, struct lesungkap_completion *completion)
{
    if (length < LESUNGKAP_COMPLETION_BYTES) {
        return LESUNGKAP_RECORD_LENGTH;
    }
    completion->wr_id = lesungkap_get_le_(bytes + LESUNGKAP_COMPLETION_WR_ID_AT, 8);
    completion->status = bytes[LESUNGKAP_COMPLETION_STATUS_AT];
    completion->opcode = bytes[LESUNGKAP_COMPLETION_OPCODE_AT];
    completion->byte_length = lesungkap_get_32_(bytes + LESUNGKAP_COMPLETION_BYTE_LENGTH_AT);
    completion->immediate = lesungkap_get_32_(bytes + LESUNGKAP_COMPLETION_IMMEDIATE_AT);
    completion->qpn = lesungkap_get_32_(bytes + LESUNGKAP_COMPLETION_QPN_AT);
    return LESUNGKAP_DONE;
}

#ifdef __cplusplus
}
#endif

#endif
