/* Records calls and their answers as two replay tapes (docs/TAPE.md), so that an auditor can have them judged by the proved program
 * lesungkap-audit, or make the calls again with lesungkap-replay.
 *
 *     struct lesungkap_recorder recorder = lesungkap_record_to_files(calls, answers);
 *     .. lesungkap_reset, answered LESUNGKAP_DONE ..
 *     result = lesungkap_recorded_control(&recorder, state, sizeof state, command, length, ack, sizeof ack);
 *     .. and so on, each call of this card through its recorded function ..
 *     if (recorder.failed) ..
 *
 * A recorder belongs to one card from its reset on: a tape begins with a fresh card, so a reset answered LESUNGKAP_DONE asks for a new
 * recorder. A tape holds no memory: no answer depends on what memory holds, only on its length, which the auditor has to be told.
 * lesungkap-replay and lesungkap-audit take 1048576 bytes at most: tapes of a card with more can't be replayed.
 *
 * Some calls no tape can hold: those with a record over LESUNGKAP_TAPE_MOST_BODY bytes or a number over 255, and those answered
 * LESUNGKAP_MEMORY_LENGTH, LESUNGKAP_BUFFER_TOO_SHORT or LESUNGKAP_BAD_STATE. Each of them is refused and changes nothing, so the tapes
 * leave them out, and the other calls are answered as they were. Page lists, enqueues and turns no tape can hold either:
 * lesungkap_register_pages, lesungkap_enqueue and lesungkap_turn are left out where they are refused, and where one is done the tapes end, since
 * the calls after it would be answered otherwise.
 */
#ifndef LESUNGKAP_TAPE_H
#define LESUNGKAP_TAPE_H

#include "lesungkap.h"

#include <stdio.h>

#ifdef __cplusplus
extern "C" {
#endif

/* A record: two bytes of mark, kind or answer, number or status, two bytes of length, body. */
enum {
    LESUNGKAP_TAPE_CALL_MARK = 0x4b52,   /* bytes 52 4B */
    LESUNGKAP_TAPE_ANSWER_MARK = 0x6b72, /* bytes 72 6B */
    LESUNGKAP_TAPE_KIND_AT = 2,          /* of a call; of an answer: the answer */
    LESUNGKAP_TAPE_NUMBER_AT = 3,        /* of the queue pair or completion queue; of an answer: the status */
    LESUNGKAP_TAPE_LENGTH_AT = 4,
    LESUNGKAP_TAPE_HEADER_BYTES = 6,
    LESUNGKAP_TAPE_MOST_BODY = 640,
    LESUNGKAP_TAPE_CONTROL = 1,
    LESUNGKAP_TAPE_SEND = 2,
    LESUNGKAP_TAPE_RECEIVE = 3,
    LESUNGKAP_TAPE_POLL = 4,
    LESUNGKAP_TAPE_FLUSH = 5
};

/* Where a tape's bytes go: to a file, opened for binary writing, or else to a buffer of which the first used bytes are filled. */
struct lesungkap_tape {
    FILE *file;
    uint8_t *bytes;
    size_t size;
    size_t used;
};

struct lesungkap_recorder {
    struct lesungkap_tape calls;
    struct lesungkap_tape answers;
    uint64_t recorded; /* calls on the tapes */
    uint64_t left_out; /* calls that no tape can hold */
    int failed;        /* a record could not be written, or a call that no tape can hold was done; nothing was recorded from there on */
};

static inline struct lesungkap_recorder lesungkap_record_to_files(FILE *calls, FILE *answers)
{
    const struct lesungkap_recorder recorder = {{calls, NULL, 0, 0}, {answers, NULL, 0, 0}, 0, 0, 0};
    return recorder;
}

static inline struct lesungkap_recorder lesungkap_record_to_buffers(uint8_t *calls, size_t calls_size, uint8_t *answers,
                                                                    size_t answers_size)
{
    const struct lesungkap_recorder recorder = {{NULL, calls, calls_size, 0}, {NULL, answers, answers_size, 0}, 0, 0, 0};
    return recorder;
}

/* How many bytes of the ack a control command wrote that gave this result. */
static inline size_t lesungkap_ack_written(uint32_t result, const uint8_t *command)
{
    switch (lesungkap_answer(result)) {
    case LESUNGKAP_BUFFER_TOO_SHORT:
    case LESUNGKAP_BAD_STATE: return 0;
    case LESUNGKAP_DONE: break;
    default: return LESUNGKAP_EMPTY_ACK_BYTES;
    }
    switch (command[LESUNGKAP_COMMAND_NUMBER_AT]) {
    case LESUNGKAP_QUERY_DEVICE: return LESUNGKAP_DEVICE_ACK_BYTES;
    case LESUNGKAP_QUERY_PORT: return LESUNGKAP_PORT_ACK_BYTES;
    case LESUNGKAP_CREATE_CQ:
    case LESUNGKAP_CREATE_PD:
    case LESUNGKAP_CREATE_QP: return LESUNGKAP_NUMBER_ACK_BYTES;
    case LESUNGKAP_REGISTER_MR: return LESUNGKAP_KEYS_ACK_BYTES;
    default: return LESUNGKAP_EMPTY_ACK_BYTES;
    }
}

/* ---- records; names that end in _ are this header's own */

static inline int lesungkap_tape_has_room_(const struct lesungkap_tape *tape, size_t length)
{
    return tape->file != NULL || tape->size - tape->used >= length;
}

static inline int lesungkap_tape_append_(struct lesungkap_tape *tape, const uint8_t *bytes, size_t length)
{
    if (length == 0) {
        return 1;
    }
    if (tape->file != NULL) {
        return fwrite(bytes, 1, length, tape->file) == length;
    }
    memcpy(tape->bytes + tape->used, bytes, length);
    tape->used += length;
    return 1;
}

static inline int lesungkap_tape_record_(struct lesungkap_tape *tape, unsigned mark, unsigned third, unsigned fourth, const uint8_t *body,
                                         size_t length)
{
    uint8_t header[LESUNGKAP_TAPE_HEADER_BYTES];
    lesungkap_put_le_(header, 2, mark);
    header[LESUNGKAP_TAPE_KIND_AT] = (uint8_t)third;
    header[LESUNGKAP_TAPE_NUMBER_AT] = (uint8_t)fourth;
    lesungkap_put_le_(header + LESUNGKAP_TAPE_LENGTH_AT, 2, length);
    return lesungkap_tape_append_(tape, header, sizeof header) && lesungkap_tape_append_(tape, body, length);
}

/* Appends a call of this kind, on this queue pair or completion queue, with this record, and its answer with the bytes that it wrote.
 * For calls that were made already; the functions below make and record in one. */
static inline void lesungkap_record(struct lesungkap_recorder *recorder, unsigned kind, uint32_t number, const uint8_t *body,
                                    size_t length, uint32_t result, const uint8_t *written, size_t written_len)
{
    const unsigned answer = lesungkap_answer(result);
    if (recorder->failed) {
        return;
    }
    if (length > LESUNGKAP_TAPE_MOST_BODY || number > 255 || answer == LESUNGKAP_MEMORY_LENGTH || answer == LESUNGKAP_BUFFER_TOO_SHORT ||
        answer == LESUNGKAP_BAD_STATE) {
        recorder->left_out++;
        return;
    }
    if (lesungkap_tape_has_room_(&recorder->calls, LESUNGKAP_TAPE_HEADER_BYTES + length) &&
        lesungkap_tape_has_room_(&recorder->answers, LESUNGKAP_TAPE_HEADER_BYTES + written_len) &&
        lesungkap_tape_record_(&recorder->calls, LESUNGKAP_TAPE_CALL_MARK, kind, number, body, length) &&
        lesungkap_tape_record_(&recorder->answers, LESUNGKAP_TAPE_ANSWER_MARK, answer, lesungkap_status(result), written, written_len)) {
        recorder->recorded++;
    } else {
        recorder->failed = 1;
    }
}

/* ---- the calls, made and recorded: arguments and results are those of lesungkap.h */

static inline uint32_t lesungkap_recorded_control(struct lesungkap_recorder *recorder, uint8_t *state, size_t state_len,
                                                  const uint8_t *command, size_t command_len, uint8_t *ack, size_t ack_len)
{
    const uint32_t result = lesungkap_control(state, state_len, command, command_len, ack, ack_len);
    lesungkap_record(recorder, LESUNGKAP_TAPE_CONTROL, 0, command, command_len, result, ack, lesungkap_ack_written(result, command));
    return result;
}

/* A call that no tape has a kind for: refused, it is left out; done, it ends the tapes. */
static inline void lesungkap_record_none_(struct lesungkap_recorder *recorder, uint32_t result)
{
    if (lesungkap_answer(result) == LESUNGKAP_DONE) {
        recorder->failed = 1;
    } else if (!recorder->failed) {
        recorder->left_out++;
    }
}

/* Made, and never recorded, as the next two. */
static inline uint32_t lesungkap_recorded_register_pages(struct lesungkap_recorder *recorder, uint8_t *state, size_t state_len,
                                                         const uint8_t *command, size_t command_len, const uint64_t *pages,
                                                         size_t pages_len, uint8_t *ack, size_t ack_len)
{
    const uint32_t result = lesungkap_register_pages(state, state_len, command, command_len, pages, pages_len, ack, ack_len);
    lesungkap_record_none_(recorder, result);
    return result;
}

static inline uint32_t lesungkap_recorded_enqueue(struct lesungkap_recorder *recorder, uint8_t *state, size_t state_len,
                                                  const uint8_t *memory, size_t memory_len, uint32_t qpn, const uint8_t *record,
                                                  size_t record_len)
{
    const uint32_t result = lesungkap_enqueue(state, state_len, memory, memory_len, qpn, record, record_len);
    lesungkap_record_none_(recorder, result);
    return result;
}

static inline uint32_t lesungkap_recorded_turn(struct lesungkap_recorder *recorder, uint8_t *state, size_t state_len, uint8_t *memory,
                                               size_t memory_len)
{
    const uint32_t result = lesungkap_turn(state, state_len, memory, memory_len);
    lesungkap_record_none_(recorder, result);
    return result;
}

static inline uint32_t lesungkap_recorded_post_send(struct lesungkap_recorder *recorder, uint8_t *state, size_t state_len, uint8_t *memory,
                                                    size_t memory_len, uint32_t qpn, const uint8_t *record, size_t record_len)
{
    const uint32_t result = lesungkap_post_send(state, state_len, memory, memory_len, qpn, record, record_len);
    lesungkap_record(recorder, LESUNGKAP_TAPE_SEND, qpn, record, record_len, result, NULL, 0);
    return result;
}

static inline uint32_t lesungkap_recorded_post_receive(struct lesungkap_recorder *recorder, uint8_t *state, size_t state_len, uint32_t qpn,
                                                       const uint8_t *record, size_t record_len)
{
    const uint32_t result = lesungkap_post_receive(state, state_len, qpn, record, record_len);
    lesungkap_record(recorder, LESUNGKAP_TAPE_RECEIVE, qpn, record, record_len, result, NULL, 0);
    return result;
}

static inline uint32_t lesungkap_recorded_flush(struct lesungkap_recorder *recorder, uint8_t *state, size_t state_len, uint32_t qpn)
{
    const uint32_t result = lesungkap_flush(state, state_len, qpn);
    lesungkap_record(recorder, LESUNGKAP_TAPE_FLUSH, qpn, NULL, 0, result, NULL, 0);
    return result;
}

static inline uint32_t lesungkap_recorded_poll(struct lesungkap_recorder *recorder, uint8_t *state, size_t state_len, uint32_t cqn,
                                               uint8_t *buffer, size_t buffer_len)
{
    const uint32_t result = lesungkap_poll(state, state_len, cqn, buffer, buffer_len);
    lesungkap_record(recorder, LESUNGKAP_TAPE_POLL, cqn, NULL, 0, result, buffer,
                     lesungkap_answer(result) == LESUNGKAP_DONE ? LESUNGKAP_COMPLETION_BYTES : 0);
    return result;
}

#ifdef __cplusplus
}
#endif

#endif
