/* Lesungkap: a software RDMA card over one lent memory. For C11 and C++17.
 *
 * The card holds protection domains (PD), completion queues (CQ), memory regions (MR) and queue pairs (QP), each numbered from 0 in its
 * table. Two queue pairs that name each other as destination are joined: a work request of the one moves bytes to or from regions of
 * the other's domain, or fills a receive that waits there. How it ended stands in a completion, which a poll takes out of its queue. A work
 * request runs at once (lesungkap_post_send), or waits in its queue pair's queue (lesungkap_enqueue) until a turn (lesungkap_turn) runs it.
 *
 * The manual is this file (what is lent, the calls) and those that it includes: lesungkap_numbers.h (limits, answers, statuses, states
 * and their moves), lesungkap_records.h (work requests, receives, completions, and which bytes are permitted), lesungkap_commands.h (control
 * commands, how numbers and keys are given, what is dropped), lesungkap_state.h (what the state holds). lesungkap_tape.h records calls.
 *
 * What a caller lends. The card keeps nothing between calls and allocates nothing:
 *
 *   state    LESUNGKAP_STATE_BYTES bytes, made by lesungkap_reset. Between calls nobody else writes them. A call answers
 *            LESUNGKAP_BAD_STATE where they break a limit of docs/STATE.md; any other change it cannot notice. A copy of them is a copy
 *            of the card's tables. lesungkap_state.h looks into them.
 *   memory   the guest memory, of the length told to lesungkap_reset. The guest may write it between calls.
 *   command, record, pages
 *            read only, and not looked at after the call. lesungkap_commands.h and lesungkap_records.h write and read the first two; pages
 *            is a list of numbers, and its length how many there are.
 *   ack, buffer
 *            written by the call as far as each function says; all later bytes stay as they are.
 *
 * Buffers lent to one call must not overlap. A pointer whose length is 0 may be NULL. Calls on one state come one after another; two
 * cards may be called at the same time if they share no byte.
 *
 * No length and no content is the caller's duty: every call with any bytes, numbers and lengths ends with an answer. Any answer but
 * LESUNGKAP_DONE leaves state, memory and buffers as they were, except that a refused control command or page list writes 1 as the first
 * ack byte (but not with LESUNGKAP_BUFFER_TOO_SHORT and LESUNGKAP_BAD_STATE).
 *
 *     uint8_t command[LESUNGKAP_COMMAND_MOST_BYTES], ack[LESUNGKAP_ACK_MOST_BYTES];
 *     struct lesungkap_create_cq wanted = {8};
 *     struct lesungkap_create_cq_ack made;
 *     size_t length = lesungkap_put_create_cq(command, sizeof command, &wanted);
 *     uint32_t result = lesungkap_control(state, sizeof state, command, length, ack, sizeof ack);
 *     if (lesungkap_answer(result) == LESUNGKAP_DONE && lesungkap_get_create_cq_ack(ack, sizeof ack, &made) == LESUNGKAP_DONE) {
 *         .. made.cqn ..
 *     }
 */
#ifndef LESUNGKAP_H
#define LESUNGKAP_H

#include "lesungkap_commands.h"
#include "lesungkap_numbers.h"
#include "lesungkap_records.h"
#include "lesungkap_state.h"

#ifdef __cplusplus
extern "C" {
#endif

/* Each call returns its answer in bits 0 to 7. Bits 8 to 15 have a status where the answer is LESUNGKAP_DONE: of a post send that of its work
 * request, of a turn that of the work request that it ran, of a receive LESUNGKAP_FLUSHED if it was flushed at once; of other calls they are 0.
 * Bits 16 to 23 have the queue pair that such a turn served; all other bits are 0. The answers of each call stand below in the order of their
 * tests, without LESUNGKAP_: the first that is met is the answer. */

/* Makes a fresh card over a memory of memory_len bytes, whatever the state held.
 *   BAD_STATE         state_len isn't LESUNGKAP_STATE_BYTES; the content is not looked at
 *   RANGE             memory_len is 0 or over LESUNGKAP_MOST_MEMORY
 *   DONE              every byte of the state is set: no object, no key handed out */
uint32_t lesungkap_reset(uint8_t *state, size_t state_len, uint64_t memory_len);

/* Runs a control command.
 *   BAD_STATE         the state is not acceptable
 *   BUFFER_TOO_SHORT  ack_len is under LESUNGKAP_ACK_BYTES; where the command's first two bytes name a query, under
 *                     LESUNGKAP_DEVICE_ACK_BYTES or LESUNGKAP_PORT_ACK_BYTES. LESUNGKAP_ACK_MOST_BYTES are enough for all
 *   RECORD_LENGTH     the command has fewer than two bytes
 *   UNKNOWN           class or command
 *   RECORD_LENGTH     it hasn't the command's length
 *   BAD_FIELD, NOT_LIVE, RANGE, WRONG_STATE, IN_USE, FULL, as lesungkap_commands.h says of each command
 *   DONE              the one object that it names or makes has changed, by a query nothing; the ack has 0 and its data */
uint32_t lesungkap_control(uint8_t *state, size_t state_len, const uint8_t *command, size_t command_len, uint8_t *ack,
                           size_t ack_len);

/* Registers a region over pages of the memory, for guests whose memory is scattered. command is that of register MR; pages lists the first
 * memory byte of each page, in the order of the region's bytes. start is the offset of its first byte into the first page: with
 * k = start + (address - virt), an address is memory byte pages[k / LESUNGKAP_PAGE_BYTES] + k % LESUNGKAP_PAGE_BYTES. A page may be listed
 * again: then two addresses are one byte, and the later byte of a message wins. Number, key, access, deregister MR and what is in use are
 * those of any region. pages is aligned as uint64_t, pages_len counts its entries, and the list is only read.
 *   BAD_STATE         the state is not acceptable
 *   BUFFER_TOO_SHORT  ack_len is under LESUNGKAP_ACK_BYTES, whatever the command is
 *   RECORD_LENGTH     the command has fewer than two bytes
 *   UNKNOWN           class, or another command than register MR
 *   RECORD_LENGTH     it hasn't LESUNGKAP_REGISTER_MR_BYTES
 *   BAD_FIELD, NOT_LIVE
 *                     as register MR
 *   RANGE             length 0; virt + length over 2^64 - 1; start not below LESUNGKAP_PAGE_BYTES; pages_len not exactly the number of pages
 *                     that start + length needs, or that number over LESUNGKAP_MR_MOST_PAGES; an entry that is no multiple of
 *                     LESUNGKAP_PAGE_BYTES, or whose page isn't whole in the memory. A region may be longer than the memory
 *   FULL              as register MR
 *   DONE              the region is made; the ack has 0 and the data of register MR's */
uint32_t lesungkap_register_pages(uint8_t *state, size_t state_len, const uint8_t *command, size_t command_len, const uint64_t *pages,
                                  size_t pages_len, uint8_t *ack, size_t ack_len);

/* Runs a work request to its end. A write moves the local bytes (the entries in order, or the inline bytes) to the remote range, a read the
 * remote range to the local entries, a send the local bytes to the entries of the peer's oldest waiting receive. Sends and writes with
 * immediate take that receive; a write touches none of its bytes. On a queue pair in error the request is flushed: it completes, and that
 * is all that comes of it.
 *   BAD_STATE         the state is not acceptable
 *   MEMORY_LENGTH     memory_len isn't that of the reset
 *   RECORD_LENGTH     under LESUNGKAP_SEND_BYTES
 *   BAD_FIELD         opcode, flag bit, inline with a read, too many inline bytes or entries
 *   RECORD_LENGTH     not exactly what its entries ask for
 *   NOT_LIVE, WRONG_STATE
 *                     the queue pair; it is neither in RTS nor in ERROR
 *   IN_USE            sends are queued on it, in RTS or in ERROR: they go first, by lesungkap_turn
 *   HELD_PLACE        in ERROR: no place in the send CQ, signaled or not
 *   DONE              in ERROR: it is flushed, with status FLUSHED; its peer, keys and total are not looked at
 *   HELD_PEER         no destination, or it isn't live, not in RTR or RTS, or doesn't name this queue pair back; no receive waits where
 *                     one is taken
 *   HELD_PLACE        no place in the send CQ, or in the peer's receive CQ where a receive is taken (two if it is one CQ), signaled or not
 *   DONE              it is finished, with the first status that is met:
 *     LOCAL_LENGTH      over LESUNGKAP_MOST_MESSAGE bytes in all
 *     LOCAL_PROTECTION  a byte of a local entry isn't permitted to the queue pair
 *     REMOTE_ACCESS     of some bytes: one of the remote range isn't permitted to the peer, or the peer's access flags lack the right
 *     REMOTE_INVALID    the receive is too short (its own status LOCAL_LENGTH), or a byte that would be filled isn't permitted to the peer
 *                       (LOCAL_PROTECTION); the receive is taken, and the peer goes to error too
 *     SUCCESS           the bytes are written in turn, each with the value that its source had before the call
 * Any status but SUCCESS moves no byte and leaves the queue pair in error. Completions: the sender's first, into its send CQ, unless it
 * succeeded unsignaled on a queue pair with LESUNGKAP_SIGNAL_FLAGGED; then the receiver's, into its receive CQ, where a receive was taken. */
uint32_t lesungkap_post_send(uint8_t *state, size_t state_len, uint8_t *memory, size_t memory_len, uint32_t qpn,
                             const uint8_t *record, size_t record_len);

/* Lets a work request wait in its queue pair's queue, behind the others, until a turn runs it. Its peer, keys, total and places are looked at
 * then, not before; it puts no completion and moves no byte. Of the memory only the length is looked at. The record is kept in the state.
 *   BAD_STATE         the state is not acceptable
 *   MEMORY_LENGTH     memory_len isn't that of the reset
 *   RECORD_LENGTH, BAD_FIELD, RECORD_LENGTH
 *                     as lesungkap_post_send
 *   NOT_LIVE, WRONG_STATE
 *                     the queue pair; it is neither in RTS nor in ERROR
 *   FULL              LESUNGKAP_QP_MOST_SENDS are queued already
 *   DONE              it is queued; the status is 0 */
uint32_t lesungkap_enqueue(uint8_t *state, size_t state_len, const uint8_t *memory, size_t memory_len, uint32_t qpn,
                           const uint8_t *record, size_t record_len);

/* Runs the oldest queued send of one queue pair. The queue pairs are visited by number from the one after the last served on, from 0 after a
 * reset, and 0 comes after the last; the first whose oldest send lesungkap_post_send would not hold, were it posted there now, is served. What
 * comes of the request is what would come of that post send: in ERROR it is flushed. It then leaves its queue, whatever its status is. A queue
 * pair whose oldest send could run at each turn is served within LESUNGKAP_QP_COUNT turns, and no other one twice before it.
 *   BAD_STATE         the state is not acceptable
 *   MEMORY_LENGTH     memory_len isn't that of the reset
 *   NOTHING           no send is queued, or every queue's oldest is held
 *   DONE              lesungkap_served tells the queue pair, lesungkap_status how its request ended */
uint32_t lesungkap_turn(uint8_t *state, size_t state_len, uint8_t *memory, size_t memory_len);

/* Lets a receive wait behind the others. Its keys are looked at when a message comes, not before. On a queue pair in error it is flushed at
 * once, unless older ones wait: these go first, by lesungkap_flush.
 *   BAD_STATE         the state is not acceptable
 *   RECORD_LENGTH     under LESUNGKAP_RECEIVE_BYTES
 *   BAD_FIELD         over LESUNGKAP_RECEIVE_MOST_SGES entries
 *   RECORD_LENGTH     not exactly what its entries ask for
 *   NOT_LIVE, WRONG_STATE
 *                     the queue pair; it is in RESET
 *   HELD_PLACE        in ERROR, none waiting: no place in its receive CQ
 *   DONE              in ERROR, none waiting: it is flushed, with status FLUSHED; its completion has opcode COMPLETED_RECEIVE, length 0
 *   FULL              LESUNGKAP_QP_MOST_RECEIVES wait already
 *   DONE              it waits, in ERROR too, without a place being asked for; the status is 0 */
uint32_t lesungkap_post_receive(uint8_t *state, size_t state_len, uint32_t qpn, const uint8_t *record, size_t record_len);

/* Completes the oldest waiting receive of a queue pair in error. The call's own status is 0.
 *   BAD_STATE         the state is not acceptable
 *   NOT_LIVE, WRONG_STATE
 *                     the queue pair; it is not in ERROR
 *   NOTHING           no receive waits
 *   HELD_PLACE        no place in its receive CQ
 *   DONE              the receive has left; its completion has status FLUSHED, opcode COMPLETED_RECEIVE, length 0 */
uint32_t lesungkap_flush(uint8_t *state, size_t state_len, uint32_t qpn);

/* Takes the oldest completion of a completion queue into the first LESUNGKAP_COMPLETION_BYTES of the buffer.
 *   BAD_STATE         the state is not acceptable
 *   BUFFER_TOO_SHORT  buffer_len is under LESUNGKAP_COMPLETION_BYTES
 *   NOT_LIVE, NOTHING the completion queue; it is empty
 *   DONE              the completion has left its queue */
uint32_t lesungkap_poll(uint8_t *state, size_t state_len, uint32_t cqn, uint8_t *buffer, size_t buffer_len);

static inline unsigned lesungkap_answer(uint32_t result) { return (unsigned)(result & 255u); }

static inline unsigned lesungkap_status(uint32_t result) { return (unsigned)(result >> 8 & 255u); }

/* Of a turn answered LESUNGKAP_DONE: the queue pair that it served. */
static inline unsigned lesungkap_served(uint32_t result) { return (unsigned)(result >> 16 & 255u); }

#ifdef __cplusplus
}
#endif

#endif
