/* Each function of the header, called from C: receives wait, their queue pair fails, and they are flushed one by one; what is posted then
 * is flushed at once; a message goes from one region over pages to another; sends are queued, and turns run them. A call that gives anything else than this file expects is a
 * line; the exit status is then 1. */
#include "lesungkap.h"

#include <stdio.h>
#include <string.h>

enum { MEMORY_BYTES = 64, PAIR = 0, QUEUE = 0 };

static uint8_t state[LESUNGKAP_STATE_BYTES + 1];
static uint8_t memory[MEMORY_BYTES + 1];
static int faults;

static void put(uint8_t *bytes, size_t width, uint64_t number)
{
    for (size_t n = 0; n < width; n++) {
        bytes[n] = (uint8_t)(number >> 8 * n);
    }
}

static void expect(int holds, const char *what)
{
    if (!holds) {
        printf("UNEXPECTED: %s\n", what);
        faults++;
    }
}

/* ---- records, each written in one place */

static uint32_t control(const uint8_t *command, size_t length)
{
    uint8_t ack[LESUNGKAP_ACK_BYTES];
    return lesungkap_control(state, LESUNGKAP_STATE_BYTES, command, length, ack, sizeof ack);
}

static uint32_t create_domain(void)
{
    const uint8_t command[] = {LESUNGKAP_CONTROL_CLASS, LESUNGKAP_CREATE_PD};
    return control(command, sizeof command);
}

static uint32_t create_queue(uint32_t places)
{
    uint8_t command[6] = {LESUNGKAP_CONTROL_CLASS, LESUNGKAP_CREATE_CQ};
    put(command + 2, 4, places);
    return control(command, sizeof command);
}

static uint32_t create_pair(void)
{
    uint8_t command[18] = {LESUNGKAP_CONTROL_CLASS, LESUNGKAP_CREATE_QP};
    command[6] = LESUNGKAP_QP_TYPE_RC;
    return control(command, sizeof command);
}

static uint32_t move_to(uint8_t to)
{
    uint8_t command[22] = {LESUNGKAP_CONTROL_CLASS, LESUNGKAP_MODIFY_QP};
    put(command + 2, 4, PAIR);
    put(command + 6, 4, LESUNGKAP_MASK_STATE);
    command[10] = to;
    return control(command, sizeof command);
}

static uint32_t post_receive(uint64_t request)
{
    uint8_t record[LESUNGKAP_RECEIVE_BYTES] = {0};
    put(record, 8, request);
    return lesungkap_post_receive(state, LESUNGKAP_STATE_BYTES, PAIR, record, sizeof record);
}

static uint32_t post_send(size_t memory_len)
{
    uint8_t record[LESUNGKAP_SEND_BYTES] = {0};
    return lesungkap_post_send(state, LESUNGKAP_STATE_BYTES, memory, memory_len, PAIR, record, sizeof record);
}

static uint32_t flush(uint32_t qpn) { return lesungkap_flush(state, LESUNGKAP_STATE_BYTES, qpn); }

/* ---- what is expected */

/* A flush that is refused or held leaves every byte of the state. */
static void refused_flush(uint32_t qpn, uint32_t answer, const char *what)
{
    uint8_t before[sizeof state];
    memcpy(before, state, sizeof state);
    expect(flush(qpn) == answer, what);
    expect(memcmp(before, state, sizeof state) == 0, "a refused flush that changes the state");
}

/* The queue's oldest completion is that of a flushed request; the buffer's later bytes stay. */
static void polls_flushed(uint64_t request, uint8_t opcode)
{
    uint8_t buffer[LESUNGKAP_COMPLETION_BYTES + 1], wanted[LESUNGKAP_COMPLETION_BYTES + 1] = {0};
    memset(buffer, 0xa5, sizeof buffer);
    put(wanted, 8, request);
    wanted[8] = LESUNGKAP_FLUSHED;
    wanted[9] = opcode;
    put(wanted + 20, 4, PAIR);
    wanted[LESUNGKAP_COMPLETION_BYTES] = 0xa5;
    expect(lesungkap_poll(state, LESUNGKAP_STATE_BYTES, QUEUE, buffer, sizeof buffer) == LESUNGKAP_DONE, "a poll");
    expect(memcmp(buffer, wanted, sizeof wanted) == 0, "the completion of a flushed request");
}

static void resets(void)
{
    memset(state, 0xa5, sizeof state);
    expect(flush(PAIR) == LESUNGKAP_BAD_STATE, "a flush before any reset");
    expect(lesungkap_reset(state, LESUNGKAP_STATE_BYTES - 1, MEMORY_BYTES) == LESUNGKAP_BAD_STATE, "a reset of too short a state");
    expect(lesungkap_reset(state, LESUNGKAP_STATE_BYTES, 0) == LESUNGKAP_RANGE, "a reset without memory");
    expect(lesungkap_reset(state, LESUNGKAP_STATE_BYTES, MEMORY_BYTES) == LESUNGKAP_DONE, "a reset");
    expect(state[LESUNGKAP_STATE_BYTES] == 0xa5, "a reset that writes past the state");
}

/* The queries, before anything is created: 12 one byte short, and then what the card is. */
static void queries(void)
{
    const uint8_t device[] = {LESUNGKAP_CONTROL_CLASS, LESUNGKAP_QUERY_DEVICE}, port[] = {LESUNGKAP_CONTROL_CLASS, LESUNGKAP_QUERY_PORT};
    uint8_t ack[LESUNGKAP_ACK_MOST_BYTES + 1];
    struct lesungkap_query_device_ack card = {0};
    struct lesungkap_query_port_ack link = {0};
    memset(ack, 0xa5, sizeof ack);
    expect(lesungkap_control(state, LESUNGKAP_STATE_BYTES, device, sizeof device, ack, LESUNGKAP_DEVICE_ACK_BYTES - 1) ==
               LESUNGKAP_BUFFER_TOO_SHORT, "a query device with 128 ack bytes");
    expect(lesungkap_control(state, LESUNGKAP_STATE_BYTES, port, sizeof port, ack, LESUNGKAP_PORT_ACK_BYTES - 1) ==
               LESUNGKAP_BUFFER_TOO_SHORT, "a query port with 32 ack bytes");
    expect(ack[0] == 0xa5, "an ack byte of a query that is answered 12");
    expect(lesungkap_control(state, LESUNGKAP_STATE_BYTES, device, sizeof device, ack, sizeof ack) == LESUNGKAP_DONE, "a query device");
    expect(ack[LESUNGKAP_DEVICE_ACK_BYTES] == 0xa5, "a byte past the ack of query device");
    expect(lesungkap_get_query_device_ack(ack, LESUNGKAP_DEVICE_ACK_BYTES - 1, &card) == LESUNGKAP_RECORD_LENGTH, "a short ack, read");
    expect(lesungkap_get_query_device_ack(ack, sizeof ack, &card) == LESUNGKAP_DONE, "the ack of query device");
    expect(card.max_mr_size == MEMORY_BYTES && card.page_size_cap == 4096 && card.hw_ver == 1, "the device");
    expect(card.max_mr == LESUNGKAP_MR_COUNT && card.max_pd == LESUNGKAP_PD_COUNT && card.max_cqe == LESUNGKAP_CQ_MOST_PLACES &&
               card.max_send_sge == LESUNGKAP_SEND_MOST_SGES && card.max_recv_sge == LESUNGKAP_RECEIVE_MOST_SGES, "the device's limits");
    memset(ack, 0xa5, sizeof ack);
    expect(lesungkap_control(state, LESUNGKAP_STATE_BYTES, port, sizeof port, ack, sizeof ack) == LESUNGKAP_DONE, "a query port");
    expect(ack[LESUNGKAP_PORT_ACK_BYTES] == 0xa5, "a byte past the ack of query port");
    expect(lesungkap_get_query_port_ack(ack, sizeof ack, &link) == LESUNGKAP_DONE, "the ack of query port");
    expect(link.gid_tbl_len == 0 && link.max_msg_sz == LESUNGKAP_MOST_MESSAGE, "the port");
    ack[LESUNGKAP_ACK_BYTE_AT] = LESUNGKAP_ACK_ERROR;
    expect(lesungkap_get_query_port_ack(ack, sizeof ack, &link) == LESUNGKAP_BAD_FIELD, "an ack of a refused query, read");
}

static void flushes(void)
{
    refused_flush(PAIR, LESUNGKAP_NOT_LIVE, "a flush of a queue pair that isn't live");
    expect(create_domain() == LESUNGKAP_DONE && create_queue(1) == LESUNGKAP_DONE && create_pair() == LESUNGKAP_DONE, "a queue pair");
    refused_flush(PAIR, LESUNGKAP_WRONG_STATE, "a flush of a queue pair that hasn't failed");
    expect(move_to(LESUNGKAP_QP_INIT) == LESUNGKAP_DONE, "a move to init");
    expect(post_receive(11) == LESUNGKAP_DONE && post_receive(22) == LESUNGKAP_DONE, "two receives");
    expect(move_to(LESUNGKAP_QP_ERROR) == LESUNGKAP_DONE, "a move to error");
    expect(post_send(MEMORY_BYTES + 1) == LESUNGKAP_MEMORY_LENGTH, "a send with more memory than at reset");
    expect(flush(PAIR) == LESUNGKAP_DONE, "a flush");
    refused_flush(PAIR, LESUNGKAP_HELD_PLACE, "a flush without a place");
    polls_flushed(11, LESUNGKAP_COMPLETED_RECEIVE);
    expect(flush(PAIR) == LESUNGKAP_DONE, "a second flush");
    polls_flushed(22, LESUNGKAP_COMPLETED_RECEIVE);
    refused_flush(PAIR, LESUNGKAP_NOTHING, "a flush with nothing waiting");
    refused_flush(LESUNGKAP_QP_COUNT, LESUNGKAP_NOT_LIVE, "a flush of a number past the table");
}

/* Work posted on the failed queue pair; its queue has one place. */
static void posted_in_error(void)
{
    const uint32_t flushed = LESUNGKAP_DONE | LESUNGKAP_FLUSHED << 8;
    expect(post_send(MEMORY_BYTES) == flushed, "a send on a failed queue pair");
    expect(post_send(MEMORY_BYTES) == LESUNGKAP_HELD_PLACE, "a send on a failed queue pair without a place");
    expect(post_receive(33) == LESUNGKAP_HELD_PLACE, "a receive on a failed queue pair without a place");
    polls_flushed(0, LESUNGKAP_COMPLETED_WRITE);
    expect(post_receive(33) == flushed, "a receive on a failed queue pair");
    polls_flushed(33, LESUNGKAP_COMPLETED_RECEIVE);
    refused_flush(PAIR, LESUNGKAP_NOTHING, "a flush of a receive that was flushed at once");
}

/* ---- regions over pages, on a card with a memory of three pages and a part of one */

enum { PAGE = LESUNGKAP_PAGE_BYTES, PAGED_BYTES = 3 * PAGE + 100, VIRT = 1 << 20 };

static uint8_t paged[PAGED_BYTES + 1];

/* The list is as it was after each call. */
static uint32_t register_pages(uint64_t start, uint64_t length, const uint64_t *pages, size_t count, uint8_t *ack, size_t ack_len)
{
    const struct lesungkap_register_mr data = {0, 7, start, length, VIRT};
    uint8_t command[LESUNGKAP_REGISTER_MR_BYTES];
    uint64_t lent[20];
    memcpy(lent, pages, count * sizeof *pages);
    lesungkap_put_register_mr(command, sizeof command, &data);
    const uint32_t result = lesungkap_register_pages(state, LESUNGKAP_STATE_BYTES, command, sizeof command, lent, count, ack, ack_len);
    expect(memcmp(lent, pages, count * sizeof *pages) == 0, "a page list that is written");
    return result;
}

/* A refused list changes the ack byte alone. */
static void refused_list(uint64_t start, uint64_t length, const uint64_t *pages, size_t count, const char *what)
{
    uint8_t before[sizeof state], ack[LESUNGKAP_ACK_BYTES], wanted[LESUNGKAP_ACK_BYTES];
    memcpy(before, state, sizeof state);
    memset(ack, 0xa5, sizeof ack);
    memset(wanted, 0xa5, sizeof wanted);
    expect(register_pages(start, length, pages, count, ack, sizeof ack - 1) == LESUNGKAP_BUFFER_TOO_SHORT, "a page list with 12 ack bytes");
    expect(memcmp(ack, wanted, sizeof ack) == 0, "an ack byte of a page list that is answered 12");
    wanted[LESUNGKAP_ACK_BYTE_AT] = LESUNGKAP_ACK_ERROR;
    expect(register_pages(start, length, pages, count, ack, sizeof ack) == LESUNGKAP_RANGE, what);
    expect(memcmp(ack, wanted, sizeof ack) == 0, "the ack of a page list that is refused");
    expect(memcmp(before, state, sizeof state) == 0, "a refused page list that changes the state");
}

/* A region over the listed pages: its key, and what the state says of it. */
static uint32_t region(uint64_t start, uint64_t length, const uint64_t *pages, uint8_t count)
{
    uint8_t ack[LESUNGKAP_ACK_BYTES + 1];
    struct lesungkap_register_mr_ack made = {0};
    struct lesungkap_mr mr = {0};
    uint64_t page = 1;
    ack[LESUNGKAP_ACK_BYTES] = 0xa5;
    expect(register_pages(start, length, pages, count, ack, sizeof ack) == LESUNGKAP_DONE, "a page list");
    expect(ack[LESUNGKAP_ACK_BYTES] == 0xa5, "a byte past the ack of a page list");
    expect(lesungkap_get_register_mr_ack(ack, sizeof ack, &made) == LESUNGKAP_DONE && made.lkey == made.rkey, "the ack of a page list");
    expect(lesungkap_peek_mr(state, LESUNGKAP_STATE_BYTES, made.mrn, &mr) == LESUNGKAP_DONE, "a region over pages in the state");
    expect(mr.kind == LESUNGKAP_MR_PAGED && mr.pages == count && mr.start == start && mr.length == length && mr.key == made.rkey,
           "what the state says of a region over pages");
    for (uint32_t n = 0; n < count; n++) {
        expect(lesungkap_peek_page(state, LESUNGKAP_STATE_BYTES, made.mrn, n, &page) == LESUNGKAP_DONE && page == pages[n], "a page");
    }
    expect(lesungkap_peek_page(state, LESUNGKAP_STATE_BYTES, made.mrn, count, &page) == LESUNGKAP_NOTHING, "a page past the last");
    return made.rkey;
}

static void join(uint32_t qpn)
{
    for (uint8_t to = LESUNGKAP_QP_INIT; to <= LESUNGKAP_QP_RTS; to++) {
        struct lesungkap_modify_qp data = {qpn, LESUNGKAP_MASK_STATE | LESUNGKAP_MASK_ACCESS_FLAGS, to, {0}, 1 - qpn, 7};
        uint8_t command[LESUNGKAP_MODIFY_QP_BYTES];
        data.mask |= to == LESUNGKAP_QP_RTR ? LESUNGKAP_MASK_DESTINATION : 0;
        expect(control(command, lesungkap_put_modify_qp(command, sizeof command, &data)) == LESUNGKAP_DONE, "a queue pair that is joined");
    }
}

/* Writes `length` bytes of one region, from an offset on, to another. */
static void write_over_pages(uint32_t from, uint64_t at, uint32_t to, uint64_t far_at, uint32_t length)
{
    struct lesungkap_send send = {0};
    uint8_t record[LESUNGKAP_SEND_MOST_BYTES];
    send.opcode = LESUNGKAP_WRITE;
    send.count = 1;
    send.sges[0].address = VIRT + at;
    send.sges[0].length = length;
    send.sges[0].key = from;
    send.remote_address = VIRT + far_at;
    send.remote_key = to;
    const size_t whole = lesungkap_put_send(record, sizeof record, &send);
    expect(lesungkap_post_send(state, LESUNGKAP_STATE_BYTES, paged, PAGED_BYTES, PAIR, record, whole) == LESUNGKAP_DONE, "a write over pages");
}

static void page_lists(void)
{
    static const uint64_t two[] = {2 * PAGE, 0}, again[] = {PAGE, PAGE}, odd[] = {2 * PAGE + 1}, part[] = {3 * PAGE}, last[] = {(uint64_t)0 - PAGE};
    const uint8_t query[] = {LESUNGKAP_CONTROL_CLASS, LESUNGKAP_QUERY_DEVICE};
    uint8_t ack[LESUNGKAP_ACK_BYTES];
    expect(lesungkap_reset(state, LESUNGKAP_STATE_BYTES, PAGED_BYTES) == LESUNGKAP_DONE, "a reset");
    expect(create_domain() == LESUNGKAP_DONE && create_queue(16) == LESUNGKAP_DONE, "a domain and a queue");
    expect(create_pair() == LESUNGKAP_DONE && create_pair() == LESUNGKAP_DONE, "two queue pairs");
    expect(lesungkap_register_pages(state, LESUNGKAP_STATE_BYTES, query, sizeof query, two, 2, ack, sizeof ack) == LESUNGKAP_UNKNOWN,
           "a query with a page list");
    refused_list(PAGE, 1, two, 1, "a start past the first page");
    refused_list(PAGE - 1, 2, two, 1, "a page too few");
    refused_list(0, 1, two, 2, "a page too many");
    refused_list(0, 1, two, 0, "no page");
    refused_list(0, 1, odd, 1, "an entry that is no multiple");
    refused_list(0, 1, part, 1, "a page that the memory has a part of");
    refused_list(0, 1, last, 1, "an entry whose end wraps");
    const uint32_t own = region(100, 2 * PAGE - 100, two, 2), far = region(0, 2 * PAGE, again, 2);
    join(0);
    join(1);
    for (size_t n = 0; n < sizeof paged; n++) {
        paged[n] = (uint8_t)(n % 251);
    }
    write_over_pages(own, PAGE - 110, far, PAGE - 5, 20);
    for (uint64_t n = 0; n < 20; n++) {
        const size_t source = n < 10 ? 3 * PAGE - 10 + n : n - 10, target = n < 5 ? 2 * PAGE - 5 + n : PAGE + n - 5;
        expect(paged[target] == source % 251, "a byte that was written over pages");
    }
    expect(paged[PAGE + 15] == (PAGE + 15) % 251 && paged[2 * PAGE] == 2 * PAGE % 251, "a byte beside those written over pages");
    expect(paged[PAGED_BYTES] == PAGED_BYTES % 251, "a byte past the memory");
}

/* ---- queues and turns, on the card of the page lists */

/* A write of no bytes, or a send, which takes a receive. */
static uint32_t enqueue(uint32_t qpn, uint8_t opcode, size_t length, size_t memory_len)
{
    uint8_t record[LESUNGKAP_SEND_MOST_BYTES] = {0};
    record[LESUNGKAP_SEND_OPCODE_AT] = opcode;
    return lesungkap_enqueue(state, LESUNGKAP_STATE_BYTES, paged, memory_len, qpn, record, length);
}

static uint32_t turn(void) { return lesungkap_turn(state, LESUNGKAP_STATE_BYTES, paged, PAGED_BYTES); }

/* The queue pair that is visited next, and how many sends are queued on each of the two. */
static void expect_queues(uint32_t next, unsigned first, unsigned second, const char *what)
{
    struct lesungkap_qp qps[2] = {{0}, {0}};
    uint32_t visited = 99;
    expect(lesungkap_peek_turn(state, LESUNGKAP_STATE_BYTES, &visited) == LESUNGKAP_DONE && visited == next, what);
    for (uint32_t qpn = 0; qpn < 2; qpn++) {
        expect(lesungkap_peek_qp(state, LESUNGKAP_STATE_BYTES, qpn, &qps[qpn]) == LESUNGKAP_DONE, what);
    }
    expect(qps[0].queued == first && qps[1].queued == second, what);
}

static void queues_and_turns(void)
{
    const size_t whole = LESUNGKAP_SEND_BYTES;
    struct lesungkap_send oldest;
    uint8_t record[LESUNGKAP_SEND_BYTES] = {0};
    expect(turn() == LESUNGKAP_NOTHING, "a turn without a queued send");
    expect(enqueue(PAIR, LESUNGKAP_WRITE, whole, PAGED_BYTES - 1) == LESUNGKAP_MEMORY_LENGTH, "an enqueue with another memory");
    expect(enqueue(PAIR, LESUNGKAP_WRITE, whole - 1, PAGED_BYTES) == LESUNGKAP_RECORD_LENGTH, "an enqueue of too short a record");
    expect(enqueue(PAIR, 5, whole, PAGED_BYTES) == LESUNGKAP_BAD_FIELD, "an enqueue of opcode 5");
    expect(enqueue(2, LESUNGKAP_WRITE, whole, PAGED_BYTES) == LESUNGKAP_NOT_LIVE, "an enqueue on no queue pair");
    for (int n = 0; n < LESUNGKAP_QP_MOST_SENDS; n++) {
        expect(enqueue(PAIR, n == 1 ? LESUNGKAP_SEND : LESUNGKAP_WRITE, whole, PAGED_BYTES) == LESUNGKAP_DONE, "an enqueue");
    }
    expect(enqueue(PAIR, LESUNGKAP_WRITE, whole, PAGED_BYTES) == LESUNGKAP_FULL, "a ninth send");
    expect(enqueue(1, LESUNGKAP_WRITE, whole, PAGED_BYTES) == LESUNGKAP_DONE, "an enqueue on the other queue pair");
    expect(lesungkap_post_send(state, LESUNGKAP_STATE_BYTES, paged, PAGED_BYTES, PAIR, record, whole) == LESUNGKAP_IN_USE, "a direct send");
    expect_queues(0, 8, 1, "full queues");
    expect(lesungkap_peek_send(state, LESUNGKAP_STATE_BYTES, PAIR, 1, &oldest) == LESUNGKAP_DONE && oldest.opcode == LESUNGKAP_SEND,
           "the second send");
    expect(lesungkap_peek_send(state, LESUNGKAP_STATE_BYTES, 1, 1, &oldest) == LESUNGKAP_NOTHING, "a send that isn't queued");
    expect(turn() == LESUNGKAP_DONE, "a turn of the first queue pair");
    expect_queues(1, 7, 1, "queues after a turn");
    const uint32_t second = turn();
    expect(lesungkap_answer(second) == LESUNGKAP_DONE && lesungkap_status(second) == LESUNGKAP_SUCCESS && lesungkap_served(second) == 1 &&
               second >> 24 == 0, "a turn of the second");
    expect(turn() == LESUNGKAP_NOTHING, "a turn where the oldest is held");
    expect_queues(2, 7, 0, "queues that stay");
    expect(lesungkap_turn(state, LESUNGKAP_STATE_BYTES, paged, PAGED_BYTES - 1) == LESUNGKAP_MEMORY_LENGTH, "a turn with another memory");
    expect(move_to(LESUNGKAP_QP_ERROR) == LESUNGKAP_DONE && turn() == LESUNGKAP_FLUSHED << 8, "a turn that flushes");
    expect(move_to(LESUNGKAP_QP_RESET) == LESUNGKAP_DONE && turn() == LESUNGKAP_NOTHING, "a queue that is dropped");
    expect_queues(1, 0, 0, "empty queues");
    state[LESUNGKAP_STATE_TURN_AT] = LESUNGKAP_QP_COUNT;
    expect(turn() == LESUNGKAP_BAD_STATE && enqueue(PAIR, LESUNGKAP_WRITE, whole, PAGED_BYTES) == LESUNGKAP_BAD_STATE, "a turn place past the table");
}

int main(void)
{
    resets();
    queries();
    flushes();
    posted_in_error();
    page_lists();
    queues_and_turns();
    return faults != 0;
}
