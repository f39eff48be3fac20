/* Fewer requests: completions that the monitor shows without being asked, and several records in
 * one packet. */
#define _GNU_SOURCE
#include "link.h"

#include <errno.h>
#include <stdatomic.h>
#include <sys/mman.h>
#include <sys/socket.h>
#include <unistd.h>

/* ---- counters */

void link_drop_counters(struct link *link)
{
    if (link->counters != NULL) {
        munmap((void *)(uintptr_t)link->counters, PACKET_PAGE);
        link->counters = NULL;
    }
}

/* The answer's length, with the file that came with it, or -1. */
static ssize_t get_with_file(const struct link *link, uint8_t *answer, int *file)
{
    union {
        struct cmsghdr aligned;
        char bytes[CMSG_SPACE(sizeof(int))];
    } control;
    struct iovec part = {answer, PACKET_MOST_BYTES};
    struct msghdr message = {.msg_iov = &part,
                             .msg_iovlen = 1,
                             .msg_control = &control,
                             .msg_controllen = sizeof control};
    ssize_t got;
    do {
        got = recvmsg(link->fd, &message, MSG_CMSG_CLOEXEC);
    } while (got < 0 && errno == EINTR);
    const struct cmsghdr *head = got > 0 ? CMSG_FIRSTHDR(&message) : NULL;
    if (head != NULL && head->cmsg_type == SCM_RIGHTS && head->cmsg_len == CMSG_LEN(sizeof *file)) {
        memcpy(file, CMSG_DATA(head), sizeof *file);
    }
    return got;
}

uint32_t ask_counters(struct link *link)
{
    const struct packet packet = {PACKET_COUNTERS, 0, NULL, 0};
    uint8_t bytes[PACKET_MOST_BYTES];
    struct packet answer;
    ssize_t got = -1;
    int file = -1;
    pthread_mutex_lock(&link->lock);
    if (link_send(link, bytes, put_packet(bytes, LESUNGKAP_TAPE_CALL_MARK, &packet), -1)) {
        got = get_with_file(link, bytes, &file);
    }
    pthread_mutex_unlock(&link->lock);
    if (got <= 0 || !get_packet(bytes, (size_t)got, LESUNGKAP_TAPE_ANSWER_MARK, &answer)) {
        return LINK_LOST;
    }
    if (file >= 0) {
        void *page = mmap(NULL, PACKET_PAGE, PROT_READ, MAP_SHARED, file, 0);
        link->counters = page != MAP_FAILED ? page : NULL;
        close(file);
    }
    return answer.third;
}

/* ---- batches */

struct batch {
    uint8_t bytes[PACKET_MOST_BODY];
    size_t length;
    unsigned count;
};

/* Adds a record; 0 if there is no room for it. */
static int batch_add(struct batch *batch, unsigned kind, uint32_t number, const uint8_t *body,
                     size_t length)
{
    const struct packet packet = {(uint8_t)kind, (uint8_t)number, body, length};
    uint8_t bytes[PACKET_MOST_BYTES];
    const size_t whole = put_packet(bytes, LESUNGKAP_TAPE_CALL_MARK, &packet);
    if (batch->count == PACKET_BATCH_MOST || whole > sizeof batch->bytes - batch->length) {
        return 0;
    }
    memcpy(batch->bytes + batch->length, bytes, whole);
    batch->length += whole;
    batch->count++;
    return 1;
}

/* The next answer of a batch: its result, LINK_LOST where there is none. */
static uint32_t next_answer(const struct asked *asked, size_t *at, struct packet *answer)
{
    const size_t whole = first_packet(asked->packet.body + *at, asked->packet.length - *at,
                                      LESUNGKAP_TAPE_ANSWER_MARK, answer);
    *at += whole;
    return whole > 0 ? answer->third | (uint32_t)answer->fourth << 8 : (uint32_t)LINK_LOST;
}

unsigned ask_receives(struct link *link, uint32_t name,
                      const struct lesungkap_receive *const *receives, unsigned count,
                      uint32_t *result)
{
    uint8_t record[LESUNGKAP_RECEIVE_MOST_BYTES];
    struct batch batch = {.length = 0};
    struct asked asked;
    struct packet answer;
    unsigned done = 0;
    size_t at = 0;
    for (unsigned n = 0; n < count; n++) {
        const size_t length = lesungkap_put_receive(record, sizeof record, receives[n]);
        if (length == 0 || !batch_add(&batch, PACKET_RECEIVE, qp_number(name), record, length)) {
            break;
        }
    }
    *result = link_ask(link, PACKET_BATCH, 0, batch.bytes, batch.length, -1, &asked);
    while (done < batch.count && lesungkap_answer(*result) == LESUNGKAP_DONE) {
        *result = next_answer(&asked, &at, &answer);
        done += lesungkap_answer(*result) == LESUNGKAP_DONE;
    }
    return done;
}

unsigned ask_polls(struct link *link, uint32_t cqn, struct lesungkap_completion *completions,
                   unsigned count, unsigned *left, uint32_t *result)
{
    struct batch batch = {.length = 0};
    struct asked asked;
    struct packet answer;
    unsigned done = 0;
    size_t at = 0;
    while (batch.count < count && batch_add(&batch, PACKET_POLL, cqn, NULL, 0)) {
    }
    *result = link_ask(link, PACKET_BATCH, 0, batch.bytes, batch.length, -1, &asked);
    while (done < batch.count && *result == LESUNGKAP_DONE) {
        *result = next_answer(&asked, &at, &answer);
        if (*result == LESUNGKAP_DONE && answer.length == PACKET_POLL_BYTES &&
            lesungkap_get_completion(answer.body, answer.length, completions + done) ==
                LESUNGKAP_DONE) {
            *left = answer.body[LESUNGKAP_COMPLETION_BYTES];
            done++;
        }
    }
    return done;
}

/* Puts them into a batch; 0 if there is no room. */
static int put_together(struct batch *batch, uint32_t name, const struct lesungkap_send *send,
                        const struct together *with)
{
    uint8_t record[LESUNGKAP_SEND_MOST_BYTES];
    size_t length;
    for (unsigned n = 0; n < with->count; n++) {
        length = lesungkap_put_receive(record, sizeof record, with->receives[n]);
        if (length == 0 || !batch_add(batch, PACKET_RECEIVE, qp_number(name), record, length)) {
            return 0;
        }
    }
    length = lesungkap_put_send(record, sizeof record, send);
    return length > 0 && batch_add(batch, PACKET_SEND, qp_number(name), record, length) &&
           (!with->polls || batch_add(batch, PACKET_POLL, with->cqn, NULL, 0));
}

uint32_t ask_together(struct link *link, uint32_t name, const struct lesungkap_send *send,
                      struct together *with)
{
    struct batch batch = {.length = 0};
    struct asked asked;
    struct packet answer;
    size_t at = 0;
    with->given = 0;
    with->polled = 0;
    if (link->counters == NULL || with->count + (unsigned)with->polls == 0 ||
        !put_together(&batch, name, send, with)) {
        return ask_send(link, name, send);
    }
    uint32_t result = link_ask(link, PACKET_BATCH, 0, batch.bytes, batch.length, -1, &asked);
    while (with->given < with->count && lesungkap_answer(result) == LESUNGKAP_DONE) {
        result = next_answer(&asked, &at, &answer);
        with->given += lesungkap_answer(result) == LESUNGKAP_DONE;
    }
    if (lesungkap_answer(result) !=
        LESUNGKAP_DONE) { /* what is behind a receive that was refused was not run */
        return lesungkap_answer(result) == LINK_LOST ? result : ask_send(link, name, send);
    }
    result = next_answer(&asked, &at, &answer);
    with->polled =
        with->polls && next_answer(&asked, &at, &answer) == LESUNGKAP_DONE &&
        lesungkap_get_completion(answer.body, answer.length, &with->completion) == LESUNGKAP_DONE;
    return result;
}

unsigned link_unread(const struct link *link, uint32_t cqn)
{
    return link->counters == NULL || cqn >= LESUNGKAP_CQ_COUNT
               ? 0
               : atomic_load_explicit(link->counters + cqn, memory_order_acquire);
}
