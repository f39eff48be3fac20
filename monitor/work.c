/* Work requests, polls and events. A send that the card holds waits here, in the order of its queue
 * pair, and is tried again in turn; on a queue pair in error the card flushes it then. */
#define _GNU_SOURCE
#include "monitor.h"

#include <sys/socket.h>
#include <unistd.h>

/* ---- events */

void events_before(struct monitor *monitor)
{
    for (uint32_t cqn = 0; cqn < LESUNGKAP_CQ_COUNT; cqn++) {
        if (monitor->events[cqn].armed) {
            monitor->events[cqn].unread = card_unread(&monitor->card, cqn);
        }
    }
}

/* The event is the number of the queue. It is lost where the client's socket is full or is gone:
 * that client does not listen. */
static void notify(struct events *events, uint32_t cqn)
{
    const uint8_t number = (uint8_t)cqn;
    events->armed = 0;
    if (events->channel != NO_FD) {
        (void)!send(events->channel, &number, sizeof number, MSG_DONTWAIT | MSG_NOSIGNAL);
    }
}

void events_after(struct monitor *monitor)
{
    for (uint32_t cqn = 0; cqn < LESUNGKAP_CQ_COUNT; cqn++) {
        struct events *events = monitor->events + cqn;
        counters_show(monitor, cqn);
        if (events->armed && card_unread(&monitor->card, cqn) > events->unread) {
            notify(events, cqn);
        }
    }
}

/* The helper closes its descriptor too, and as the last. */
void events_forget(struct monitor *monitor, unsigned client, uint32_t cqn)
{
    struct events *events = monitor->events + cqn;
    if (events->channel != NO_FD) {
        close(events->channel);
        monitor->connections[client].job.drop_channels |= (uint64_t)1 << cqn;
    }
    events->channel = NO_FD;
    events->armed = 0;
}

uint32_t events_channel(struct monitor *monitor, unsigned client, uint32_t cqn, int *fd)
{
    struct connection *connection = monitor->connections + client;
    if (!owns(monitor, client, CQ, cqn)) {
        return LESUNGKAP_NOT_LIVE;
    }
    if (*fd == NO_FD || !becomes_channel(*fd, connection->sender)) {
        return LESUNGKAP_BAD_FIELD;
    }
    events_forget(monitor, client, cqn);
    monitor->events[cqn].channel = *fd;
    connection->job.keep = (uint8_t)(cqn + 1);
    *fd = NO_FD;
    return LESUNGKAP_DONE;
}

uint32_t events_arm(struct monitor *monitor, unsigned client, uint32_t cqn)
{
    if (!owns(monitor, client, CQ, cqn)) {
        return LESUNGKAP_NOT_LIVE;
    }
    monitor->events[cqn].armed = 1;
    return LESUNGKAP_DONE;
}

/* ---- sends */

/* A send that is made for the first time, or again. */
static uint32_t send_once(struct monitor *monitor, uint32_t qpn, const uint8_t *record,
                          size_t length, int again)
{
    events_before(monitor);
    uint32_t result = again ? card_send_again(&monitor->card, qpn, record, length)
                            : card_send(&monitor->card, qpn, record, length);
    if (lesungkap_answer(result) == LESUNGKAP_HELD_PEER && peer_gone(monitor, qpn)) {
        card_break(&monitor->card, qpn);
        result = card_send(&monitor->card, qpn, record, length);
    }
    events_after(monitor);
    monitor->changed |= lesungkap_answer(result) == LESUNGKAP_DONE;
    return result;
}

static uint32_t hold(struct held *held, const uint8_t *record, size_t length, uint32_t result)
{
    if (held->count == PACKET_HELD_MOST) {
        return LESUNGKAP_FULL;
    }
    const unsigned place = (held->first + held->count++) % PACKET_HELD_MOST;
    memcpy(held->at[place].record, record, length);
    held->at[place].length = (uint16_t)length;
    return result;
}

static void drop_first(struct held *held)
{
    held->first = (held->first + 1) % PACKET_HELD_MOST;
    held->count--;
}

uint32_t work_send(struct monitor *monitor, unsigned client, uint32_t qpn, const uint8_t *record,
                   size_t length)
{
    struct lesungkap_send send;
    if (!owns(monitor, client, QP, qpn)) {
        return LESUNGKAP_NOT_LIVE;
    }
    const unsigned test = lesungkap_get_send(record, length, &send);
    if (test != LESUNGKAP_DONE) {
        return test;
    }
    struct held *held = monitor->held + qpn;
    if (held->count > 0) {
        return hold(held, record, length, LESUNGKAP_HELD_PLACE);
    }
    const uint32_t result = send_once(monitor, qpn, record, length, 0);
    return is_held(result) ? hold(held, record, length, result) : result;
}

static void try_first(struct monitor *monitor, uint32_t qpn)
{
    struct held *held = monitor->held + qpn;
    const uint32_t result =
        send_once(monitor, qpn, held->at[held->first].record, held->at[held->first].length, 1);
    if (!is_held(result)) {
        drop_first(held);
    }
}

void work_turn(struct monitor *monitor)
{
    monitor->changed = 0;
    for (uint32_t n = 0; n < LESUNGKAP_QP_COUNT; n++) {
        const uint32_t qpn = (monitor->turn + n) % LESUNGKAP_QP_COUNT;
        if (monitor->held[qpn].count > 0) {
            try_first(monitor, qpn);
        }
    }
    monitor->turn = (monitor->turn + 1) % LESUNGKAP_QP_COUNT;
}

void work_forget(struct monitor *monitor, uint32_t qpn)
{
    monitor->held[qpn].count = 0;
}

/* ---- receives, flushes, polls */

uint32_t work_receive(struct monitor *monitor, unsigned client, uint32_t qpn, const uint8_t *record,
                      size_t length)
{
    if (!owns(monitor, client, QP, qpn)) {
        return LESUNGKAP_NOT_LIVE;
    }
    events_before(monitor);
    const uint32_t result = card_receive(&monitor->card, qpn, record, length);
    events_after(monitor);
    monitor->changed |= lesungkap_answer(result) == LESUNGKAP_DONE;
    return result;
}

uint32_t work_flush(struct monitor *monitor, unsigned client, uint32_t qpn)
{
    if (!owns(monitor, client, QP, qpn)) {
        return LESUNGKAP_NOT_LIVE;
    }
    events_before(monitor);
    const uint32_t result = card_flush(&monitor->card, qpn);
    events_after(monitor);
    return result;
}

void work_poll(struct monitor *monitor, unsigned client, uint32_t cqn, struct answer *answer)
{
    if (!owns(monitor, client, CQ, cqn)) {
        answer->result = LESUNGKAP_NOT_LIVE;
        return;
    }
    answer->result = card_poll(&monitor->card, cqn, answer->body);
    counters_show(monitor, cqn);
    monitor->changed |= answer->result == LESUNGKAP_DONE;
    if (answer->result == LESUNGKAP_DONE) {
        answer->body[LESUNGKAP_COMPLETION_BYTES] = (uint8_t)card_unread(&monitor->card, cqn);
        answer->length = PACKET_POLL_BYTES;
    }
}
