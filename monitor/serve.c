/* Requests: how one is read, run and answered, and how it goes on when the helper has done its
 * part. */
#define _GNU_SOURCE
#include "monitor.h"

#include <errno.h>
#include <sys/epoll.h>
#include <sys/socket.h>
#include <unistd.h>

static void window(const struct monitor *monitor, struct answer *answer)
{
    put_number(answer->body, 4, PACKET_VERSION);
    put_number(answer->body + 4, 4, (uint32_t)monitor->window);
    answer->length = PACKET_WINDOW_BYTES;
    answer->result = LESUNGKAP_DONE;
}

/* ---- requests */

static void show(const struct monitor *monitor, unsigned client, uint32_t number,
                 struct answer *answer)
{
    answer->length = show_line(monitor, monitor->connections[client].user, number,
                               (char *)answer->body, sizeof answer->body);
    answer->result = answer->length > 0 ? LESUNGKAP_DONE : LESUNGKAP_NOTHING;
}

/* Writes an answer's record; its length. */
static size_t put_answer(uint8_t *bytes, const struct answer *answer)
{
    const struct packet packet = {(uint8_t)lesungkap_answer(answer->result),
                                  (uint8_t)lesungkap_status(answer->result), answer->body,
                                  answer->length};
    return put_packet(bytes, LESUNGKAP_TAPE_ANSWER_MARK, &packet);
}

/* A send, receive, poll or flush; 0 if it is none of them. */
static int run_work(struct monitor *monitor, unsigned client, const struct packet *packet,
                    struct answer *answer)
{
    const uint32_t number = packet->fourth;
    const int plain = packet->third == PACKET_POLL || packet->third == PACKET_FLUSH;
    if (plain && packet->length > 0) {
        answer->result = LESUNGKAP_BAD_TAPE_RECORD;
        return 1;
    }
    switch (packet->third) {
    case PACKET_SEND:
        answer->result = work_send(monitor, client, number, packet->body, packet->length);
        return 1;
    case PACKET_RECEIVE:
        answer->result = work_receive(monitor, client, number, packet->body, packet->length);
        return 1;
    case PACKET_POLL: work_poll(monitor, client, number, answer); return 1;
    case PACKET_FLUSH: answer->result = work_flush(monitor, client, number); return 1;
    default: return 0;
    }
}

_Static_assert(PACKET_BATCH_MOST *(LESUNGKAP_TAPE_HEADER_BYTES + PACKET_POLL_BYTES) <=
                   LESUNGKAP_TAPE_MOST_BODY,
               "the answers of a batch fit in a packet");

/* Runs the records of a batch one after the other. One that is refused ends it, as one that is none
 * or of another kind: those behind it are not run, and have no answer. */
static void run_batch(struct monitor *monitor, unsigned client, const struct packet *batch,
                      struct answer *answer)
{
    size_t at = 0;
    int goes_on = 1;
    answer->result = LESUNGKAP_DONE;
    for (unsigned n = 0; n < PACKET_BATCH_MOST && at < batch->length && goes_on; n++) {
        struct answer one = {.result = LESUNGKAP_BAD_TAPE_RECORD};
        struct packet record;
        const size_t whole =
            first_packet(batch->body + at, batch->length - at, LESUNGKAP_TAPE_CALL_MARK, &record);
        goes_on = whole > 0 && record.length <= LESUNGKAP_TAPE_MOST_BODY &&
                  run_work(monitor, client, &record, &one) &&
                  (lesungkap_answer(one.result) == LESUNGKAP_DONE || is_held(one.result));
        at += whole;
        answer->length += put_answer(answer->body + answer->length, &one);
    }
}

/* Runs a request, with what the helper has read if a file came with it. */
static void run(struct monitor *monitor, unsigned client, const struct packet *packet,
                const struct report_of_job *with, int *fd, struct answer *answer)
{
    const uint32_t number = packet->fourth;
    if (packet->length > LESUNGKAP_TAPE_MOST_BODY && packet->third != PACKET_BATCH) {
        answer->result = LESUNGKAP_BAD_TAPE_RECORD;
        return;
    }
    if (packet->third == PACKET_CONTROL) {
        request_control(monitor, client, packet, answer);
        return;
    }
    if (packet->third == PACKET_BATCH) {
        run_batch(monitor, client, packet, answer);
        return;
    }
    if (run_work(monitor, client, packet, answer)) {
        return;
    }
    if (packet->length > 0) {
        answer->result = LESUNGKAP_BAD_TAPE_RECORD;
        return;
    }
    switch (packet->third) {
    case PACKET_WINDOW: window(monitor, answer); return;
    case PACKET_JOIN: answer->result = connection_join(monitor, client, with, *fd); return;
    case PACKET_ARM: answer->result = events_arm(monitor, client, number); return;
    case PACKET_CHANNEL: answer->result = events_channel(monitor, client, number, fd); return;
    case PACKET_SHOW: show(monitor, client, number, answer); return;
    case PACKET_COUNTERS: answer->result = counters_open(monitor, client, &answer->file); return;
    case PACKET_WAITS: work_waits(monitor, client, number, answer); return;
    default: answer->result = LESUNGKAP_BAD_TAPE_RECORD;
    }
}

static int reply(int fd, struct answer *answer)
{
    uint8_t bytes[PACKET_MOST_BYTES];
    const size_t length = put_answer(bytes, answer);
    if (answer->file == NO_FD) {
        return send(fd, bytes, length, MSG_DONTWAIT | MSG_NOSIGNAL) == (ssize_t)length;
    }
    const int sent = send_with_file(fd, bytes, length, answer->file, MSG_DONTWAIT);
    close(answer->file);
    answer->file = NO_FD;
    return sent;
}

/* Gives the answer, once it is on the tape, and listens again. */
static void finish(struct monitor *monitor, unsigned number)
{
    struct connection *connection = monitor->connections + number;
    if (!tape_commit(&monitor->card.tape)) {
        monitor->ended = 1;
        return;
    }
    if (!reply(connection->fd, &connection->answer)) {
        if (errno == EAGAIN) {
            complain(monitor, number, "a client was dropped: it does not take its answers");
        }
        clients_drop(monitor, number);
    } else if (connection->state == WAITS) {
        connection->state = ASKS;
        connection_listen_to(monitor, number, EPOLL_CTL_MOD, EPOLLIN | EPOLLRDHUP);
    }
}

/* The monitor's descriptor of a file that came with a packet, before the helper's: nobody but the
 * helper closes a client's file as the last. */
static void close_first(int *fd)
{
    if (*fd != NO_FD) {
        close(*fd);
        *fd = NO_FD;
    }
}

/* Runs a packet's request. The answer waits until the files are closed that nobody wants any more:
 * a client that has it, and closes its own, has closed the last. */
static void serve(struct monitor *monitor, unsigned number, const uint8_t *bytes, size_t length,
                  const struct report_of_job *with, int *fd)
{
    struct connection *connection = monitor->connections + number;
    const uint64_t since = monitor->card.timed ? clock_now() : 0;
    struct packet packet;
    connection->answer.result = LESUNGKAP_BAD_TAPE_RECORD;
    connection->answer.length = 0;
    connection->answer.file = NO_FD;
    connection->sender = with != NULL ? with->sender : 0;
    connection->user->requests++;
    monitor->requests++;
    if (length <= PACKET_MOST_BYTES &&
        get_packet(bytes, length, LESUNGKAP_TAPE_CALL_MARK, &packet)) {
        run(monitor, number, &packet, with, fd, &connection->answer);
    }
    close_first(fd);
    connection->job.drop_file = with != NULL && with->file != NO_FILE && !connection->job.keep;
    monitor->nanoseconds += monitor->card.timed ? clock_now() - since : 0;
    if (connection_has_job(&connection->job)) {
        connection_send_job(monitor, number);
    } else {
        finish(monitor, number);
    }
}

void clients_serve(struct monitor *monitor, unsigned number)
{
    struct connection *connection = monitor->connections + number;
    uint8_t bytes[PACKET_MOST_BYTES];
    int with_files, no_file = NO_FD;
    const ssize_t length = receive_packet(connection->fd, bytes, &with_files);
    if (with_files) {
        connection->job.read = 1;
        connection_send_job(monitor, number);
    } else if (length >= 0) {
        serve(monitor, number, bytes, (size_t)length, NULL, &no_file);
    } else if (errno != EAGAIN && errno != EINTR) {
        clients_drop(monitor, number);
    }
}

void clients_serve_unseated(struct monitor *monitor, struct user *user)
{
    struct epoll_event event;
    if (epoll_wait(user->unseated, &event, 1, 0) != 1) {
        return;
    }
    const unsigned number = event.data.u32;
    if (event.events & (EPOLLHUP | EPOLLERR | EPOLLRDHUP)) {
        clients_drop(monitor, number);
    } else if (monitor->connections[number].state == ASKS) {
        clients_serve(monitor, number);
    }
}

/* ---- reports */

static void go_on(struct monitor *monitor, const struct report_of_job *done, int *fd)
{
    struct connection *connection = monitor->connections + done->place;
    connection->busy = 0;
    if (connection->state == LEAVES) {
        close_first(fd);
        connection->job.drop_file = done->file != NO_FILE;
        if (connection->fd != NO_FD) {
            connection_leave(monitor, done->place);
        } else {
            connection_free_place(monitor, done->place);
        }
    } else if (done->failed) {
        complain(monitor, done->place,
                 "a client was dropped: its memory can't be filled and sealed "
                 "against holes (F_SEAL_FUTURE_WRITE)");
        clients_drop(monitor, done->place);
    } else if (!done->read) {
        if (done->sealed) {
            connection_joined(monitor, done->place);
        }
        finish(monitor, done->place);
    } else if (done->length >= 0) {
        serve(monitor, done->place, done->bytes, (size_t)done->length, done, fd);
    } else {
        clients_drop(monitor, done->place);
    }
}

void clients_report(struct monitor *monitor)
{
    struct report_of_job done;
    int fd;
    const int got = helper_report(&monitor->helper, &done, &fd);
    if (got < 0) {
        monitor->ended = 1;
        failed("the helper that closes files", "it has ended");
    } else if (got > 0) {
        go_on(monitor, &done, &fd);
    }
}
