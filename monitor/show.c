/* Statistics: a line for each operator, one of the tape, one of all that is live. */
#define _GNU_SOURCE
#include "monitor.h"

#include <errno.h>
#include <inttypes.h>
#include <stdio.h>
#include <sys/socket.h>
#include <sys/un.h>
#include <unistd.h>

/* ---- lines */

struct live {
    unsigned of[KINDS];
    unsigned seats;
    unsigned held;
};

/* What the connections of an operator have. */
static struct live live_of(const struct monitor *monitor, const struct user *user)
{
    struct live live = {.seats = user->seated};
    for (unsigned n = 0; n < CONNECTIONS_MOST; n++) {
        const struct connection *connection = monitor->connections + n;
        for (unsigned kind = 0;
             kind < KINDS && connection->user == user && connection->state != FREE; kind++) {
            live.of[kind] += connection->has[kind];
        }
    }
    for (uint32_t n = 0; n < LESUNGKAP_QP_COUNT; n++) {
        const unsigned owner = monitor->owner[QP][n];
        live.held +=
            owner > 0 && monitor->connections[owner - 1].user == user ? monitor->held[n].count : 0;
    }
    return live;
}

static int operator_line(const struct monitor *monitor, const struct user *user, char *text,
                         size_t size)
{
    const struct live live = live_of(monitor, user);
    const unsigned keys = operator_keys(monitor, user);
    return snprintf(text, size,
                    "operator %s: %u of %u seats, %u of %u connections, %u of %u keys used (%u "
                    "%%), %u PD, %u CQ, %u MR, %u QP, "
                    "%u held sends; %" PRIu64 " clients and %" PRIu64 " requests so far",
                    user->name, live.seats, user->share, user->connections,
                    operator_connections(user), user->keys, keys,
                    keys > 0 ? user->keys * 100 / keys : 0, live.of[PD], live.of[CQ], live.of[MR],
                    live.of[QP], live.held, user->clients, user->requests);
}

static int tape_line(const struct tape *tape, char *text, size_t size)
{
    if (!tape->recording) {
        return snprintf(text, size, "tape: %s",
                        tape->options.name == NULL ? "none" : "it can't be written");
    }
    return snprintf(text, size,
                    "tape: %s, part %u, %" PRIu64 " records, %" PRIu64 " bytes in this part",
                    tape->name, tape->part, tape->recorder.recorded,
                    tape->calls.written + tape->answers.written);
}

/* What the card itself says is live. */
static int live_line(const struct monitor *monitor, char *text, size_t size)
{
    struct live live = {.seats = 0};
    struct lesungkap_cq cq;
    struct lesungkap_mr mr;
    struct lesungkap_qp qp;
    const uint8_t *state = monitor->card.state;
    for (uint32_t n = 0; n < OBJECTS_MOST; n++) {
        live.of[PD] += lesungkap_peek_pd(state, LESUNGKAP_STATE_BYTES, n) == LESUNGKAP_DONE;
        live.of[CQ] += lesungkap_peek_cq(state, LESUNGKAP_STATE_BYTES, n, &cq) == LESUNGKAP_DONE;
        live.of[MR] += lesungkap_peek_mr(state, LESUNGKAP_STATE_BYTES, n, &mr) == LESUNGKAP_DONE;
        live.of[QP] += lesungkap_peek_qp(state, LESUNGKAP_STATE_BYTES, n, &qp) == LESUNGKAP_DONE;
    }
    for (unsigned n = 0; n < monitor->seats; n++) {
        live.seats += monitor->taken[n];
    }
    for (uint32_t n = 0; n < LESUNGKAP_QP_COUNT; n++) {
        live.held += monitor->held[n].count;
    }
    return snprintf(text, size,
                    "live: %u clients, %u PD, %u CQ, %u MR, %u QP, %u held sends; %" PRIu64
                    " clients and %" PRIu64 " requests so far",
                    live.seats, live.of[PD], live.of[CQ], live.of[MR], live.of[QP], live.held,
                    monitor->clients, monitor->requests);
}

/* Root and the monitor's own user see all, another operator its own line. */
size_t show_line(const struct monitor *monitor, const struct user *asks, unsigned number,
                 char *text, size_t size)
{
    const int all = asks == NULL || asks->uid == 0 || asks->uid == geteuid();
    int length = 0;
    if (!all) {
        length = number == 0 ? operator_line(monitor, asks, text, size) : 0;
    } else if (number < monitor->operator_count) {
        length = operator_line(monitor, monitor->operators + number, text, size);
    } else if (number == monitor->operator_count) {
        length = tape_line(&monitor->card.tape, text, size);
    } else if (number == monitor->operator_count + 1) {
        length = live_line(monitor, text, size);
    }
    return length < 0 ? 0 : (size_t)length < size ? (size_t)length : size - 1;
}

void show_all(const struct monitor *monitor)
{
    char text[LESUNGKAP_TAPE_MOST_BODY];
    if (!takes_a_line(STDOUT_FILENO)) {
        return;
    }
    for (unsigned n = 0; show_line(monitor, NULL, n, text, sizeof text) > 0; n++) {
        printf("%s\n", text);
    }
    fflush(stdout);
}

/* ---- asking another monitor */

/* One line of it: 1, 0 behind the last, -1 if it does not answer. */
static int ask_line(int fd, unsigned number)
{
    const struct packet show = {PACKET_SHOW, (uint8_t)number, NULL, 0};
    uint8_t bytes[PACKET_MOST_BYTES];
    struct packet answer;
    const size_t length = put_packet(bytes, LESUNGKAP_TAPE_CALL_MARK, &show);
    if (send(fd, bytes, length, MSG_NOSIGNAL) != (ssize_t)length) {
        return -1;
    }
    const ssize_t got = recv(fd, bytes, sizeof bytes, 0);
    if (got <= 0 || !get_packet(bytes, (size_t)got, LESUNGKAP_TAPE_ANSWER_MARK, &answer)) {
        return -1;
    }
    if (answer.third == LESUNGKAP_DONE) {
        printf("%.*s\n", (int)answer.length, (const char *)answer.body);
    }
    return answer.third == LESUNGKAP_DONE ? 1 : answer.third == LESUNGKAP_NOTHING ? 0 : -1;
}

int show_of(const char *path)
{
    struct sockaddr_un address = {.sun_family = AF_UNIX};
    const int fd = socket(AF_UNIX, SOCK_SEQPACKET | SOCK_CLOEXEC, 0);
    if (strlen(path) >= sizeof address.sun_path) {
        failed(path, "the path is too long for a socket");
        return 1;
    }
    strcpy(address.sun_path, path);
    if (connect(fd, (const struct sockaddr *)&address, sizeof address) != 0) {
        failed(path, strerror(errno));
        return 1;
    }
    int more = 1;
    for (unsigned n = 0; more > 0; n++) {
        more = ask_line(fd, n);
    }
    close(fd);
    if (more < 0) {
        failed(path, "it does not answer: is this user an operator of it?");
    }
    return more < 0;
}
