#define _GNU_SOURCE
#include "link.h"

#include <errno.h>
#include <pwd.h>
#include <sched.h>
#include <stdlib.h>
#include <sys/socket.h>
#include <sys/un.h>
#include <unistd.h>

enum { LOOKS_MOST = 16 };

/* ---- the socket */

int link_open(struct link *link, const char *path)
{
    struct sockaddr_un address = {.sun_family = AF_UNIX};
    if (strlen(path) >= sizeof address.sun_path) {
        return ENAMETOOLONG;
    }
    strcpy(address.sun_path, path);
    link->fd = socket(AF_UNIX, SOCK_SEQPACKET | SOCK_CLOEXEC, 0);
    if (link->fd < 0) {
        return errno;
    }
    if (connect(link->fd, (const struct sockaddr *)&address, sizeof address) != 0) {
        const int why = errno;
        close(link->fd);
        return why;
    }
    pthread_mutex_init(&link->lock, NULL);
    link->counters = NULL;
    link->looks = 0;
    return 0;
}

int link_is_of(const struct link *link, const char *user)
{
    struct ucred listener;
    socklen_t size = sizeof listener;
    char *end = NULL;
    const struct passwd *entry = getpwnam(user);
    const unsigned long number = strtoul(user, &end, 10);
    const int is_number = *user >= '0' && *user <= '9' && *end == '\0';
    if (getsockopt(link->fd, SOL_SOCKET, SO_PEERCRED, &listener, &size) != 0) {
        return 0;
    }
    return entry != NULL ? listener.uid == entry->pw_uid : is_number && listener.uid == number;
}

void link_close(struct link *link)
{
    if (link->fd >= 0) {
        close(link->fd);
    }
    link_drop_counters(link);
    pthread_mutex_destroy(&link->lock);
}

void link_lose(struct link *link)
{
    close(link->fd);
    link_drop_counters(link);
    link->fd = -1;
    pthread_mutex_init(&link->lock, NULL);
}

int link_errno(uint32_t result)
{
    return lesungkap_answer(result) == LINK_LOST ? EIO
                                                 : lesungkap_answer_errno(lesungkap_answer(result));
}

int link_send(const struct link *link, const uint8_t *bytes, size_t length, int file)
{
    union {
        struct cmsghdr aligned;
        char bytes[CMSG_SPACE(sizeof(int))];
    } control;
    struct iovec part = {(void *)(uintptr_t)bytes, length};
    struct msghdr message = {.msg_iov = &part, .msg_iovlen = 1};
    if (file >= 0) {
        memset(&control, 0, sizeof control);
        message.msg_control = &control;
        message.msg_controllen = sizeof control;
        struct cmsghdr *head = CMSG_FIRSTHDR(&message);
        head->cmsg_level = SOL_SOCKET;
        head->cmsg_type = SCM_RIGHTS;
        head->cmsg_len = CMSG_LEN(sizeof file);
        memcpy(CMSG_DATA(head), &file, sizeof file);
    }
    ssize_t sent;
    do {
        sent = sendmsg(link->fd, &message, MSG_NOSIGNAL);
    } while (sent < 0 && errno == EINTR);
    return sent == (ssize_t)length;
}

size_t link_exchange(struct link *link, const uint8_t *request, size_t length, int file,
                     uint8_t *answer)
{
    ssize_t got = -1;
    pthread_mutex_lock(&link->lock);
    if (link_send(link, request, length, file)) {
        do {
            got = recv(link->fd, answer, PACKET_MOST_BYTES, 0);
        } while (got < 0 && errno == EINTR);
    }
    pthread_mutex_unlock(&link->lock);
    return got > 0 ? (size_t)got : 0;
}

/* ---- one request, one answer */

uint32_t link_ask(struct link *link, unsigned kind, uint32_t number, const uint8_t *body,
                  size_t length, int file, struct asked *asked)
{
    uint8_t request[PACKET_MOST_BYTES];
    const struct packet packet = {(uint8_t)kind, (uint8_t)number, body, length};
    const size_t got = link_exchange(
        link, request, put_packet(request, LESUNGKAP_TAPE_CALL_MARK, &packet), file, asked->bytes);
    if (!get_packet(asked->bytes, got, LESUNGKAP_TAPE_ANSWER_MARK, &asked->packet)) {
        return asked->result = LINK_LOST;
    }
    return asked->result = asked->packet.third | (uint32_t)asked->packet.fourth << 8;
}

static uint32_t ask_plain(struct link *link, unsigned kind, uint32_t number, int file)
{
    struct asked asked;
    return link_ask(link, kind, number, NULL, 0, file, &asked);
}

static uint32_t ask_command(struct link *link, const uint8_t *command, size_t length,
                            struct asked *asked)
{
    return link_ask(link, PACKET_CONTROL, 0, command, length, -1, asked);
}

/* ---- the monitor's own requests */

uint32_t ask_window(struct link *link, uint32_t *bytes)
{
    struct asked asked;
    if (link_ask(link, PACKET_WINDOW, 0, NULL, 0, -1, &asked) == LESUNGKAP_DONE) {
        if (asked.packet.length != PACKET_WINDOW_BYTES ||
            get_number(asked.packet.body, 4) != PACKET_VERSION) {
            return LINK_LOST;
        }
        *bytes = get_number(asked.packet.body + 4, 4);
    }
    return asked.result;
}

uint32_t ask_join(struct link *link, int memory)
{
    return ask_plain(link, PACKET_JOIN, 0, memory);
}

uint32_t ask_channel(struct link *link, uint32_t cqn, int socket)
{
    return ask_plain(link, PACKET_CHANNEL, cqn, socket);
}

uint32_t ask_arm(struct link *link, uint32_t cqn)
{
    return ask_plain(link, PACKET_ARM, cqn, -1);
}

uint32_t ask_waits(struct link *link, uint32_t name, uint32_t *oldest, uint32_t *what)
{
    struct asked asked;
    if (link_ask(link, PACKET_WAITS, qp_number(name), NULL, 0, -1, &asked) == LESUNGKAP_DONE) {
        if (asked.packet.length != PACKET_WAITS_BYTES) {
            return LINK_LOST;
        }
        *oldest = get_number(asked.packet.body, 4);
        *what = get_number(asked.packet.body + 4, 4);
    }
    return asked.result;
}

/* ---- control commands */

/* The ack's test where the command was done; what is no ack was not sent by a monitor. */
static uint32_t acked(const struct asked *asked, unsigned test)
{
    return asked->result != LESUNGKAP_DONE || test == LESUNGKAP_DONE ? asked->result : LINK_LOST;
}

uint32_t ask_query_device(struct link *link, struct lesungkap_query_device_ack *device)
{
    uint8_t command[LESUNGKAP_COMMAND_MOST_BYTES];
    struct asked asked;
    ask_command(link, command, lesungkap_put_query_device(command, sizeof command), &asked);
    return acked(&asked,
                 lesungkap_get_query_device_ack(asked.packet.body, asked.packet.length, device));
}

uint32_t ask_query_port(struct link *link, struct lesungkap_query_port_ack *port)
{
    uint8_t command[LESUNGKAP_COMMAND_MOST_BYTES];
    struct asked asked;
    ask_command(link, command, lesungkap_put_query_port(command, sizeof command), &asked);
    return acked(&asked,
                 lesungkap_get_query_port_ack(asked.packet.body, asked.packet.length, port));
}

uint32_t ask_create_pd(struct link *link, uint32_t *pdn)
{
    uint8_t command[LESUNGKAP_COMMAND_MOST_BYTES];
    struct asked asked;
    struct lesungkap_create_pd_ack made = {0};
    ask_command(link, command, lesungkap_put_create_pd(command, sizeof command), &asked);
    const uint32_t result =
        acked(&asked, lesungkap_get_create_pd_ack(asked.packet.body, asked.packet.length, &made));
    *pdn = made.pdn;
    return result;
}

uint32_t ask_create_cq(struct link *link, uint32_t places, uint32_t *cqn)
{
    const struct lesungkap_create_cq wanted = {places};
    uint8_t command[LESUNGKAP_COMMAND_MOST_BYTES];
    struct asked asked;
    struct lesungkap_create_cq_ack made = {0};
    ask_command(link, command, lesungkap_put_create_cq(command, sizeof command, &wanted), &asked);
    const uint32_t result =
        acked(&asked, lesungkap_get_create_cq_ack(asked.packet.body, asked.packet.length, &made));
    *cqn = made.cqn;
    return result;
}

uint32_t ask_register_mr(struct link *link, const struct lesungkap_register_mr *wanted,
                         struct lesungkap_register_mr_ack *made)
{
    uint8_t command[LESUNGKAP_COMMAND_MOST_BYTES];
    struct asked asked;
    ask_command(link, command, lesungkap_put_register_mr(command, sizeof command, wanted), &asked);
    return acked(&asked,
                 lesungkap_get_register_mr_ack(asked.packet.body, asked.packet.length, made));
}

uint32_t ask_create_qp(struct link *link, const struct lesungkap_create_qp *wanted, uint32_t *name)
{
    uint8_t command[LESUNGKAP_COMMAND_MOST_BYTES];
    struct asked asked;
    struct lesungkap_create_qp_ack made = {0};
    ask_command(link, command, lesungkap_put_create_qp(command, sizeof command, wanted), &asked);
    const uint32_t result =
        acked(&asked, lesungkap_get_create_qp_ack(asked.packet.body, asked.packet.length, &made));
    *name = made.qpn;
    return result;
}

uint32_t ask_modify_qp(struct link *link, const struct lesungkap_modify_qp *wanted)
{
    uint8_t command[LESUNGKAP_COMMAND_MOST_BYTES];
    struct asked asked;
    return ask_command(link, command, lesungkap_put_modify_qp(command, sizeof command, wanted),
                       &asked);
}

uint32_t ask_destroy_pd(struct link *link, uint32_t pdn)
{
    const struct lesungkap_destroy_pd data = {pdn};
    uint8_t command[LESUNGKAP_COMMAND_MOST_BYTES];
    struct asked asked;
    return ask_command(link, command, lesungkap_put_destroy_pd(command, sizeof command, &data),
                       &asked);
}

uint32_t ask_destroy_cq(struct link *link, uint32_t cqn)
{
    const struct lesungkap_destroy_cq data = {cqn};
    uint8_t command[LESUNGKAP_COMMAND_MOST_BYTES];
    struct asked asked;
    return ask_command(link, command, lesungkap_put_destroy_cq(command, sizeof command, &data),
                       &asked);
}

uint32_t ask_deregister_mr(struct link *link, uint32_t mrn)
{
    const struct lesungkap_deregister_mr data = {mrn};
    uint8_t command[LESUNGKAP_COMMAND_MOST_BYTES];
    struct asked asked;
    return ask_command(link, command, lesungkap_put_deregister_mr(command, sizeof command, &data),
                       &asked);
}

uint32_t ask_destroy_qp(struct link *link, uint32_t name)
{
    const struct lesungkap_destroy_qp data = {name};
    uint8_t command[LESUNGKAP_COMMAND_MOST_BYTES];
    struct asked asked;
    return ask_command(link, command, lesungkap_put_destroy_qp(command, sizeof command, &data),
                       &asked);
}

/* ---- work */

uint32_t ask_send(struct link *link, uint32_t name, const struct lesungkap_send *send)
{
    uint8_t record[LESUNGKAP_SEND_MOST_BYTES];
    struct asked asked;
    const size_t length = lesungkap_put_send(record, sizeof record, send);
    return length == 0 ? (uint32_t)LESUNGKAP_BAD_FIELD
                       : link_ask(link, PACKET_SEND, qp_number(name), record, length, -1, &asked);
}

uint32_t ask_receive(struct link *link, uint32_t name, const struct lesungkap_receive *receive)
{
    uint8_t record[LESUNGKAP_RECEIVE_MOST_BYTES];
    struct asked asked;
    const size_t length = lesungkap_put_receive(record, sizeof record, receive);
    return length == 0
               ? (uint32_t)LESUNGKAP_BAD_FIELD
               : link_ask(link, PACKET_RECEIVE, qp_number(name), record, length, -1, &asked);
}

uint32_t ask_flush(struct link *link, uint32_t name)
{
    return ask_plain(link, PACKET_FLUSH, qp_number(name), -1);
}

/* Whether the monitor shows no completion of a queue. Now and then it is asked all the same, as it
 * may have gone. */
static int shows_none(struct link *link, uint32_t cqn)
{
    if (link->counters == NULL || cqn >= LESUNGKAP_CQ_COUNT || link_unread(link, cqn) > 0 ||
        ++link->looks >= LOOKS_MOST) {
        link->looks = 0;
        return 0;
    }
    sched_yield();
    return 1;
}

uint32_t ask_poll(struct link *link, uint32_t cqn, struct lesungkap_completion *completion,
                  unsigned *left)
{
    struct asked asked;
    if (shows_none(link, cqn)) {
        return LESUNGKAP_NOTHING;
    }
    link_ask(link, PACKET_POLL, cqn, NULL, 0, -1, &asked);
    if (asked.result != LESUNGKAP_DONE) {
        return asked.result;
    }
    if (asked.packet.length != PACKET_POLL_BYTES) {
        return LINK_LOST;
    }
    *left = asked.packet.body[LESUNGKAP_COMPLETION_BYTES];
    return acked(&asked,
                 lesungkap_get_completion(asked.packet.body, asked.packet.length, completion));
}
