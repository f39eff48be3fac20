/* What clients pass, as the monitor sees it. */
#define _GNU_SOURCE
#include "helper.h"

#include <errno.h>
#include <stdio.h>
#include <sys/socket.h>
#include <sys/un.h>

enum { DRAINED_MOST = 64 };

/* ---- packets */

int send_with_file(int to, const void *bytes, size_t length, int fd, int flags)
{
    union {
        struct cmsghdr aligned;
        char bytes[CMSG_SPACE(sizeof(int))];
    } control;
    struct iovec part = {(void *)(uintptr_t)bytes, length};
    struct msghdr message = {.msg_iov = &part, .msg_iovlen = 1};
    if (fd != NO_FD) {
        memset(&control, 0, sizeof control);
        message.msg_control = &control;
        message.msg_controllen = sizeof control;
        struct cmsghdr *head = CMSG_FIRSTHDR(&message);
        head->cmsg_level = SOL_SOCKET;
        head->cmsg_type = SCM_RIGHTS;
        head->cmsg_len = CMSG_LEN(sizeof fd);
        memcpy(CMSG_DATA(head), &fd, sizeof fd);
    }
    ssize_t sent;
    do {
        sent = sendmsg(to, &message, flags | MSG_NOSIGNAL);
    } while (sent < 0 && errno == EINTR);
    return sent == (ssize_t)length;
}

ssize_t receive_packet(int from, uint8_t bytes[PACKET_MOST_BYTES], int *with_files)
{
    union {
        struct cmsghdr aligned;
        char bytes[CMSG_SPACE(sizeof(struct ucred))]; /* no room for files */
    } control;
    struct iovec part = {bytes, 0};
    struct msghdr message = {.msg_iov = &part,
                             .msg_iovlen = 1,
                             .msg_control = &control,
                             .msg_controllen = sizeof control};
    const ssize_t seen = recvmsg(from, &message, MSG_PEEK | MSG_DONTWAIT);
    *with_files = seen >= 0 && (message.msg_flags & MSG_CTRUNC);
    if (seen < 0 || *with_files) {
        return seen;
    }
    if (CMSG_FIRSTHDR(&message) == NULL) { /* every packet has its sender's credentials */
        errno = EPIPE;
        return -1;
    }
    return recv(from, bytes, PACKET_MOST_BYTES, MSG_DONTWAIT | MSG_TRUNC);
}

int is_drained(int from)
{
    uint8_t bytes[PACKET_MOST_BYTES];
    int with_files = 0;
    for (int n = 0; n < DRAINED_MOST && !with_files; n++) {
        if (receive_packet(from, bytes, &with_files) < 0 && errno != ECONNRESET && errno != EINTR) {
            return 1; /* a reset is told before the packets */
        }
    }
    return 0;
}

/* ---- channels */

static int option_of(int fd, int name)
{
    int value = -1;
    socklen_t size = sizeof value;
    return getsockopt(fd, SOL_SOCKET, name, &value, &size) == 0 ? value : -1;
}

/* Whether no file waits in a Unix socket, by the kernel's own count. The socket is not read:
 * another may read it at the same time, and hold up whoever comes behind. */
static int holds_no_file(int fd)
{
    char name[64], line[128];
    unsigned waiting = 1;
    snprintf(name, sizeof name, "/proc/self/fdinfo/%d", fd);
    FILE *info = fopen(name, "re");
    while (info != NULL && fgets(line, sizeof line, info) != NULL &&
           sscanf(line, "scm_fds: %u", &waiting) != 1) {
    }
    if (info != NULL) {
        fclose(info);
    }
    return waiting == 0;
}

/* The pair must be of the process that asks. An end of a connection to this monitor or to another
 * would keep that open for a client that has gone, and so would a socket that holds one: nothing
 * comes into it from here on. */
int becomes_channel(int fd, pid_t pid)
{
    struct ucred peer = {0, 0, 0};
    struct sockaddr_un name;
    socklen_t size = sizeof peer, named = sizeof name;
    return option_of(fd, SO_DOMAIN) == AF_UNIX && option_of(fd, SO_TYPE) == SOCK_SEQPACKET &&
           option_of(fd, SO_ACCEPTCONN) == 0 &&
           getpeername(fd, (struct sockaddr *)&name, &named) == 0 &&
           getsockopt(fd, SOL_SOCKET, SO_PEERCRED, &peer, &size) == 0 && peer.pid == pid &&
           shutdown(fd, SHUT_RD) == 0 && holds_no_file(fd);
}
