/* Files that the monitor did not ask for, or that take long to close or to read, and the client's own end of its connection. */
#define _GNU_SOURCE
#include "rival.h"

#include <fcntl.h>
#include <linux/userfaultfd.h>
#include <netinet/in.h>
#include <poll.h>
#include <signal.h>
#include <stdio.h>
#include <sys/epoll.h>
#include <sys/ioctl.h>
#include <sys/mman.h>
#include <sys/socket.h>
#include <sys/syscall.h>
#include <time.h>
#include <unistd.h>

/* Empty packets, packets that are too long, and files that nobody asked for: all are answered, and nothing stays open. */
void odd_packets(void)
{
    struct link link;
    uint8_t request[2 * PACKET_MOST_BYTES], answer[PACKET_MOST_BYTES];
    struct packet packet;
    memset(request, 0, sizeof request);
    EXPECT(link_open(&link, path) == 0);
    for (int n = 0; n < 3000; n++) {
        const int file = open("/dev/null", O_RDWR | O_CLOEXEC);
        const size_t length = n % 3 == 0 ? 0 : n % 3 == 1 ? 3 : sizeof request;
        const size_t got = link_exchange(&link, request, length, file, answer);
        EXPECT(get_packet(answer, got, LESUNGKAP_TAPE_ANSWER_MARK, &packet) && packet.third == LESUNGKAP_BAD_TAPE_RECORD);
        close(file);
    }
    link_close(&link);
}

/* ---- files that take long */

/* A connected TCP socket whose close waits six seconds for a reader that does not read. */
static int lingering(int *reader)
{
    static const char bytes[65536];
    const struct linger linger = {1, 6};
    struct sockaddr_in address = {.sin_family = AF_INET, .sin_addr = {htonl(INADDR_LOOPBACK)}};
    socklen_t size = sizeof address;
    const int listener = socket(AF_INET, SOCK_STREAM | SOCK_CLOEXEC, 0), fd = socket(AF_INET, SOCK_STREAM | SOCK_CLOEXEC, 0);
    EXPECT(bind(listener, (struct sockaddr *)&address, size) == 0 && listen(listener, 1) == 0);
    EXPECT(getsockname(listener, (struct sockaddr *)&address, &size) == 0 && connect(fd, (struct sockaddr *)&address, size) == 0);
    EXPECT((*reader = accept(listener, NULL, NULL)) >= 0 && close(listener) == 0);
    EXPECT(setsockopt(fd, SOL_SOCKET, SO_LINGER, &linger, sizeof linger) == 0);
    while (send(fd, bytes, sizeof bytes, MSG_DONTWAIT) > 0) {
    }
    return fd;
}

static double seconds(void)
{
    struct timespec now;
    clock_gettime(CLOCK_MONOTONIC, &now);
    return (double)now.tv_sec + (double)now.tv_nsec / 1e9;
}

/* A byte with two files, which are then the monitor's alone. */
static void send_two_files(const struct link *link, int first, int second)
{
    union {
        struct cmsghdr aligned;
        char bytes[CMSG_SPACE(2 * sizeof(int))];
    } control;
    const int files[2] = {first, second};
    uint8_t byte = 0;
    struct iovec part = {&byte, 1};
    struct msghdr message = {.msg_iov = &part, .msg_iovlen = 1, .msg_control = &control, .msg_controllen = sizeof control};
    memset(&control, 0, sizeof control);
    struct cmsghdr *head = CMSG_FIRSTHDR(&message);
    head->cmsg_level = SOL_SOCKET;
    head->cmsg_type = SCM_RIGHTS;
    head->cmsg_len = CMSG_LEN(sizeof files);
    memcpy(CMSG_DATA(head), files, sizeof files);
    EXPECT(sendmsg(link->fd, &message, MSG_NOSIGNAL) == 1 && close(first) == 0 && close(second) == 0);
}

/* Another client is answered a hundred times within four seconds, also when it passes a file. */
static void others_are_served(struct client *other)
{
    const double since = seconds();
    for (int n = 0; n < 100; n++) {
        EXPECT(ask_window(&other->link, &other->bytes) == LESUNGKAP_DONE);
    }
    EXPECT(ask_join(&other->link, other->memory_file) == LESUNGKAP_IN_USE);
    EXPECT(seconds() - since < 4);
}

/* An answer that has not come after four seconds is lost. */
static void be_impatient(struct client *client)
{
    const struct timeval patience = {4, 0};
    EXPECT(setsockopt(client->link.fd, SOL_SOCKET, SO_RCVTIMEO, &patience, sizeof patience) == 0);
}

/* Files that take long to close hold up nobody but who passed them: one that waits for its answer, one that has gone before they were read,
 * and one that is refused. */
void slow_files(void)
{
    enum { PASSED = 3, MORE = CONNECTIONS - PASSED }; /* the other, one that waits, one that leaves */
    struct client other;
    struct link links[PASSED], more[MORE];
    int readers[2 * PASSED];
    client_join(&other, path);
    be_impatient(&other);
    for (int n = 0; n < PASSED; n++) {
        const int first = lingering(readers + 2 * n), second = lingering(readers + 2 * n + 1);
        for (int m = 0; n == 2 && m < MORE; m++) {
            EXPECT(link_open(more + m, path) == 0 && ask_window(more + m, &other.bytes) == LESUNGKAP_DONE);
        }
        const pid_t monitor = stop_monitor(&other.link);
        EXPECT(link_open(links + n, path) == 0);
        send_two_files(links + n, first, second);
        if (n == 1) {
            link_close(links + n);
        }
        EXPECT(kill(monitor, SIGCONT) == 0);
        others_are_served(&other);
    }
    for (int n = 0; n < 2 * PASSED; n++) {
        close(readers[n]);
    }
    uint8_t answer[PACKET_MOST_BYTES];
    EXPECT(recv(links[0].fd, answer, sizeof answer, 0) > 0 && recv(links[2].fd, answer, sizeof answer, 0) <= 0);
    link_close(links);
    link_close(links + 2);
    for (int m = 0; m < MORE; m++) {
        link_close(more + m);
    }
    client_close(&other);
}

/* A thread that never gets done with a socket: what it asks the kernel for goes to a page whose first touch waits for ever, and is told to
 * `faults`. */
struct stuck {
    int faults;
    void *page;
    int socket; /* read, if there is no epoll */
    int epoll;
};

/* Makes the page; 0 where the kernel does not let us. */
static int open_page(struct stuck *stuck)
{
    struct uffdio_api api = {.api = UFFD_API};
    stuck->faults = (int)syscall(SYS_userfaultfd, O_CLOEXEC | O_NONBLOCK);
    stuck->page = mmap(NULL, PACKET_PAGE, PROT_READ | PROT_WRITE, MAP_PRIVATE | MAP_ANONYMOUS, -1, 0);
    struct uffdio_register page = {.range = {(uintptr_t)stuck->page, PACKET_PAGE}, .mode = UFFDIO_REGISTER_MODE_MISSING};
    return stuck->faults >= 0 && ioctl(stuck->faults, UFFDIO_API, &api) == 0 && ioctl(stuck->faults, UFFDIO_REGISTER, &page) == 0;
}

static void *get_stuck(void *given)
{
    const struct stuck *stuck = given;
    if (stuck->epoll >= 0) {
        epoll_wait(stuck->epoll, stuck->page, 1, -1);
    } else {
        (void)!recv(stuck->socket, stuck->page, 1, 0);
    }
    return NULL;
}

/* A socket for events that such a thread reads, or whose events it waits for; the other end. Who reads it, or closes it as the last, waits for
 * that thread. */
static int open_stuck(struct stuck *stuck, int closing)
{
    struct epoll_event event = {.events = EPOLLIN};
    struct pollfd told = {.fd = stuck->faults, .events = POLLIN};
    pthread_t thread;
    int ends[2];
    EXPECT(socketpair(AF_UNIX, SOCK_SEQPACKET | SOCK_CLOEXEC, 0, ends) == 0 && send(ends[0], "a", 1, 0) == 1 && send(ends[0], "b", 1, 0) == 1);
    stuck->socket = ends[1];
    stuck->epoll = closing ? epoll_create1(EPOLL_CLOEXEC) : -1;
    EXPECT(!closing || epoll_ctl(stuck->epoll, EPOLL_CTL_ADD, stuck->socket, &event) == 0);
    EXPECT(pthread_create(&thread, NULL, get_stuck, stuck) == 0 && poll(&told, 1, -1) == 1);
    return ends[0];
}

/* A client whose channel the monitor would get stuck with harms nobody else, while it is there and when it has gone. */
void stuck_channels(void)
{
    static struct stuck stuck[2];
    struct client other, a;
    client_join(&other, path);
    be_impatient(&other);
    for (int n = 0; n < 2; n++) {
        if (!open_page(stuck + n)) {
            printf("left out: the kernel tells no faults\n");
            break;
        }
        client_join(&a, path);
        be_impatient(&a);
        const int end = open_stuck(stuck + n, n);
        EXPECT(ask_create_cq(&a.link, 1, &a.cqn) == LESUNGKAP_DONE && ask_channel(&a.link, a.cqn, stuck[n].socket) == LESUNGKAP_DONE);
        close(n == 0 ? end : stuck[n].socket);
        client_close(&a);
        others_are_served(&other);
    }
    client_close(&other);
}

/* Passes a socket that nobody can close as the last as long as this process lives. */
void never_closes(void)
{
    static struct stuck stuck;
    const struct packet window = {PACKET_WINDOW, 0, NULL, 0};
    uint8_t request[PACKET_MOST_BYTES];
    struct link link;
    if (!open_page(&stuck)) {
        printf("left out: the kernel tells no faults\n");
        fflush(stdout);
        _exit(0);
    }
    EXPECT(link_open(&link, path) == 0);
    open_stuck(&stuck, 1);
    const pid_t monitor = stop_monitor(&link); /* it does not close the socket before this process does */
    EXPECT(link_send(&link, request, put_packet(request, LESUNGKAP_TAPE_CALL_MARK, &window), stuck.socket));
    close(stuck.socket);
    EXPECT(kill(monitor, SIGCONT) == 0);
    usleep(1000000); /* until the monitor has it, on a busy machine too */
    printf("passed\n");
    fflush(stdout);
    pause();
}

/* ---- channels */

/* What can't be an event's socket. */
void bad_channels(void)
{
    struct client a;
    uint32_t cqn;
    int ends[2];
    client_join(&a, path);
    EXPECT(ask_create_cq(&a.link, 1, &cqn) == LESUNGKAP_DONE && ask_channel(&a.link, cqn, -1) == LESUNGKAP_BAD_FIELD);
    EXPECT(pipe(ends) == 0 && ask_channel(&a.link, cqn, ends[1]) == LESUNGKAP_BAD_FIELD);
    close(ends[0]);
    close(ends[1]);
    EXPECT(socketpair(AF_UNIX, SOCK_STREAM, 0, ends) == 0 && ask_channel(&a.link, cqn, ends[1]) == LESUNGKAP_BAD_FIELD);
    close(ends[0]);
    close(ends[1]);
    client_close(&a);
}

/* Passes the client's end of its own connection to the monitor in the n-th way: as a channel; with a request that wants no file; inside a
 * socket that is to be a channel, behind an empty packet; inside one that can't be. */
static void pass_own_end(struct client *a, uint32_t cqn, int way)
{
    const struct packet window = {PACKET_WINDOW, 0, NULL, 0};
    uint8_t request[PACKET_MOST_BYTES], answer[PACKET_MOST_BYTES];
    struct link inside;
    int ends[2];
    if (way == 0) {
        EXPECT(ask_channel(&a->link, cqn, a->link.fd) == LESUNGKAP_BAD_FIELD);
    } else if (way == 1) {
        EXPECT(link_exchange(&a->link, request, put_packet(request, LESUNGKAP_TAPE_CALL_MARK, &window), a->link.fd, answer) > 0);
    } else {
        EXPECT(socketpair(AF_UNIX, (way == 2 ? SOCK_SEQPACKET : SOCK_DGRAM) | SOCK_CLOEXEC, 0, ends) == 0);
        inside.fd = ends[0];
        EXPECT(send(ends[0], NULL, 0, 0) == 0 && link_send(&inside, request, 0, a->link.fd));
        EXPECT(ask_channel(&a->link, cqn, ends[1]) == LESUNGKAP_BAD_FIELD);
        close(ends[0]);
        close(ends[1]);
    }
}

/* A client that passes its own end, is answered, and goes: four others have place, seat and objects at once. */
void own_end(void)
{
    struct client clients[4], a;
    uint32_t cqn;
    for (int n = 0; n < 40; n++) {
        client_join(&a, path);
        EXPECT(ask_create_cq(&a.link, 1, &cqn) == LESUNGKAP_DONE);
        pass_own_end(&a, cqn, n % 4);
        client_close(&a);
        for (int m = 0; m < 4; m++) {
            client_open(clients + m, path, 1);
        }
        for (int m = 0; m < 4; m++) {
            client_close(clients + m);
        }
    }
}
