/* Connections: how clients come, bring their memory, are answered, and go. Nothing here waits for a
 * client. */
#define _GNU_SOURCE
#include "monitor.h"

#include <errno.h>
#include <poll.h>
#include <stdio.h>
#include <sys/epoll.h>
#include <sys/mman.h>
#include <sys/socket.h>
#include <unistd.h>

enum { HUGE_PAGE = 2097152 };

void clients_init(struct monitor *monitor)
{
    for (unsigned n = 0; n < LESUNGKAP_CQ_COUNT; n++) {
        monitor->events[n].channel = NO_FD;
    }
}

/* Lines are limited by operator, of clients with a seat by the seat. */
static void complain_about(struct lines *lines, const struct user *user, pid_t pid,
                           const char *what)
{
    char who[OPERATOR_NAME_BYTES + 48];
    snprintf(who, sizeof who, "operator %s, process %d", user->name, (int)pid);
    report(lines, who, what);
}

void complain(struct monitor *monitor, unsigned number, const char *what)
{
    const struct connection *connection = monitor->connections + number;
    const int seat = connection->seat;
    complain_about(seat != NO_SEAT ? monitor->seat_lines + seat : &connection->user->lines,
                   connection->user, connection->pid, what);
}

/* ---- what is listened to */

/* Clients with a seat are told of one by one, those without by their operator. */
static int epoll_of(const struct monitor *monitor, const struct connection *connection)
{
    return connection->seat != NO_SEAT ? monitor->epoll : connection->user->unseated;
}

/* Which events of a connection are told; that its client has hung up always is. */
int connection_listen_to(const struct monitor *monitor, unsigned number, int how, uint32_t which)
{
    const struct connection *connection = monitor->connections + number;
    struct epoll_event event = {.events = which, .data = {.u32 = number}};
    return epoll_ctl(epoll_of(monitor, connection), how, connection->fd, &event) == 0;
}

/* ---- the helper's jobs */

static void ask_helper(struct monitor *monitor, const struct job *job, int fd)
{
    if (!helper_ask(&monitor->helper, job, fd)) {
        monitor->ended = 1;
    }
}

/* Has the connection's job done; nothing of it is read before the helper reports. */
void connection_send_job(struct monitor *monitor, unsigned number)
{
    struct connection *connection = monitor->connections + number;
    connection->job.place = (uint8_t)number;
    connection->busy = 1;
    if (connection->state == ASKS) {
        connection->state = WAITS;
        connection_listen_to(monitor, number, EPOLL_CTL_MOD, 0);
    }
    ask_helper(monitor, &connection->job, NO_FD);
    connection->job = (struct job){0};
}

int connection_has_job(const struct job *job)
{
    return job->seal || job->keep || job->drop_file || job->drop_channels != 0;
}

/* ---- going */

static uint8_t *window_of(const struct monitor *monitor, int seat)
{
    return monitor->card.memory + (size_t)seat * monitor->window;
}

/* Nothing is behind a window that is nobody's; whether it is so. */
static int free_window(const struct monitor *monitor, int seat)
{
    return mmap(window_of(monitor, seat), monitor->window, PROT_NONE,
                MAP_PRIVATE | MAP_ANONYMOUS | MAP_NORESERVE | MAP_FIXED, -1, 0) != MAP_FAILED;
}

void connection_free_place(struct monitor *monitor, unsigned number)
{
    struct connection *connection = monitor->connections + number;
    connection->state = FREE;
    if (connection->user != NULL) {
        connection->user->connections--;
    }
    monitor->accept_after = monitor->accept_after > 0; /* now, there is a place */
}

/* Frees the place of one that has gone. Where nothing waits in its connection, to close it takes no
 * time, and the helper need not report. */
void connection_leave(struct monitor *monitor, unsigned number)
{
    struct connection *connection = monitor->connections + number;
    struct job *job = &connection->job;
    job->place = (uint8_t)number;
    job->drop_connection = 1;
    job->silent = !connection_has_job(job) && is_drained(connection->fd);
    close(connection->fd);
    connection->fd = NO_FD;
    if (job->silent) {
        ask_helper(monitor, job, NO_FD);
        connection_free_place(monitor, number);
    } else {
        connection_send_job(monitor, number);
    }
}

static int all_seats_free(const struct monitor *monitor)
{
    unsigned taken = 0;
    for (unsigned n = 0; n < monitor->seats; n++) {
        taken += monitor->taken[n];
    }
    return taken == 0;
}

/* Where no client is left and an operator has used a sixteenth of its keys, the card is reset, and
 * all have their keys again. */
static void renew(struct monitor *monitor)
{
    int used = 0;
    for (unsigned n = 0; n < monitor->operator_count; n++) {
        const struct user *user = monitor->operators + n;
        used |= user->keys > 0 && user->keys >= operator_keys(monitor, user) / 16;
    }
    if (!used || !all_seats_free(monitor)) {
        return;
    }
    monitor->ended |= !card_renew(&monitor->card);
    for (unsigned n = 0; n < monitor->operator_count; n++) {
        monitor->operators[n].keys = 0;
    }
}

static void give_seat_back(struct monitor *monitor, unsigned number)
{
    struct connection *connection = monitor->connections + number;
    struct tape *tape = &monitor->card.tape;
    tape_who(tape, tape_records(tape), connection->user->name, connection->client, "gone");
    connection->user->seated--;
    if (free_window(monitor, connection->seat)) {
        monitor->taken[connection->seat] = 0;
    } else {
        complain(monitor, number, "a window could not be freed, its seat stays taken");
    }
    connection->seat = NO_SEAT;
    counters_close(connection);
    renew(monitor);
}

void clients_drop(struct monitor *monitor, unsigned number)
{
    struct connection *connection = monitor->connections + number;
    destroy_all(monitor, number);
    shutdown(connection->fd, SHUT_RDWR);
    connection_listen_to(monitor, number, EPOLL_CTL_DEL, 0);
    if (connection->seat != NO_SEAT) {
        give_seat_back(monitor, number);
    }
    connection->state = LEAVES;
    if (!connection->busy) {
        connection_leave(monitor, number);
    }
}

/* ---- coming */

/* A free place from `first` to the one before `end`, or `end`. */
static unsigned find_place(const struct monitor *monitor, unsigned first, unsigned end)
{
    while (first < end && monitor->connections[first].state != FREE) {
        first++;
    }
    return first;
}

/* Gives the helper its own descriptor of a connection. */
static void take_place(struct monitor *monitor, unsigned place, int fd, const struct ucred *peer,
                       struct user *user)
{
    const struct job take = {.place = (uint8_t)place, .take = 1};
    monitor->connections[place] = (struct connection){
        .state = ASKS, .fd = fd, .pid = peer->pid, .user = user, .seat = NO_SEAT};
    ask_helper(monitor, &take, fd);
}

/* Closes a newcomer's connection. If something waits in it, that takes a place for as long as it
 * takes. */
static void refuse(struct monitor *monitor, int fd, const struct ucred *peer, struct user *user)
{
    const unsigned place = find_place(monitor, CONNECTIONS_MOST, PLACES);
    char who[32];
    if (user == NULL) {
        snprintf(who, sizeof who, "user %u", (unsigned)peer->uid);
        report(&monitor->strangers, who,
               "a connection was refused: this user was not named (--operator)");
    } else {
        complain_about(&user->lines, user, peer->pid,
                       "a connection was refused: this operator has too many");
    }
    shutdown(fd, SHUT_RDWR);
    if (is_drained(fd)) {
        close(fd);
    } else {
        take_place(monitor, place, fd, peer, NULL);
        monitor->connections[place].state = LEAVES;
        connection_leave(monitor, place);
    }
}

/* Drops an operator's connections whose client has hung up. */
static void drop_hung_up(struct monitor *monitor, const struct user *user)
{
    for (unsigned n = 0; n < CONNECTIONS_MOST; n++) {
        const struct connection *connection = monitor->connections + n;
        struct pollfd end = {.fd = connection->fd, .events = POLLRDHUP};
        if (connection->user == user && (connection->state == ASKS || connection->state == WAITS) &&
            poll(&end, 1, 0) == 1 && end.revents != 0) {
            clients_drop(monitor, n);
        }
    }
}

static void welcome(struct monitor *monitor, int fd)
{
    struct ucred peer = {0, (uid_t)-1, (gid_t)-1};
    socklen_t size = sizeof peer;
    getsockopt(fd, SOL_SOCKET, SO_PEERCRED, &peer, &size);
    struct user *user = operators_find(monitor, peer.uid);
    if (user != NULL && user->connections >= operator_connections(user)) {
        drop_hung_up(monitor, user);
    }
    const unsigned place = find_place(monitor, 0, CONNECTIONS_MOST);
    if (user == NULL || user->connections >= operator_connections(user) ||
        place == CONNECTIONS_MOST) {
        refuse(monitor, fd, &peer, user);
        return;
    }
    take_place(monitor, place, fd, &peer, user);
    user->connections++;
    if (!connection_listen_to(monitor, place, EPOLL_CTL_ADD, EPOLLIN | EPOLLRDHUP)) {
        complain(monitor, place, "a connection was refused: it can't be listened to");
        clients_drop(monitor, place);
    }
}

int clients_accept(struct monitor *monitor, int listener)
{
    if (find_place(monitor, CONNECTIONS_MOST, PLACES) == PLACES) {
        report(&monitor->lines, "newcomers",
               "they wait: files of those that were refused are not closed yet");
        return 0;
    }
    const int fd = accept4(listener, NULL, NULL, SOCK_CLOEXEC | SOCK_NONBLOCK);
    if (fd >= 0) {
        welcome(monitor, fd);
    } else if (errno != EAGAIN && errno != ECONNABORTED && errno != EINTR) {
        report(&monitor->lines, "newcomers", "they wait for want of files or memory");
        return 0;
    }
    return 1;
}

/* ---- joining */

static int free_seat(const struct monitor *monitor)
{
    for (unsigned seat = 0; seat < monitor->seats; seat++) {
        if (!monitor->taken[seat]) {
            return (int)seat;
        }
    }
    return NO_SEAT;
}

/* Why a client may not join with this memory; LESUNGKAP_DONE if it may. */
static uint32_t join_refused(struct monitor *monitor, unsigned number,
                             const struct report_of_job *with)
{
    struct connection *connection = monitor->connections + number;
    if (with == NULL || with->file != MEMORY) {
        complain(monitor, number,
                 "its memory was refused: it is no memfd that is sealed against "
                 "shrinking and growing");
        return LESUNGKAP_BAD_FIELD;
    }
    if (connection->seat != NO_SEAT) {
        return LESUNGKAP_IN_USE;
    }
    const uint64_t blocks_most = (monitor->window + HUGE_PAGE) / 512; /* more take long to free */
    if (with->file_bytes <= 0 || with->file_bytes % PACKET_PAGE != 0 ||
        (uint64_t)with->file_bytes > monitor->window || (uint64_t)with->file_blocks > blocks_most) {
        return LESUNGKAP_RANGE;
    }
    if (connection->user->seated >= connection->user->share || free_seat(monitor) == NO_SEAT) {
        complain(monitor, number, "a client was refused: its operator's seats are taken");
        return LESUNGKAP_FULL;
    }
    return LESUNGKAP_DONE;
}

static void take_seat(struct monitor *monitor, unsigned number, int seat, uint64_t bytes)
{
    struct connection *connection = monitor->connections + number;
    struct tape *tape = &monitor->card.tape;
    connection_listen_to(monitor, number, EPOLL_CTL_DEL, 0);
    monitor->taken[seat] = 1;
    connection->user->seated++;
    connection->user->clients++;
    connection->client = ++monitor->clients;
    connection->seat = seat;
    connection->window_bytes = bytes;
    connection_listen_to(monitor, number, EPOLL_CTL_ADD,
                         0); /* nothing is read until the helper has reported */
    tape_who(tape, tape_records(tape), connection->user->name, connection->client,
             "joined: process %d, memory from %" PRIu64 " on, %" PRIu64 " bytes",
             (int)connection->pid, (uint64_t)seat * monitor->window, bytes);
}

/* Maps the client's memory into a window. It is filled and sealed after that, and before the
 * answer: nobody makes holes in it, which who touches them would have to wait for. */
uint32_t connection_join(struct monitor *monitor, unsigned number, const struct report_of_job *with,
                         int fd)
{
    const uint32_t refused = join_refused(monitor, number, with);
    if (refused != LESUNGKAP_DONE) {
        return refused;
    }
    const int seat = free_seat(monitor);
    const size_t bytes = (size_t)with->file_bytes;
    if (mmap(window_of(monitor, seat), bytes, PROT_READ | PROT_WRITE, MAP_SHARED | MAP_FIXED, fd,
             0) == MAP_FAILED) {
        complain(monitor, number, "its memory was refused: it can't be mapped");
        monitor->taken[seat] = !free_window(monitor, seat);
        return LESUNGKAP_BAD_FIELD;
    }
    take_seat(monitor, number, seat, bytes);
    monitor->connections[number].job.seal = 1;
    return LESUNGKAP_DONE;
}

/* A window whose pages are there; what is left to do is that the kernel writes them down. */
void connection_joined(const struct monitor *monitor, unsigned number)
{
    const struct connection *connection = monitor->connections + number;
#ifdef MADV_POPULATE_WRITE
    madvise(window_of(monitor, connection->seat), connection->window_bytes, MADV_POPULATE_WRITE);
#else
    (void)monitor;
    (void)connection;
#endif
}
