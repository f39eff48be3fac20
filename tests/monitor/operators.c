/* What one operator may not do to another. Operators are users: each case runs processes of several, so the program
 * is started by root. A line for each case; the first that isn't so ends the program.
 *
 * usage: operators SOCKET [CASE]        all cases, or this one, over a monitor with
 *                                       --clients 4 --operator 0:2 --operator 4001:1 --operator 4002:1
 *        operators SOCKET crowd SECONDS by hand: a victim's writes a second, alone and beside a crowd
 */
#define _GNU_SOURCE
#include "client.h"

#include <poll.h>
#include <sched.h>
#include <signal.h>
#include <stdio.h>
#include <stdlib.h>
#include <sys/mman.h>
#include <sys/socket.h>
#include <sys/wait.h>
#include <time.h>
#include <unistd.h>

enum {
    FIRST = 4001, /* users: operators with a seat each, and one who is none */
    SECOND = 4002,
    STRANGER = 4003,
    SEAT_CONNECTIONS = 8, /* of an operator with one seat */
    REGIONS = LESUNGKAP_MR_COUNT / 4 / 2, /* of a seat */
    KEYS = REGIONS * 255,
    NAMES = 65536,
    WAITING = 32,
    CROWD = 8
};

static const char *path;

/* What the processes of a case tell each other. */
static struct {
    _Atomic uint32_t name, stage;
    double stamps[CROWD][WAITING];
} *shared;

static void reach(uint32_t stage)
{
    while (shared->stage < stage) {
        usleep(1000);
    }
}

/* Runs a function as another user, in a process of its own. */
static pid_t start_as(uid_t user, void (*run)(void))
{
    fflush(stdout);
    const pid_t child = fork();
    EXPECT(child >= 0);
    if (child == 0) {
        EXPECT(setgid(user) == 0 && setuid(user) == 0);
        run();
        _exit(0);
    }
    return child;
}

static void ends_well(pid_t child)
{
    int status;
    EXPECT(waitpid(child, &status, 0) == child && status == 0);
}

static void run_as(uid_t user, void (*run)(void)) { ends_well(start_as(user, run)); }

/* ---- a name */

static void tell_name(void)
{
    struct client b;
    client_open(&b, path, 8);
    shared->name = b.qp;
}

/* Creates and destroys queue pairs until it has the name. */
static void take_name(void)
{
    struct client c;
    client_open(&c, path, 8);
    const struct lesungkap_create_qp pair = {c.pdn, LESUNGKAP_QP_TYPE_RC, LESUNGKAP_SIGNAL_ALL, c.cqn, c.cqn};
    for (int n = 0; n <= NAMES; n++) {
        EXPECT(ask_destroy_qp(&c.link, c.qp) == LESUNGKAP_DONE);
        EXPECT(ask_create_qp(&c.link, &pair, &c.qp) == LESUNGKAP_DONE);
        EXPECT(c.qp != shared->name);
    }
}

/* One tells its queue pair's name and dies: the name stands for nobody of another operator, however often that one tries. */
static void a_former_name(void)
{
    struct client a;
    client_open(&a, path, 8);
    run_as(FIRST, tell_name);
    run_as(SECOND, take_name);
    EXPECT(client_move(&a, LESUNGKAP_QP_INIT, 0) == LESUNGKAP_DONE);
    EXPECT(client_move(&a, LESUNGKAP_QP_RTR, shared->name) == LESUNGKAP_NOT_LIVE);
    client_close(&a);
}

/* ---- seats and places */

static uint32_t join(struct link *link)
{
    uint32_t bytes = 0;
    if (link_open(link, path) != 0 || ask_window(link, &bytes) != LESUNGKAP_DONE) {
        return LINK_LOST;
    }
    const int file = memory_file(bytes, SEALS);
    const uint32_t result = ask_join(link, file);
    close(file);
    return result;
}

static void join_twice(void)
{
    struct link first, second;
    EXPECT(join(&first) == LESUNGKAP_DONE);
    EXPECT(join(&second) == LESUNGKAP_FULL);
}

/* An operator has the seats of its share, whatever is free. */
static void seats(void)
{
    struct client a, b;
    struct link third;
    run_as(FIRST, join_twice);
    client_open(&a, path, 8);
    client_open(&b, path, 8);
    EXPECT(join(&third) == LESUNGKAP_FULL);
    link_close(&third);
    run_as(SECOND, join_twice);
    client_close(&a);
    client_close(&b);
}

static void connect_often(void)
{
    struct link links[SEAT_CONNECTIONS + 1];
    uint32_t bytes;
    for (int n = 0; n <= SEAT_CONNECTIONS; n++) {
        EXPECT(link_open(links + n, path) == 0);
        EXPECT(ask_window(links + n, &bytes) == (n < SEAT_CONNECTIONS ? LESUNGKAP_DONE : LINK_LOST));
    }
}

/* In namespaces of its own, of users and of processes, it is still that user. */
static void connect_unseen(void)
{
    EXPECT(unshare(CLONE_NEWUSER | CLONE_NEWPID) == 0);
    const pid_t child = fork();
    if (child == 0) {
        connect_often();
        _exit(0);
    }
    ends_well(child);
}

static void connect_once(void)
{
    struct link link;
    uint32_t bytes;
    EXPECT(link_open(&link, path) == 0 && ask_window(&link, &bytes) == LESUNGKAP_DONE);
}

/* An operator has so many connections, by however many processes; another has its own. */
static void places(void)
{
    run_as(FIRST, connect_often);
    run_as(FIRST, connect_unseen);
    const pid_t first = start_as(FIRST, connect_often);
    run_as(SECOND, connect_once);
    ends_well(first);
}

static void be_refused(void)
{
    struct link link;
    uint32_t bytes;
    EXPECT(link_open(&link, path) == 0 && ask_window(&link, &bytes) == LINK_LOST);
}

static void strangers(void) { run_as(STRANGER, be_refused); }

/* ---- turns */

static void ask_for_times(struct link *link)
{
    const int yes = 1;
    EXPECT(link_open(link, path) == 0);
    EXPECT(setsockopt(link->fd, SOL_SOCKET, SO_TIMESTAMPNS, &yes, sizeof yes) == 0);
}

static void send_often(const struct link *link)
{
    uint8_t request[PACKET_MOST_BYTES];
    const struct packet window = {PACKET_WINDOW, 0, NULL, 0};
    const size_t length = put_packet(request, LESUNGKAP_TAPE_CALL_MARK, &window);
    for (int n = 0; n < WAITING; n++) {
        EXPECT(link_send(link, request, length, -1));
    }
}

/* Connections without a seat, of which each has requests waiting. Four of a process, two processes. */
static void be_a_crowd(int first)
{
    struct link links[CROWD / 2];
    for (int n = 0; n < CROWD / 2; n++) {
        ask_for_times(links + n);
    }
    shared->stage++;
    reach(3);
    for (int n = 0; n < CROWD / 2; n++) {
        send_often(links + n);
    }
    shared->stage++;
    for (int m = 0; m < WAITING; m++) {
        for (int n = 0; n < CROWD / 2; n++) {
            shared->stamps[first + n][m] = stamped(links + n);
        }
    }
}

static void first_of_crowd(void) { be_a_crowd(0); }
static void rest_of_crowd(void) { be_a_crowd(CROWD / 2); }

/* A client with a seat is served before those without one, who get a part of the time. */
static void a_crowd(void)
{
    struct link victim;
    double last = 0;
    unsigned before = 0;
    const int yes = 1;
    EXPECT(join(&victim) == LESUNGKAP_DONE);
    EXPECT(setsockopt(victim.fd, SOL_SOCKET, SO_TIMESTAMPNS, &yes, sizeof yes) == 0);
    shared->stage = 0;
    const pid_t crowd[2] = {start_as(FIRST, first_of_crowd), start_as(FIRST, rest_of_crowd)};
    reach(2);
    const pid_t monitor = stop_monitor(&victim);
    shared->stage = 3;
    reach(5);
    send_often(&victim);
    EXPECT(kill(monitor, SIGCONT) == 0);
    for (int n = 0; n < WAITING; n++) {
        last = stamped(&victim);
    }
    ends_well(crowd[0]);
    ends_well(crowd[1]);
    for (int n = 0; n < CROWD * WAITING; n++) {
        before += shared->stamps[n / WAITING][n % WAITING] < last;
    }
    printf("%u of the crowd's %d requests were answered before the victim's %d\n", before, CROWD * WAITING, WAITING);
    EXPECT(before <= WAITING / 2);
    link_close(&victim);
}

/* ---- keys */

/* Comes again and again, and registers until it is refused, with all regions but one that it may have. */
static void use_up_keys(void)
{
    struct lesungkap_register_mr_ack mr;
    unsigned used = 0;
    for (int n = 0; n < 5; n++) {
        struct client a;
        uint32_t result = LESUNGKAP_DONE;
        client_join(&a, path);
        EXPECT(ask_create_pd(&a.link, &a.pdn) == LESUNGKAP_DONE);
        const struct lesungkap_register_mr region = {a.pdn, 1, 0, 1, 0};
        for (int m = 1; m < REGIONS && result == LESUNGKAP_DONE; m++) {
            result = ask_register_mr(&a.link, &region, &mr);
            used += result == LESUNGKAP_DONE;
        }
        while (result == LESUNGKAP_DONE && (result = ask_register_mr(&a.link, &region, &mr)) == LESUNGKAP_DONE) {
            EXPECT(ask_deregister_mr(&a.link, mr.mrn) == LESUNGKAP_DONE && ++used <= KEYS);
        }
        EXPECT(result == LESUNGKAP_FULL);
        client_close(&a);
    }
    EXPECT(used <= KEYS && used > KEYS - REGIONS);
}

/* Has every region that it may have. */
static void register_all(void)
{
    struct client a;
    struct lesungkap_register_mr_ack mr;
    client_join(&a, path);
    EXPECT(ask_create_pd(&a.link, &a.pdn) == LESUNGKAP_DONE);
    const struct lesungkap_register_mr region = {a.pdn, 1, 0, 1, 0};
    for (int n = 0; n < REGIONS; n++) {
        EXPECT(ask_register_mr(&a.link, &region, &mr) == LESUNGKAP_DONE);
    }
    client_close(&a);
}

/* The first key of a card that was reset. */
static void register_first(void)
{
    struct client a;
    client_open(&a, path, 8);
    EXPECT(a.mr.lkey == 1);
    client_close(&a);
}

/* An operator that uses up its keys leaves the others theirs; when no client is left, it has them again. */
static void keys(void)
{
    struct client a;
    client_open(&a, path, 8);
    run_as(FIRST, use_up_keys);
    run_as(SECOND, register_all);
    client_close(&a);
    run_as(FIRST, register_first);
    run_as(FIRST, register_all);
}

/* ---- by hand */

static double now(void)
{
    struct timespec time;
    clock_gettime(CLOCK_MONOTONIC, &time);
    return (double)time.tv_sec + (double)time.tv_nsec / 1e9;
}

static void ask_for_ever(void)
{
    struct link links[SEAT_CONNECTIONS];
    struct pollfd wait[SEAT_CONNECTIONS];
    uint8_t request[PACKET_MOST_BYTES], answer[PACKET_MOST_BYTES];
    uint32_t bytes;
    int count = 0;
    const struct packet window = {PACKET_WINDOW, 0, NULL, 0};
    const size_t length = put_packet(request, LESUNGKAP_TAPE_CALL_MARK, &window);
    while (count < 4 && link_open(links + count, path) == 0 && ask_window(links + count, &bytes) == LESUNGKAP_DONE) {
        wait[count] = (struct pollfd){.fd = links[count].fd, .events = POLLIN};
        link_send(links + count, request, length, -1);
        count++;
    }
    shared->stage += (uint32_t)count;
    while (poll(wait, (nfds_t)count, -1) > 0) {
        for (int n = 0; n < count; n++) {
            if (wait[n].revents && (recv(links[n].fd, answer, sizeof answer, MSG_DONTWAIT) <= 0 || !link_send(links + n, request, length, -1))) {
                return;
            }
        }
    }
}

static double writes_a_second(struct client *a, uint32_t key, double seconds)
{
    const double since = now();
    uint64_t count = 0;
    while (now() < since + seconds) {
        EXPECT(client_send(a, LESUNGKAP_WRITE, 0, 64, 0, key) == LESUNGKAP_DONE && client_completion(a).status == 0);
        count++;
    }
    return (double)count / (now() - since);
}

static void crowd_figures(double seconds)
{
    struct client a, b;
    pid_t crowd[15];
    client_open(&a, path, 8);
    client_open(&b, path, 8);
    client_ready(&a, b.qp);
    client_ready(&b, a.qp);
    printf("alone: %.0f writes/s\n", writes_a_second(&a, b.mr.rkey, seconds));
    shared->stage = 0;
    for (int n = 0; n < 15; n++) {
        crowd[n] = start_as(n % 2 ? FIRST : SECOND, ask_for_ever);
    }
    sleep(1);
    printf("beside %u connections: %.0f writes/s\n", shared->stage, writes_a_second(&a, b.mr.rkey, seconds));
    for (int n = 0; n < 15; n++) {
        kill(crowd[n], SIGKILL);
        waitpid(crowd[n], NULL, 0);
    }
}

int main(int count, char **words)
{
    static const struct {
        const char *name;
        void (*run)(void);
    } cases[] = {{"strangers", strangers}, {"seats", seats}, {"places", places},
                 {"a crowd", a_crowd},     {"keys", keys},   {"a former name", a_former_name}};
    EXPECT(count >= 2 && geteuid() == 0);
    path = words[1];
    shared = mmap(NULL, sizeof *shared, PROT_READ | PROT_WRITE, MAP_SHARED | MAP_ANONYMOUS, -1, 0);
    EXPECT(shared != MAP_FAILED);
    if (count == 4 && strcmp(words[2], "crowd") == 0) {
        crowd_figures(atof(words[3]));
        return 0;
    }
    for (size_t n = 0; n < sizeof cases / sizeof *cases; n++) {
        if (count == 2 || strcmp(words[2], cases[n].name) == 0) {
            printf("%s\n", cases[n].name);
            fflush(stdout);
            cases[n].run();
        }
    }
    return 0;
}
