/* The monitor's tables: operators, connections with their seats and windows, who owns which object,
 * names of queue pairs, held sends, events. */
#ifndef LESUNGKAP_MONITOR_H
#define LESUNGKAP_MONITOR_H

#include "card.h"
#include "helper.h"
#include "packet.h"
#include "report.h"

#include <stdatomic.h>
#include <sys/types.h>

enum kind { PD, CQ, MR, QP, KINDS };

enum {
    OBJECTS_MOST = LESUNGKAP_MR_COUNT, /* of the largest table */
    KEYS_OF_A_SLOT = 255,
    OPERATOR_NAME_BYTES = 33,
    NO_SEAT = -1
};

/* What a request is answered with. */
struct answer {
    uint32_t result;
    int file; /* to be passed with it, or NO_FD */
    size_t length;
    uint8_t body[LESUNGKAP_TAPE_MOST_BODY];
};

/* A user that may come, with its share of the card. What it uses up it takes from nobody else. */
struct user {
    uid_t uid;
    char name[OPERATOR_NAME_BYTES];
    unsigned share;                     /* how many seats it may have */
    unsigned seated;                    /* and has */
    unsigned connections;               /* it has, those that leave too */
    unsigned keys;                      /* handed out to it since the card's reset */
    uint64_t named[LESUNGKAP_QP_COUNT]; /* how often it was given each number of a queue pair */
    int unseated;                       /* epoll: its connections without a seat */
    uint64_t clients;                   /* that have joined */
    uint64_t requests;
    struct lines lines; /* about those of its connections */
};

/* A connection is served; or waits for the helper, and nothing of it is read; or its client has
 * gone and its files have not. */
enum state { FREE, ASKS, WAITS, LEAVES };

struct connection {
    enum state state;
    int fd;
    pid_t pid;
    struct user *user;     /* NULL: of one that was refused */
    int seat;              /* its window is the seat's part of the memory */
    uint64_t client;       /* counts those who have joined */
    uint64_t window_bytes; /* of its window, those that its memory fills */
    unsigned has[KINDS];
    _Atomic uint32_t *counters; /* its page of them, or NULL */
    int busy;                   /* the helper has a job of it */
    struct job job;             /* the helper's next */
    pid_t sender;               /* of the packet that came with a file */
    struct answer answer;       /* waits for the helper */
};

/* Sends of a queue pair that wait, the oldest first. */
struct held {
    unsigned first;
    unsigned count;
    struct {
        uint16_t length;
        uint8_t record[LESUNGKAP_SEND_MOST_BYTES];
    } at[PACKET_HELD_MOST];
};

/* What a queue pair's number stands for: given counts how often it was handed out, and is 0 while
 * nobody has it. */
struct queue_pair {
    uint64_t given;
    uint64_t given_before;
    uint32_t name;
    uint32_t peer;       /* its destination's number */
    uint64_t peer_given; /* and what that stood for; 0: no destination */
};

struct events {
    int channel; /* socket of the client's */
    int armed;
    unsigned unread; /* before the call that is watched */
};

struct monitor {
    struct card card;
    struct helper helper;
    unsigned seats;
    uint64_t window; /* bytes of each seat */
    uint8_t taken[SEATS_MOST];
    struct lines seat_lines[SEATS_MOST]; /* about who has the seat */
    struct user operators[OPERATORS_MOST];
    unsigned operator_count;
    struct connection connections[PLACES];
    uint8_t owner[KINDS][OBJECTS_MOST]; /* connection + 1; 0: nobody */
    struct queue_pair pairs[LESUNGKAP_QP_COUNT];
    struct held held[LESUNGKAP_QP_COUNT];
    struct events events[LESUNGKAP_CQ_COUNT];
    uint32_t turn;         /* queue pair whose held send is tried first */
    int changed;           /* a held send may be able to run */
    int ended;             /* service ends, for want of the tape or of the helper */
    int epoll;             /* of clients with a seat, and of all else */
    uint64_t accept_after; /* newcomers wait until then, by the clock; 0: they don't */
    uint64_t clients;      /* that have joined */
    uint64_t requests;
    uint64_t nanoseconds; /* from request to answer, if timed */
    struct lines lines;   /* about nobody in particular */
    struct lines strangers;
};

/* ---- operators.c: who may come */

/* Names an operator by a word USER[:SEATS]; says what is wrong and returns 0. */
int operators_add(struct monitor *monitor, const char *word);
/* Shares the seats out once all are named; where none is, the monitor's own user has them all. */
int operators_share(struct monitor *monitor);
struct user *operators_find(struct monitor *monitor, uid_t uid);
/* How many connections and keys an operator may have. */
unsigned operator_connections(const struct user *user);
unsigned operator_keys(const struct monitor *monitor, const struct user *user);
/* The name of a queue pair that this operator gets now: nobody else gets it as long as the monitor
 * runs. */
uint32_t operator_name(struct monitor *monitor, struct user *user, uint32_t qpn);

/* ---- clients.c: how they come, join and go */

void clients_init(struct monitor *monitor);
/* Takes a newcomer; 0 where none can be taken now. */
int clients_accept(struct monitor *monitor, int listener);
/* Destroys what a connection has and frees its place, once its files are closed. */
void clients_drop(struct monitor *monitor, unsigned number);
/* One line about a client, on standard error. */
void complain(struct monitor *monitor, unsigned number, const char *what);

/* Which events of a connection are told; that its client has hung up always is. */
int connection_listen_to(const struct monitor *monitor, unsigned number, int how, uint32_t which);
/* Has the connection's job done, if there is one; nothing of it is read before the helper reports.
 */
int connection_has_job(const struct job *job);
void connection_send_job(struct monitor *monitor, unsigned number);
/* Has the connection of one that has gone closed, and frees its place. */
void connection_leave(struct monitor *monitor, unsigned number);
void connection_free_place(struct monitor *monitor, unsigned number);
/* Maps a client's memory into a window, and what is to be done after the helper has sealed it. */
uint32_t connection_join(struct monitor *monitor, unsigned number, const struct report_of_job *with,
                         int fd);
void connection_joined(const struct monitor *monitor, unsigned number);

/* ---- serve.c: requests */

/* Reads and answers one request. */
void clients_serve(struct monitor *monitor, unsigned number);
/* The same for one of an operator's connections without a seat; one that has hung up goes. */
void clients_serve_unseated(struct monitor *monitor, struct user *user);
/* Goes on where the helper has done a connection's job. */
void clients_report(struct monitor *monitor);

/* ---- requests.c: who may do what */

int owns(const struct monitor *monitor, unsigned client, enum kind kind, uint32_t number);
/* How many objects of a kind a seat may have. */
unsigned seat_share(const struct monitor *monitor, enum kind kind);
/* Runs a control command if the client may. */
void request_control(struct monitor *monitor, unsigned client, const struct packet *packet,
                     struct answer *answer);
/* Destroys all objects of a client: queue pairs, regions, completion queues, domains. */
void destroy_all(struct monitor *monitor, unsigned client);
/* Whether the queue pair's destination is another than it was joined with, or none. */
int peer_gone(const struct monitor *monitor, uint32_t qpn);

/* ---- work.c: work requests, polls, events */

uint32_t work_send(struct monitor *monitor, unsigned client, uint32_t qpn, const uint8_t *record,
                   size_t length);
uint32_t work_receive(struct monitor *monitor, unsigned client, uint32_t qpn, const uint8_t *record,
                      size_t length);
uint32_t work_flush(struct monitor *monitor, unsigned client, uint32_t qpn);
void work_poll(struct monitor *monitor, unsigned client, uint32_t cqn, struct answer *answer);
/* Says what a queue pair's oldest held send waits for (waits.c). */
void work_waits(struct monitor *monitor, unsigned client, uint32_t qpn, struct answer *answer);
/* Gives each queue pair's oldest held send one try. */
void work_turn(struct monitor *monitor);
void work_forget(struct monitor *monitor, uint32_t qpn);

/* Takes the socket if it answers LESUNGKAP_DONE: *fd is NO_FD then. */
uint32_t events_channel(struct monitor *monitor, unsigned client, uint32_t cqn, int *fd);
uint32_t events_arm(struct monitor *monitor, unsigned client, uint32_t cqn);
void events_forget(struct monitor *monitor, unsigned client, uint32_t cqn);
/* Around a call that may put completions. */
void events_before(struct monitor *monitor);
void events_after(struct monitor *monitor);

/* ---- counters.c: unread completions, as a client sees them without asking */

/* Makes a client's page; *file is to be passed to it if this answers LESUNGKAP_DONE. */
uint32_t counters_open(struct monitor *monitor, unsigned client, int *file);
void counters_close(struct connection *connection);
/* Writes how many completions a queue has, for its owner; none for one that it has no more. */
void counters_show(struct monitor *monitor, uint32_t cqn);
void counters_hide(struct connection *connection, uint32_t cqn);

/* ---- show.c: statistics */

/* Writes line `number` of what this operator may see, or of all if it is NULL; its length, or 0
 * behind the last. */
size_t show_line(const struct monitor *monitor, const struct user *asks, unsigned number,
                 char *text, size_t size);
/* All lines on standard output, if somebody reads it. */
void show_all(const struct monitor *monitor);
/* Asks the monitor of this socket for its lines and prints them: the exit status. */
int show_of(const char *socket);

#endif
