/* lesungkap-monitor: one card, shared by clients over a Unix socket of whole packets
 * (docs/MONITOR.md). */
#define _GNU_SOURCE
#include "options.h"

#include <errno.h>
#include <fcntl.h>
#include <inttypes.h>
#include <signal.h>
#include <stdio.h>
#include <sys/epoll.h>
#include <sys/mman.h>
#include <sys/signalfd.h>
#include <sys/timerfd.h>
#include <unistd.h>

/* What the loop waits for: clients with a seat, by their place, and these. */
enum { SIGNALS = PLACES, HELPER, UNSEATED, PAUSE, SOURCES };
/* What UNSEATED is a set of: newcomers, and for each operator its connections without a seat. */
enum { LISTENER, FIRST_OPERATOR };
/* Of the monitor's time, those without a seat get one part of four while others ask. */
enum { PAUSE_TIMES = 3, PAUSE_LEAST = 20000, RECENTLY = 10000000, SECOND = 1000000000 };

static struct monitor monitor;
static int listener = NO_FD;
static int signals = NO_FD;
static int unseated = NO_FD;
static int pause_timer = NO_FD;
static uint64_t seated_at; /* when a client with a seat was served last */
static uint64_t owed;      /* time that joining, files and clients that go have taken since those
                              without a seat paused */

static void show_times(void)
{
    const uint64_t requests = monitor.requests > 0 ? monitor.requests : 1;
    printf("times: %" PRIu64 " requests, %" PRIu64 " calls; a request took %" PRIu64
           " ns, of which %" PRIu64 " ns in calls\n",
           monitor.requests, monitor.card.calls, monitor.nanoseconds / requests,
           monitor.card.nanoseconds / requests);
}

/* ---- the loop */

static int wait_for(int set, int fd, uint32_t events, uint32_t source)
{
    struct epoll_event event = {.events = events, .data = {.u32 = source}};
    return fd >= 0 && epoll_ctl(set, EPOLL_CTL_ADD, fd, &event) == 0;
}

static void take_signal(void)
{
    struct signalfd_siginfo info;
    if (read(signals, &info, sizeof info) != (ssize_t)sizeof info) {
        return;
    }
    if (info.ssi_signo == SIGUSR1) {
        show_all(&monitor);
    } else {
        monitor.ended = 1;
    }
}

/* Takes a newcomer, or listens to none for a second. */
static void take_newcomer(void)
{
    if (!clients_accept(&monitor, listener) &&
        epoll_ctl(unseated, EPOLL_CTL_DEL, listener, NULL) == 0) {
        monitor.accept_after = clock_now() + SECOND;
    }
}

/* Those without a seat are waited for again. */
static void end_pause(void)
{
    struct epoll_event event = {.events = EPOLLIN | EPOLLONESHOT, .data = {.u32 = UNSEATED}};
    uint64_t times;
    (void)!read(pause_timer, &times, sizeof times);
    epoll_ctl(monitor.epoll, EPOLL_CTL_MOD, unseated, &event);
}

static void begin_pause(uint64_t nanoseconds)
{
    const struct itimerspec once = {.it_value = {.tv_sec = (time_t)(nanoseconds / SECOND),
                                                 .tv_nsec = (long)(nanoseconds % SECOND)}};
    if (timerfd_settime(pause_timer, 0, &once, NULL) != 0) {
        end_pause();
    }
}

/* Takes one newcomer, or serves one without a seat: those who wait have turns, by operator. Then
 * they pause, so that they cost those with a seat a bounded part. */
static void serve_unseated(void)
{
    const uint64_t since = clock_now();
    struct epoll_event event;
    if (epoll_wait(unseated, &event, 1, 0) == 1) {
        if (event.data.u32 == LISTENER) {
            take_newcomer();
        } else {
            const unsigned number = event.data.u32 - FIRST_OPERATOR;
            clients_serve_unseated(&monitor, monitor.operators + number);
        }
    }
    const uint64_t now = clock_now(), pause = PAUSE_TIMES * (now - since + owed);
    owed = 0;
    if (now - seated_at < RECENTLY) {
        begin_pause(pause > PAUSE_LEAST ? pause : PAUSE_LEAST);
    } else {
        end_pause();
    }
}

/* Serves each client with a seat that asks, once. Who has hung up goes first. */
static void serve_seated(const struct epoll_event *events, int count)
{
    for (int n = 0; n < count; n++) {
        const uint32_t source = events[n].data.u32;
        if (source < PLACES && (events[n].events & (EPOLLHUP | EPOLLERR | EPOLLRDHUP))) {
            const uint64_t since = clock_now();
            clients_drop(&monitor, source);
            owed += clock_now() - since;
        }
    }
    for (int n = 0; n < count; n++) {
        const uint32_t source = events[n].data.u32;
        if (source < PLACES && monitor.connections[source].state == ASKS) {
            clients_serve(&monitor, source);
            seated_at = clock_now();
        }
    }
}

static void take_report(void)
{
    const uint64_t since = clock_now();
    clients_report(&monitor);
    owed += clock_now() - since;
}

static void round_of(const struct epoll_event *events, int count)
{
    serve_seated(events, count);
    for (int n = 0; n < count; n++) {
        switch (events[n].data.u32) {
        case SIGNALS: take_signal(); break;
        case HELPER: take_report(); break;
        case PAUSE: end_pause(); break;
        case UNSEATED: serve_unseated(); break;
        default: break;
        }
    }
}

static int patience(void)
{
    return monitor.changed ? 0 : monitor.accept_after > 0 ? 1000 : -1;
}

/* Serves until it is told to end, or can't go on. */
static int serve(void)
{
    struct epoll_event events[SOURCES];
    while (!monitor.ended) {
        if (monitor.accept_after > 0 && clock_now() >= monitor.accept_after &&
            wait_for(unseated, listener, EPOLLIN, LISTENER)) {
            monitor.accept_after = 0;
        }
        const int count = epoll_wait(monitor.epoll, events, SOURCES, patience());
        if (count < 0 && errno != EINTR) {
            return failed("epoll", strerror(errno));
        }
        round_of(events, count);
        if (monitor.changed && !monitor.ended) {
            work_turn(&monitor);
        }
        monitor.ended |= !tape_commit(&monitor.card.tape);
    }
    return 1;
}

/* ---- start and end */

/* Standard input, output and error are never a client's connection. */
static void fill_standard(void)
{
    int fd;
    do {
        fd = open("/dev/null", O_RDWR | O_CLOEXEC);
    } while (fd >= 0 && fd <= STDERR_FILENO);
    close(fd);
}

static int block_signals(sigset_t *set)
{
    signal(SIGPIPE, SIG_IGN);
    signal(SIGXFSZ, SIG_IGN); /* a tape that may not grow */
    sigemptyset(set);
    sigaddset(set, SIGTERM);
    sigaddset(set, SIGINT);
    sigaddset(set, SIGUSR1);
    return sigprocmask(SIG_BLOCK, set, NULL) == 0;
}

/* What each operator's connections without a seat are waited for by. */
static int open_operators(void)
{
    int opened = 1;
    for (unsigned n = 0; n < monitor.operator_count; n++) {
        monitor.operators[n].unseated = epoll_create1(EPOLL_CLOEXEC);
        opened &= wait_for(unseated, monitor.operators[n].unseated, EPOLLIN, FIRST_OPERATOR + n);
    }
    return opened;
}

static int open_sources(const sigset_t *set)
{
    signals = signalfd(-1, set, SFD_CLOEXEC | SFD_NONBLOCK);
    pause_timer = timerfd_create(CLOCK_MONOTONIC, TFD_CLOEXEC | TFD_NONBLOCK);
    unseated = epoll_create1(EPOLL_CLOEXEC);
    monitor.epoll = epoll_create1(EPOLL_CLOEXEC);
    return (wait_for(monitor.epoll, signals, EPOLLIN, SIGNALS) &&
            wait_for(monitor.epoll, monitor.helper.fd, EPOLLIN, HELPER) &&
            wait_for(monitor.epoll, pause_timer, EPOLLIN, PAUSE) &&
            wait_for(monitor.epoll, unseated, EPOLLIN | EPOLLONESHOT, UNSEATED) &&
            wait_for(unseated, listener, EPOLLIN, LISTENER) && open_operators()) ||
           failed("epoll", strerror(errno));
}

static int lock_memory(void)
{
    return mlockall(MCL_CURRENT | MCL_FUTURE) == 0 ||
           failed("--lock", errno == ENOMEM || errno == EPERM
                                ? "the limit on locked memory is too low (ulimit -l)"
                                : strerror(errno));
}

static int open_all(const struct options *options)
{
    const struct job listens = {.place = LISTENER_PLACE, .take = 1};
    sigset_t set;
    if (!block_signals(&set) || !helper_start(&monitor.helper)) {
        return 0;
    }
    listener = listen_at(options, &monitor);
    if (listener < 0 || !card_open(&monitor.card, options->memory, &options->tape) ||
        (options->lock && !lock_memory())) {
        return 0;
    }
    if (!helper_ask(&monitor.helper, &listens, listener)) {
        return failed("the helper that closes files", strerror(errno));
    }
    return open_sources(&set);
}

static int finish(const struct options *options)
{
    const int stopped = !tape_commit(&monitor.card.tape);
    for (unsigned n = 0; n < PLACES; n++) {
        if (monitor.connections[n].state == ASKS || monitor.connections[n].state == WAITS) {
            clients_drop(&monitor, n);
        }
    }
    show_all(&monitor);
    if (options->times) {
        show_times();
    }
    unlink(options->socket);
    return card_close(&monitor.card) && !stopped;
}

int main(int count, char **words)
{
    struct options options = {.clients = SEATS_MOST};
    if (count == 2 && strcmp(words[1], "--help") == 0) {
        return fputs(usage, stdout) < 0;
    }
    if (count == 2 && strcmp(words[1], "--version") == 0) {
        return printf("lesungkap-monitor %s, packets %d\n", LESUNGKAP_VERSION, PACKET_VERSION) < 0;
    }
    if (count == 3 && strcmp(words[1], "--show") == 0) {
        return show_of(words[2]);
    }
    if (!options_read(&options, &monitor, count, words)) {
        return 2;
    }
    fill_standard();
    clients_init(&monitor);
    monitor.card.timed = options.times;
    if (!open_all(&options)) {
        if (listener >= 0) {
            unlink(options.socket);
        }
        return 1;
    }
    printf("lesungkap-monitor: %s: a card of %" PRIu64 " bytes for %u clients, %" PRIu64
           " bytes each\n",
           options.socket, options.memory, monitor.seats, monitor.window);
    if (options.tape.name != NULL) {
        printf("lesungkap-monitor: tape %s\n", monitor.card.tape.name);
    }
    fflush(stdout);
    return serve() && finish(&options) ? 0 : 1;
}
