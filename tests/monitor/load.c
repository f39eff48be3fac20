/* Eight clients, each joined with one other, of which some send as fast as they are answered: unsignaled writes (one request a message) or
 * sends (four: a receive, the send, a poll on each side). It prints messages and bytes a second and the mean time of a request as its
 * client sees it; the monitor's --times says how much of that is its own and the card's.
 *
 * usage: load SOCKET SENDERS write|send BYTES SECONDS
 */
#define _GNU_SOURCE
#include "client.h"

#include <sched.h>
#include <stdio.h>
#include <stdlib.h>
#include <sys/mman.h>
#include <sys/wait.h>
#include <time.h>
#include <unistd.h>

enum { CLIENTS = 8 };

/* What the processes tell each other. */
struct shared {
    _Atomic int opened, joined, ended;
    uint32_t names[CLIENTS], keys[CLIENTS];
    uint64_t messages[CLIENTS], requests[CLIENTS];
    double seconds[CLIENTS];
};

static struct shared *shared;

static double now(void)
{
    struct timespec time;
    clock_gettime(CLOCK_MONOTONIC, &time);
    return (double)time.tv_sec + (double)time.tv_nsec / 1e9;
}

static void wait_for(_Atomic int *count, int wanted)
{
    while (*count < wanted) {
        usleep(1000);
    }
}

/* The same as client_open, with a queue pair that completes flagged requests only. */
static void open_quiet(struct client *client, const char *path, int flagged)
{
    client_open(client, path, LESUNGKAP_CQ_MOST_PLACES);
    if (flagged) {
        const struct lesungkap_create_qp quiet = {client->pdn, LESUNGKAP_QP_TYPE_RC, LESUNGKAP_SIGNAL_FLAGGED, client->cqn, client->cqn};
        EXPECT(ask_destroy_qp(&client->link, client->qp) == LESUNGKAP_DONE);
        EXPECT(ask_create_qp(&client->link, &quiet, &client->qp) == LESUNGKAP_DONE);
    }
}

static void writes(struct client *client, int number, uint32_t bytes, double until)
{
    uint64_t count = 0;
    while (count % 64 != 0 || now() < until) {
        EXPECT(client_send(client, LESUNGKAP_WRITE, 0, bytes, 0, shared->keys[number ^ 1]) == LESUNGKAP_DONE);
        count++;
    }
    shared->messages[number] = shared->requests[number] = count;
}

static void sends(struct client *client, int number, uint32_t bytes, double until)
{
    uint64_t count = 0;
    while (count % 16 != 0 || now() < until) {
        const unsigned answer = lesungkap_answer(client_send(client, LESUNGKAP_SEND, 0, bytes, 0, 0));
        EXPECT(answer == LESUNGKAP_DONE || answer == LESUNGKAP_HELD_PEER);
        EXPECT(client_completion(client).status == LESUNGKAP_SUCCESS);
        count++;
    }
    shared->messages[number] = count;
    shared->requests[number] = 2 * count; /* not counting polls of an empty queue */
}

/* Takes messages until all have ended. */
static void receives(struct client *client, uint32_t bytes, int senders)
{
    struct lesungkap_completion done;
    unsigned left;
    for (int n = 0; n < LESUNGKAP_QP_MOST_RECEIVES; n++) {
        EXPECT(client_receive(client, 8192, bytes) == LESUNGKAP_DONE);
    }
    while (shared->ended < senders) {
        if (ask_poll(&client->link, client->cqn, &done, &left) == LESUNGKAP_DONE) {
            EXPECT(done.status == LESUNGKAP_SUCCESS && done.byte_length == bytes);
            EXPECT(client_receive(client, 8192, bytes) == LESUNGKAP_DONE);
        } else {
            sched_yield();
        }
    }
}

static void run(const char *path, int number, int senders, int writing, uint32_t bytes, double seconds)
{
    struct client client;
    open_quiet(&client, path, writing);
    shared->names[number] = client.qp;
    shared->keys[number] = client.mr.rkey;
    shared->opened++;
    wait_for(&shared->opened, CLIENTS);
    client_ready(&client, shared->names[number ^ 1]);
    shared->joined++;
    wait_for(&shared->joined, CLIENTS);
    const double since = now();
    const int sends_first = writing ? number < senders : number % 2 == 0 && number / 2 < senders;
    if (sends_first) {
        (writing ? writes : sends)(&client, number, bytes, since + seconds);
        shared->seconds[number] = now() - since;
        shared->ended++;
    } else if (!writing && number / 2 < senders) {
        receives(&client, bytes, senders);
    }
    wait_for(&shared->ended, senders);
    client_close(&client);
}

int main(int count, char **words)
{
    EXPECT(count == 6);
    const int writing = strcmp(words[3], "write") == 0, senders = atoi(words[2]);
    const uint32_t bytes = (uint32_t)atoi(words[4]);
    double messages = 0, round_trip = 0;
    EXPECT(senders >= 1 && senders <= (writing ? CLIENTS : CLIENTS / 2) && bytes >= 1 && bytes <= LESUNGKAP_MOST_MESSAGE);
    shared = mmap(NULL, sizeof *shared, PROT_READ | PROT_WRITE, MAP_SHARED | MAP_ANONYMOUS, -1, 0);
    EXPECT(shared != MAP_FAILED);
    for (int n = 0; n < CLIENTS; n++) {
        if (fork() == 0) {
            run(words[1], n, senders, writing, bytes, atof(words[5]));
            return 0;
        }
    }
    for (int n = 0; n < CLIENTS; n++) {
        int status;
        EXPECT(wait(&status) > 0 && status == 0);
    }
    for (int n = 0; n < CLIENTS; n++) {
        if (shared->messages[n] > 0) {
            messages += (double)shared->messages[n] / shared->seconds[n];
            round_trip += shared->seconds[n] / (double)shared->requests[n] / senders;
        }
    }
    printf("%d of 8 clients %s %u bytes: %.0f messages/s, %.1f MB/s", senders, writing ? "write" : "send", bytes, messages,
           messages * bytes / 1e6);
    if (writing) {
        printf(", a request takes %.0f ns", round_trip * 1e9);
    }
    printf("\n");
    return 0;
}
