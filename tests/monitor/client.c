#define _GNU_SOURCE
#include "client.h"

#include <fcntl.h>
#include <sched.h>
#include <signal.h>
#include <stdio.h>
#include <stdlib.h>
#include <sys/mman.h>
#include <sys/socket.h>
#include <time.h>
#include <unistd.h>

void expect(int holds, const char *what, const char *file, int line)
{
    if (!holds) {
        printf("UNEXPECTED: %s:%d: not %s\n", file, line, what);
        fflush(stdout);
        _exit(1);
    }
}

int memory_file(size_t bytes, int seals)
{
    const int file = memfd_create("test", MFD_CLOEXEC | MFD_ALLOW_SEALING);
    EXPECT(file >= 0 && ftruncate(file, (off_t)bytes) == 0);
    EXPECT(seals == 0 || fcntl(file, F_ADD_SEALS, seals) == 0);
    return file;
}

void client_join(struct client *client, const char *path)
{
    EXPECT(link_open(&client->link, path) == 0);
    EXPECT(ask_window(&client->link, &client->bytes) == LESUNGKAP_DONE);
    client->memory_file = memory_file(client->bytes, SEALS);
    client->memory = mmap(NULL, client->bytes, PROT_READ | PROT_WRITE, MAP_SHARED, client->memory_file, 0);
    EXPECT(client->memory != MAP_FAILED);
    EXPECT(ask_join(&client->link, client->memory_file) == LESUNGKAP_DONE);
}

void client_open(struct client *client, const char *path, uint32_t places)
{
    client_join(client, path);
    EXPECT(ask_create_pd(&client->link, &client->pdn) == LESUNGKAP_DONE);
    EXPECT(ask_create_cq(&client->link, places, &client->cqn) == LESUNGKAP_DONE);
    const struct lesungkap_register_mr all = {client->pdn, LESUNGKAP_LOCAL_WRITE | LESUNGKAP_REMOTE_WRITE | LESUNGKAP_REMOTE_READ, 0,
                                              client->bytes, CLIENT_VIRT};
    EXPECT(ask_register_mr(&client->link, &all, &client->mr) == LESUNGKAP_DONE);
    const struct lesungkap_create_qp pair = {client->pdn, LESUNGKAP_QP_TYPE_RC, LESUNGKAP_SIGNAL_ALL, client->cqn, client->cqn};
    EXPECT(ask_create_qp(&client->link, &pair, &client->qp) == LESUNGKAP_DONE);
}

void client_close(struct client *client)
{
    munmap(client->memory, client->bytes);
    close(client->memory_file);
    link_close(&client->link);
}

uint32_t client_move(struct client *client, uint8_t state, uint32_t destination)
{
    struct lesungkap_modify_qp data;
    memset(&data, 0, sizeof data);
    data.qpn = client->qp;
    data.mask = LESUNGKAP_MASK_STATE | (state == LESUNGKAP_QP_RTR ? (uint32_t)LESUNGKAP_MASK_DESTINATION : 0);
    data.state = state;
    data.destination = destination;
    put_rights(&data, LESUNGKAP_LOCAL_WRITE | LESUNGKAP_REMOTE_WRITE | LESUNGKAP_REMOTE_READ);
    return ask_modify_qp(&client->link, &data);
}

void client_ready(struct client *client, uint32_t destination)
{
    EXPECT(client_move(client, LESUNGKAP_QP_RESET, 0) == LESUNGKAP_DONE);
    EXPECT(client_move(client, LESUNGKAP_QP_INIT, 0) == LESUNGKAP_DONE);
    EXPECT(client_move(client, LESUNGKAP_QP_RTR, destination) == LESUNGKAP_DONE);
    EXPECT(client_move(client, LESUNGKAP_QP_RTS, 0) == LESUNGKAP_DONE);
}

uint32_t client_send(struct client *client, uint8_t opcode, uint64_t at, uint32_t length, uint64_t remote, uint32_t key)
{
    static uint64_t last = 0;
    struct lesungkap_send send;
    memset(&send, 0, sizeof send);
    send.wr_id = ++last;
    send.opcode = opcode;
    send.remote_address = CLIENT_VIRT + remote;
    send.remote_key = key;
    send.count = 1;
    send.sges[0] = (struct lesungkap_sge){CLIENT_VIRT + at, length, client->mr.lkey};
    return ask_send(&client->link, client->qp, &send);
}

uint32_t client_receive(struct client *client, uint64_t at, uint32_t length)
{
    struct lesungkap_receive receive;
    memset(&receive, 0, sizeof receive);
    receive.count = 1;
    receive.sges[0] = (struct lesungkap_sge){CLIENT_VIRT + at, length, client->mr.lkey};
    return ask_receive(&client->link, client->qp, &receive);
}

struct lesungkap_completion client_completion(struct client *client)
{
    struct lesungkap_completion done;
    unsigned left;
    uint32_t result;
    while ((result = ask_poll(&client->link, client->cqn, &done, &left)) == LESUNGKAP_NOTHING) {
        sched_yield();
    }
    EXPECT(result == LESUNGKAP_DONE);
    return done;
}

pid_t stop_monitor(const struct link *link)
{
    struct ucred monitor;
    socklen_t size = sizeof monitor;
    usleep(100000); /* until it waits for requests */
    EXPECT(getsockopt(link->fd, SOL_SOCKET, SO_PEERCRED, &monitor, &size) == 0 && kill(monitor.pid, SIGSTOP) == 0);
    usleep(100000); /* until it has stopped */
    return monitor.pid;
}

double stamped(const struct link *link)
{
    uint8_t bytes[PACKET_MOST_BYTES];
    union {
        struct cmsghdr aligned;
        char bytes[CMSG_SPACE(sizeof(struct timespec))];
    } control;
    struct iovec part = {bytes, sizeof bytes};
    struct msghdr message = {.msg_iov = &part, .msg_iovlen = 1, .msg_control = &control, .msg_controllen = sizeof control};
    struct timespec stamp;
    EXPECT(recvmsg(link->fd, &message, 0) > 0 && CMSG_FIRSTHDR(&message) != NULL);
    EXPECT(CMSG_FIRSTHDR(&message)->cmsg_type == SO_TIMESTAMPNS);
    memcpy(&stamp, CMSG_DATA(CMSG_FIRSTHDR(&message)), sizeof stamp);
    return (double)(stamp.tv_sec % 100000) + (double)stamp.tv_nsec / 1e9;
}
