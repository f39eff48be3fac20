/* Faults beside a running pair of clients, whose windows are compared byte by byte after every message, to the end.
 *
 * usage: faults SOCKET kills N SEED       N clients killed at random points of random requests
 *        faults SOCKET packets N SEED     N packets: random bytes, broken records, random files
 *        faults SOCKET connects N SEED    N connections, some of which join
 */
#define _GNU_SOURCE
#include "client.h"

#include <fcntl.h>
#include <inttypes.h>
#include <poll.h>
#include <signal.h>
#include <stdio.h>
#include <stdlib.h>
#include <sys/socket.h>
#include <sys/wait.h>
#include <time.h>
#include <unistd.h>

static const char *path;
static uint64_t word;

static uint32_t random_below(uint32_t bound)
{
    word ^= word << 13;
    word ^= word >> 7;
    word ^= word << 17;
    return (uint32_t)(word >> 24) % bound;
}

static void random_bytes(uint8_t *bytes, size_t length)
{
    for (size_t n = 0; n < length; n++) {
        bytes[n] = (uint8_t)random_below(256);
    }
}

/* ---- the pair */

struct side {
    struct client client;
    uint8_t *wanted; /* what its window must hold */
};

static void compare(const struct side *side) { EXPECT(memcmp(side->client.memory, side->wanted, side->client.bytes) == 0); }

static void open_side(struct side *side)
{
    client_open(&side->client, path, 4);
    EXPECT(ask_counters(&side->client.link) == LESUNGKAP_DONE);
    side->wanted = malloc(side->client.bytes);
    EXPECT(side->wanted != NULL);
    random_bytes(side->client.memory, side->client.bytes);
    memcpy(side->wanted, side->client.memory, side->client.bytes);
}

/* A message by send, write or read, from and to random places. */
static void message(struct side *from, struct side *to)
{
    static const uint8_t opcodes[] = {LESUNGKAP_SEND, LESUNGKAP_WRITE, LESUNGKAP_READ};
    const uint8_t opcode = opcodes[random_below(3)];
    const uint32_t length = 1 + random_below(LESUNGKAP_MOST_MESSAGE);
    const uint32_t source = random_below(from->client.bytes - length), target = random_below(to->client.bytes - length);
    if (opcode == LESUNGKAP_SEND) {
        EXPECT(client_receive(&to->client, target, length) == LESUNGKAP_DONE);
    }
    random_bytes(from->client.memory + source, 16 < length ? 16 : length);
    memcpy(from->wanted + source, from->client.memory + source, length);
    EXPECT(client_send(&from->client, opcode, source, length, target, to->client.mr.rkey) == LESUNGKAP_DONE);
    EXPECT(client_completion(&from->client).status == LESUNGKAP_SUCCESS);
    if (opcode == LESUNGKAP_SEND) {
        EXPECT(client_completion(&to->client).byte_length == length);
    }
    if (opcode == LESUNGKAP_READ) {
        memcpy(from->wanted + source, to->wanted + target, length);
    } else {
        memcpy(to->wanted + target, from->wanted + source, length);
    }
    compare(from);
    compare(to);
}

static double seconds(void)
{
    struct timespec now;
    clock_gettime(CLOCK_MONOTONIC, &now);
    return (double)now.tv_sec + (double)now.tv_nsec / 1e9;
}

/* Runs until the other end of the pipe is closed. */
static void pair(int stop)
{
    struct side sides[2];
    uint64_t messages = 0;
    double longest = 0;
    struct pollfd wait = {.fd = stop, .events = POLLIN};
    open_side(sides);
    open_side(sides + 1);
    client_ready(&sides[0].client, sides[1].client.qp);
    client_ready(&sides[1].client, sides[0].client.qp);
    while (poll(&wait, 1, 0) == 0) {
        const double since = seconds();
        message(sides + messages % 2, sides + (messages + 1) % 2);
        longest = seconds() - since > longest ? seconds() - since : longest;
        messages++;
    }
    printf("the pair: %" PRIu64 " messages, every byte of both windows as it must be; the longest took %.0f ms\n", messages, longest * 1e3);
    fflush(stdout);
}

/* ---- clients that do anything */

static void any_control(struct client *client)
{
    const uint32_t number = random_below(10);
    const struct lesungkap_register_mr region = {random_below(3) ? client->pdn : number, random_below(9), random_below(client->bytes + 9),
                                                 random_below(client->bytes + 9), random_below(2) ? CLIENT_VIRT : word};
    const struct lesungkap_create_qp pair_of = {client->pdn, LESUNGKAP_QP_TYPE_RC, (uint8_t)random_below(2), client->cqn, client->cqn};
    switch (random_below(11)) {
    case 0: ask_create_pd(&client->link, &client->pdn); break;
    case 1: ask_create_cq(&client->link, random_below(18), &client->cqn); break;
    case 2: ask_register_mr(&client->link, &region, &client->mr); break;
    case 3: ask_create_qp(&client->link, &pair_of, &client->qp); break;
    case 4: ask_destroy_pd(&client->link, number); break;
    case 5: ask_destroy_cq(&client->link, number); break;
    case 6: ask_deregister_mr(&client->link, random_below(2) ? client->mr.mrn : random_below(34)); break;
    case 7: ask_destroy_qp(&client->link, random_below(4) ? client->qp : number); break;
    case 8: client_move(client, LESUNGKAP_QP_INIT, 0); break;
    case 9: client_move(client, LESUNGKAP_QP_RTR, number | random_below(40) << PACKET_NAME_SHIFT); break;
    default: client_move(client, (uint8_t)random_below(8), 0);
    }
}

static void any_work(struct client *client)
{
    struct lesungkap_completion done;
    unsigned left;
    switch (random_below(5)) {
    case 0: client_receive(client, random_below(client->bytes), random_below(5000)); break;
    case 1: ask_poll(&client->link, random_below(9), &done, &left); break;
    case 2: ask_flush(&client->link, random_below(9)); break;
    case 3: ask_arm(&client->link, random_below(9)); break;
    default:
        client_send(client, (uint8_t)random_below(6), random_below(client->bytes), random_below(5000), random_below(client->bytes),
                    256 * random_below(33) + random_below(256));
    }
}

static void any_request(struct client *client)
{
    if (random_below(2)) {
        any_control(client);
    } else {
        any_work(client);
    }
}

/* A connection that has joined if there was a seat. */
static void open_any(struct client *client)
{
    memset(client, 0, sizeof *client);
    EXPECT(link_open(&client->link, path) == 0 && ask_window(&client->link, &client->bytes) == LESUNGKAP_DONE);
    const int file = memory_file(client->bytes, SEALS);
    ask_join(&client->link, file);
    close(file);
}

/* Asks for anything until it is killed. */
static void victim(void)
{
    while (1) {
        struct client client;
        open_any(&client);
        const uint32_t requests = random_below(400);
        for (uint32_t n = 0; n < requests; n++) {
            any_request(&client);
        }
        link_close(&client.link);
    }
}

static void kills(uint32_t count)
{
    enum { AT_ONCE = 3 };
    pid_t victims[AT_ONCE] = {0, 0, 0};
    for (uint32_t n = 0; n < count + AT_ONCE; n++) {
        pid_t *at = victims + n % AT_ONCE;
        if (*at > 0) {
            int status;
            EXPECT(kill(*at, SIGKILL) == 0 && waitpid(*at, &status, 0) == *at && WIFSIGNALED(status));
            *at = 0;
        }
        word += n;
        if (n < count && (*at = fork()) == 0) {
            victim();
        }
        usleep(random_below(4000));
    }
    printf("%u clients killed\n", count);
}

/* ---- packets of any bytes */

/* A control command or a send record with some fields that make sense; its length. */
static size_t any_body(const struct client *client, unsigned kind, uint8_t body[LESUNGKAP_TAPE_MOST_BODY])
{
    static const uint8_t lengths[] = {2, 6, 18, 22, 34};
    random_bytes(body, LESUNGKAP_TAPE_MOST_BODY);
    switch (kind) {
    case PACKET_CONTROL:
        memset(body + 2, 0, 40);
        body[0] = LESUNGKAP_CONTROL_CLASS;
        body[1] = (uint8_t)random_below(15);
        body[2] = (uint8_t)(random_below(2) ? client->pdn : random_below(9));
        body[2 + random_below(32)] = (uint8_t)random_below(256);
        return lengths[random_below(sizeof lengths)];
    case PACKET_SEND:
        body[LESUNGKAP_SEND_OPCODE_AT] = (uint8_t)random_below(6);
        body[LESUNGKAP_SEND_FLAGS_AT] = (uint8_t)random_below(17);
        memset(body + LESUNGKAP_SEND_COUNT_AT, 0, 4);
        body[LESUNGKAP_SEND_COUNT_AT] = (uint8_t)random_below(5);
        return LESUNGKAP_SEND_BYTES + LESUNGKAP_SGE_BYTES * (size_t)(random_below(4) ? body[LESUNGKAP_SEND_COUNT_AT] : random_below(5));
    case PACKET_RECEIVE:
        memset(body + LESUNGKAP_RECEIVE_COUNT_AT, 0, 4);
        body[LESUNGKAP_RECEIVE_COUNT_AT] = (uint8_t)random_below(4);
        return LESUNGKAP_RECEIVE_BYTES + LESUNGKAP_SGE_BYTES * (size_t)body[LESUNGKAP_RECEIVE_COUNT_AT];
    case PACKET_BATCH:
        for (size_t at = 0; at < 120; at += LESUNGKAP_TAPE_HEADER_BYTES) {
            const struct packet record = {(uint8_t)(PACKET_POLL + random_below(2)), (uint8_t)random_below(9), NULL, 0};
            put_packet(body + at, random_below(30) ? LESUNGKAP_TAPE_CALL_MARK : 0u, &record);
        }
        return random_below(130);
    default: return random_below(9) ? 0 : random_below(40);
    }
}

/* Random bytes, or a record whose kind, number and body may make sense, sometimes cut or with a byte changed. */
static size_t any_packet(const struct client *client, uint8_t *bytes)
{
    static const uint8_t kinds[] = {PACKET_CONTROL, PACKET_SEND, PACKET_RECEIVE, PACKET_POLL, PACKET_FLUSH,
                                    PACKET_WINDOW,  PACKET_JOIN, PACKET_CHANNEL, PACKET_ARM,  PACKET_SHOW,
                                    PACKET_WAITS,   PACKET_COUNTERS, PACKET_BATCH, 0};
    uint8_t body[LESUNGKAP_TAPE_MOST_BODY];
    if (random_below(8) == 0) {
        random_bytes(bytes, PACKET_MOST_BYTES);
        return 1 + random_below(PACKET_MOST_BYTES);
    }
    const uint8_t own[] = {(uint8_t)client->qp, (uint8_t)client->cqn, (uint8_t)random_below(9), (uint8_t)random_below(256)};
    struct packet packet = {kinds[random_below(sizeof kinds)], own[random_below(sizeof own)], body, 0};
    packet.length = any_body(client, packet.third, body);
    const size_t length = put_packet(bytes, LESUNGKAP_TAPE_CALL_MARK, &packet);
    if (random_below(8) == 0) {
        bytes[random_below((uint32_t)length)] ^= (uint8_t)(1 + random_below(255));
    }
    return random_below(20) ? length : 1 + random_below((uint32_t)length);
}

static int any_file(uint32_t bytes)
{
    int ends[2];
    switch (random_below(400)) {
    case 0: return memory_file(random_below(bytes * 2), random_below(2) ? SEALS : 0);
    case 1:
    case 2: return memory_file(bytes, SEALS);
    case 3: return open("/dev/null", O_RDWR | O_CLOEXEC);
    case 4:
        EXPECT(socketpair(AF_UNIX, SOCK_SEQPACKET, 0, ends) == 0);
        close(ends[0]);
        return ends[1];
    default: return -1;
    }
}

/* One packet of any bytes; whether the monitor still answers. */
static int any_exchange(struct client *client, uint32_t seen[256])
{
    uint8_t request[PACKET_MOST_BYTES], answer[PACKET_MOST_BYTES];
    struct packet packet = {0, 0, NULL, 0};
    const int file = any_file(client->bytes);
    const size_t got = link_exchange(&client->link, request, any_packet(client, request), file, answer);
    if (file >= 0) {
        close(file);
    }
    EXPECT(got == 0 || get_packet(answer, got, LESUNGKAP_TAPE_ANSWER_MARK, &packet));
    seen[got == 0 ? LINK_LOST : packet.third]++;
    return got != 0;
}

/* Between them come requests that may well be done, so that there is something to hit. */
static void packets(uint32_t count)
{
    struct client client;
    uint32_t seen[256] = {0};
    open_any(&client);
    for (uint32_t n = 0; n < count; n++) {
        if (n % 2 == 0) {
            any_request(&client);
        }
        if (!any_exchange(&client, seen) || random_below(1000) == 0) {
            link_close(&client.link);
            open_any(&client);
        }
    }
    link_close(&client.link);
    printf("%u packets of any bytes; their answers:", count);
    for (unsigned n = 0; n < 256; n++) {
        if (seen[n] > 0) {
            printf(" %u of %u", seen[n], n);
        }
    }
    printf("\n");
}

/* ---- connections */

static void connects(uint32_t count)
{
    for (uint32_t n = 0; n < count; n++) {
        struct client client;
        if (n % 3 == 0) {
            open_any(&client);
        } else {
            EXPECT(link_open(&client.link, path) == 0);
        }
        link_close(&client.link);
    }
    printf("%u connections\n", count);
}

int main(int count, char **words)
{
    int ends[2], status;
    EXPECT(count == 5 && pipe(ends) == 0);
    path = words[1];
    word = strtoull(words[4], NULL, 10) * 2654435761u + 88172645463325252u;
    const uint32_t times = (uint32_t)strtoul(words[3], NULL, 10);
    const pid_t beside = fork();
    if (beside == 0) {
        close(ends[1]);
        pair(ends[0]);
        return 0;
    }
    fcntl(ends[1], F_SETFD, FD_CLOEXEC);
    usleep(50000);
    if (strcmp(words[2], "kills") == 0) {
        kills(times);
    } else if (strcmp(words[2], "packets") == 0) {
        packets(times);
    } else {
        connects(times);
    }
    fflush(stdout);
    close(ends[1]);
    EXPECT(waitpid(beside, &status, 0) == beside && status == 0);
    return 0;
}
