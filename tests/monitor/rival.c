/* What a client may not do, and what it may not see. Each case is a function; a line for each, and the first that isn't so ends the program.
 *
 * usage: rival SOCKET [CASE]                       of a monitor for four clients; all cases, or this one
 *        rival SOCKET "a file that never closes"   passes one, says so, and lives until it is killed
 *        rival SOCKET "until the end"              asks until the monitor has gone; how many calls were answered
 */
#define _GNU_SOURCE
#include "rival.h"

#include <errno.h>
#include <fcntl.h>
#include <signal.h>
#include <stdio.h>
#include <sys/mman.h>
#include <sys/socket.h>
#include <sys/stat.h>
#include <time.h>
#include <unistd.h>

enum { SHARE_OF_REGIONS = LESUNGKAP_MR_COUNT / 4 / 2, REGISTRATIONS = 3000, TIMES = 1000 };

const char *path;

static const uint32_t all_rights = LESUNGKAP_LOCAL_WRITE | LESUNGKAP_REMOTE_WRITE | LESUNGKAP_REMOTE_READ;

static uint32_t join_with(int file)
{
    struct link link;
    EXPECT(link_open(&link, path) == 0);
    const uint32_t result = ask_join(&link, file);
    link_close(&link);
    if (file >= 0) {
        close(file);
    }
    return result;
}

/* Memory that could shrink, is too large, or is none. */
static void bad_memory(void)
{
    int ends[2];
    uint32_t bytes = 0;
    struct link link;
    EXPECT(link_open(&link, path) == 0 && ask_window(&link, &bytes) == LESUNGKAP_DONE);
    link_close(&link);
    EXPECT(join_with(-1) == LESUNGKAP_BAD_FIELD);
    EXPECT(join_with(memory_file(bytes, 0)) == LESUNGKAP_BAD_FIELD);
    EXPECT(join_with(memory_file(bytes, F_SEAL_GROW)) == LESUNGKAP_BAD_FIELD);
    EXPECT(join_with(memory_file(bytes, F_SEAL_SHRINK)) == LESUNGKAP_BAD_FIELD);
    EXPECT(join_with(memory_file(bytes, SEALS | F_SEAL_WRITE)) == LESUNGKAP_BAD_FIELD);
    EXPECT(join_with(memory_file(bytes, SEALS | F_SEAL_FUTURE_WRITE)) == LESUNGKAP_BAD_FIELD);
    EXPECT(join_with(memory_file(bytes, SEALS | F_SEAL_SEAL)) == LESUNGKAP_BAD_FIELD);
    EXPECT(join_with(memory_file(bytes + PACKET_PAGE, SEALS)) == LESUNGKAP_RANGE);
    EXPECT(join_with(memory_file(bytes - 1, SEALS)) == LESUNGKAP_RANGE);
    EXPECT(join_with(memory_file(0, SEALS)) == LESUNGKAP_RANGE);
    const int past = memory_file(bytes, 0); /* pages past its end, which the monitor would have to free */
    EXPECT(fallocate(past, FALLOC_FL_KEEP_SIZE, 0, (off_t)bytes + 16777216) == 0 && fcntl(past, F_ADD_SEALS, SEALS) == 0);
    EXPECT(join_with(past) == LESUNGKAP_RANGE);
    EXPECT(join_with(open("/dev/zero", O_RDWR | O_CLOEXEC)) == LESUNGKAP_BAD_FIELD);
    EXPECT(join_with(open("/proc/self/exe", O_RDONLY | O_CLOEXEC)) == LESUNGKAP_BAD_FIELD);
    EXPECT(pipe(ends) == 0 && join_with(ends[0]) == LESUNGKAP_BAD_FIELD && close(ends[1]) == 0);
    const int sealed = memory_file(bytes, SEALS);
    char name[64];
    snprintf(name, sizeof name, "/proc/self/fd/%d", sealed);
    EXPECT(join_with(open(name, O_RDONLY | O_CLOEXEC)) == LESUNGKAP_BAD_FIELD && close(sealed) == 0);
}

/* A client can't truncate its memory or make holes in it, for which the monitor would have to wait; it may close and unmap it. */
static void memory_after_joining(void)
{
    struct client a, b;
    client_open(&a, path, 8);
    client_open(&b, path, 8);
    EXPECT(ask_join(&a.link, a.memory_file) == LESUNGKAP_IN_USE);
    client_ready(&a, b.qp);
    client_ready(&b, a.qp);
    EXPECT(ftruncate(b.memory_file, 0) == -1 && errno == EPERM);
    EXPECT(fcntl(b.memory_file, F_ADD_SEALS, F_SEAL_WRITE) == -1);
    EXPECT(ftruncate(b.memory_file, 2 * (off_t)b.bytes) == -1 && errno == EPERM);
    EXPECT(fallocate(b.memory_file, FALLOC_FL_PUNCH_HOLE | FALLOC_FL_KEEP_SIZE, 0, (off_t)b.bytes) == -1 && errno == EPERM);
    EXPECT(madvise(b.memory, b.bytes, MADV_REMOVE) == -1);
    memset(a.memory, 7, 4096);
    EXPECT(client_send(&a, LESUNGKAP_WRITE, 0, 4096, 0, b.mr.rkey) == LESUNGKAP_DONE);
    EXPECT(b.memory[0] == 7 && b.memory[4095] == 7 && b.memory[4096] == 0);
    munmap(b.memory, b.bytes);
    close(b.memory_file);
    EXPECT(client_send(&a, LESUNGKAP_READ, 8192, 4096, 0, b.mr.rkey) == LESUNGKAP_DONE);
    EXPECT(a.memory[8192] == 7 && a.memory[8192 + 4095] == 7);
    EXPECT(client_completion(&a).status == LESUNGKAP_SUCCESS && client_completion(&a).status == LESUNGKAP_SUCCESS);
    link_close(&b.link);
    client_close(&a);
}

/* Every number of every table is as if it were not there, but for one's own. */
static void others_objects(void)
{
    struct client a, b;
    struct lesungkap_completion done;
    struct lesungkap_register_mr_ack mr;
    uint32_t name, oldest, what;
    unsigned left;
    client_open(&a, path, 8);
    client_open(&b, path, 8);
    for (uint32_t n = 0; n < 256; n++) {
        const struct lesungkap_register_mr region = {n, all_rights, 0, 1, 0};
        const struct lesungkap_create_qp pd = {n, LESUNGKAP_QP_TYPE_RC, 0, b.cqn, b.cqn}, cq = {b.pdn, LESUNGKAP_QP_TYPE_RC, 0, n, b.cqn};
        EXPECT(n == b.pdn || ask_destroy_pd(&b.link, n) == LESUNGKAP_NOT_LIVE);
        EXPECT(n == b.cqn || ask_destroy_cq(&b.link, n) == LESUNGKAP_NOT_LIVE);
        EXPECT(n == b.mr.mrn || ask_deregister_mr(&b.link, n) == LESUNGKAP_NOT_LIVE);
        EXPECT(ask_destroy_qp(&b.link, n | (n == qp_number(b.qp) ? 0 : 1u << PACKET_NAME_SHIFT)) == LESUNGKAP_NOT_LIVE);
        EXPECT(n == b.cqn || ask_poll(&b.link, n, &done, &left) == LESUNGKAP_NOT_LIVE);
        EXPECT(n == b.cqn || ask_arm(&b.link, n) == LESUNGKAP_NOT_LIVE);
        EXPECT(n == b.cqn || ask_channel(&b.link, n, -1) == LESUNGKAP_NOT_LIVE);
        EXPECT(n == qp_number(b.qp) || ask_flush(&b.link, n) == LESUNGKAP_NOT_LIVE);
        EXPECT(n == qp_number(b.qp) || ask_waits(&b.link, n, &oldest, &what) == LESUNGKAP_NOT_LIVE);
        EXPECT(n == b.pdn || ask_register_mr(&b.link, &region, &mr) == LESUNGKAP_NOT_LIVE);
        EXPECT(n == b.pdn || ask_create_qp(&b.link, &pd, &name) == LESUNGKAP_NOT_LIVE);
        EXPECT(n == b.cqn || ask_create_qp(&b.link, &cq, &name) == LESUNGKAP_NOT_LIVE);
    }
    struct client thief = b;
    thief.qp = a.qp;
    EXPECT(client_move(&thief, LESUNGKAP_QP_ERROR, 0) == LESUNGKAP_NOT_LIVE);
    EXPECT(client_send(&thief, LESUNGKAP_WRITE, 0, 1, 0, a.mr.rkey) == LESUNGKAP_NOT_LIVE);
    EXPECT(client_receive(&thief, 0, 1) == LESUNGKAP_NOT_LIVE);
    EXPECT(client_move(&a, LESUNGKAP_QP_INIT, 0) == LESUNGKAP_DONE);
    client_close(&a);
    client_close(&b);
}

/* Regions up to the window's last byte, and not one further; a share of each table, and not one more. */
static void window_and_share(void)
{
    struct client first, a, seatless;
    struct lesungkap_register_mr_ack mr;
    uint32_t number;
    client_join(&first, path); /* so that there are bytes before a's window */
    client_join(&a, path);
    EXPECT(ask_create_pd(&a.link, &a.pdn) == LESUNGKAP_DONE);
    const struct lesungkap_register_mr ranges[] = {{a.pdn, 1, a.bytes, 1, 0},     {a.pdn, 1, a.bytes - 1, 2, 0}, {a.pdn, 1, 1, a.bytes, 0},
                                                   {a.pdn, 1, 0, a.bytes + 1, 0}, {a.pdn, 1, 1, UINT64_MAX, 0},  {a.pdn, 1, UINT64_MAX, 1, 0},
                                                   {a.pdn, 1, UINT64_MAX, 2, 0},  {a.pdn, 1, a.bytes + 1, 1, 0}};
    for (size_t n = 0; n < sizeof ranges / sizeof *ranges; n++) {
        EXPECT(ask_register_mr(&a.link, ranges + n, &mr) == LESUNGKAP_RANGE);
    }
    const struct lesungkap_register_mr last = {a.pdn, 1, a.bytes - 1, 1, 0};
    for (int n = 0; n < SHARE_OF_REGIONS; n++) {
        EXPECT(ask_register_mr(&a.link, &last, &mr) == LESUNGKAP_DONE);
    }
    EXPECT(ask_register_mr(&a.link, &last, &mr) == LESUNGKAP_FULL);
    EXPECT(ask_create_pd(&a.link, &number) == LESUNGKAP_DONE && ask_create_pd(&a.link, &number) == LESUNGKAP_FULL);
    EXPECT(ask_create_cq(&a.link, 1, &number) == LESUNGKAP_DONE && ask_create_cq(&a.link, 1, &number) == LESUNGKAP_DONE);
    EXPECT(ask_create_cq(&a.link, 1, &number) == LESUNGKAP_FULL);
    EXPECT(link_open(&seatless.link, path) == 0 && ask_create_pd(&seatless.link, &number) == LESUNGKAP_FULL);
    link_close(&seatless.link);
    client_close(&first);
    client_close(&a);
}

/* A newcomer that gets the number of one who has gone is not joined with those who still name it. */
static void former_number(void)
{
    struct client a, b, c;
    client_open(&a, path, 8);
    client_open(&b, path, 8);
    client_ready(&a, b.qp);
    client_ready(&b, a.qp);
    const uint32_t former = b.qp;
    client_close(&b);
    do { /* until the monitor has seen it go */
        client_open(&c, path, 8);
    } while (qp_number(c.qp) != qp_number(former) && (client_close(&c), 1));
    EXPECT(c.qp != former);
    EXPECT(client_move(&c, LESUNGKAP_QP_INIT, 0) == LESUNGKAP_DONE);
    EXPECT(client_move(&c, LESUNGKAP_QP_RTR, a.qp) == LESUNGKAP_IN_USE);
    EXPECT(client_send(&a, LESUNGKAP_WRITE, 0, 8, 0, c.mr.rkey) == (LESUNGKAP_DONE | LESUNGKAP_FLUSHED << 8));
    EXPECT(client_completion(&a).status == LESUNGKAP_FLUSHED && c.memory[0] == 0);
    EXPECT(client_move(&a, LESUNGKAP_QP_RESET, 0) == LESUNGKAP_DONE && client_move(&a, LESUNGKAP_QP_INIT, 0) == LESUNGKAP_DONE);
    EXPECT(client_move(&a, LESUNGKAP_QP_RTR, former) == LESUNGKAP_NOT_LIVE);
    EXPECT(client_move(&c, LESUNGKAP_QP_RTR, a.qp) == LESUNGKAP_DONE && client_move(&a, LESUNGKAP_QP_RTR, c.qp) == LESUNGKAP_DONE);
    client_close(&a);
    client_close(&c);
}

/* Sends wait in order until receives come, and those that wait when their peer goes are flushed in order. */
static void held_in_order(void)
{
    struct client a, b;
    client_open(&a, path, 4);
    client_open(&b, path, 4);
    client_ready(&a, b.qp);
    client_ready(&b, a.qp);
    for (uint8_t n = 0; n < 40; n++) {
        a.memory[n] = n;
        EXPECT(lesungkap_answer(client_send(&a, LESUNGKAP_SEND, n, 1, 0, 0)) == (n == 0 ? LESUNGKAP_HELD_PEER : LESUNGKAP_HELD_PLACE));
    }
    for (uint8_t n = 0; n < 20; n++) {
        EXPECT(client_receive(&b, 100u + n, 1) == LESUNGKAP_DONE);
        EXPECT(client_completion(&a).status == LESUNGKAP_SUCCESS && client_completion(&b).status == LESUNGKAP_SUCCESS);
        EXPECT(b.memory[100 + n] == n);
    }
    client_close(&b);
    for (uint8_t n = 20; n < 40; n++) {
        EXPECT(client_completion(&a).status == LESUNGKAP_FLUSHED);
    }
    client_close(&a);
}

/* A flood of requests whose answers nobody takes ends that client; another is served meanwhile. */
static void flood(void)
{
    struct client a;
    struct link link;
    client_open(&a, path, 4);
    EXPECT(link_open(&link, path) == 0);
    uint8_t request[PACKET_MOST_BYTES];
    const struct packet packet = {PACKET_WINDOW, 0, NULL, 0};
    const size_t length = put_packet(request, LESUNGKAP_TAPE_CALL_MARK, &packet);
    int gone = 0;
    for (int n = 0; n < 1000000 && !gone; n++) {
        gone = send(link.fd, request, length, MSG_NOSIGNAL) < 0;
        if (n % 64 == 0) {
            EXPECT(client_move(&a, LESUNGKAP_QP_RESET, 0) == LESUNGKAP_DONE);
        }
    }
    EXPECT(gone);
    link_close(&link);
    client_close(&a);
}

/* Three clients have a hundred requests waiting when a fourth asks once: it is answered before any of them gets its third answer. */
static void in_turn(void)
{
    struct client clients[4];
    const int yes = 1;
    const uint8_t byte = 0;
    for (int n = 0; n < 4; n++) {
        client_join(clients + n, path);
        EXPECT(setsockopt(clients[n].link.fd, SOL_SOCKET, SO_TIMESTAMPNS, &yes, sizeof yes) == 0);
    }
    const pid_t monitor = stop_monitor(&clients[0].link);
    for (int n = 0; n < 301; n++) {
        EXPECT(link_send(&clients[n / 100].link, &byte, 1, -1));
    }
    EXPECT(kill(monitor, SIGCONT) == 0);
    const double asked_once = stamped(&clients[3].link);
    for (int n = 0; n < 3; n++) {
        stamped(&clients[n].link);
        stamped(&clients[n].link);
        EXPECT(asked_once <= stamped(&clients[n].link));
        client_close(clients + n);
    }
    client_close(clients + 3);
}

/* One connection more than an operator may have is refused, and one that has hung up is not counted. */
static void connections(void)
{
    struct link links[CONNECTIONS + 1], last;
    uint32_t bytes;
    for (int m = 0; m < 20; m++) {
        for (int n = 0; n <= CONNECTIONS; n++) {
            EXPECT(link_open(links + n, path) == 0);
            EXPECT(ask_window(links + n, &bytes) == (n < CONNECTIONS ? LESUNGKAP_DONE : LINK_LOST));
        }
        for (int n = 0; n <= CONNECTIONS; n++) {
            link_close(links + n);
        }
    }
    EXPECT(link_open(links, path) == 0);
    const pid_t monitor = stop_monitor(links);
    for (int n = 0; n < 2 * CONNECTIONS; n++) {
        EXPECT(link_open(&last, path) == 0);
        link_close(&last);
    }
    EXPECT(link_open(&last, path) == 0 && kill(monitor, SIGCONT) == 0 && ask_window(&last, &bytes) == LESUNGKAP_DONE);
    link_close(&last);
    link_close(links);
}

/* A client's memory is filled when it has joined: the monitor waits for no page of it later. */
static void filled_memory(void)
{
    struct client a;
    struct stat stat;
    client_join(&a, path);
    EXPECT(fstat(a.memory_file, &stat) == 0 && (uint64_t)stat.st_blocks * 512 >= a.bytes);
    client_close(&a);
}

/* No key is handed out twice. */
static void keys(void)
{
    static uint32_t seen[REGISTRATIONS];
    struct client a;
    struct lesungkap_register_mr_ack mr;
    client_join(&a, path);
    EXPECT(ask_create_pd(&a.link, &a.pdn) == LESUNGKAP_DONE);
    const struct lesungkap_register_mr region = {a.pdn, 1, 0, 1, 0};
    for (int n = 0; n < REGISTRATIONS; n++) {
        EXPECT(ask_register_mr(&a.link, &region, &mr) == LESUNGKAP_DONE && ask_deregister_mr(&a.link, mr.mrn) == LESUNGKAP_DONE);
        seen[n] = mr.rkey;
        for (int m = 0; m < n; m++) {
            EXPECT(seen[m] != mr.rkey);
        }
    }
    client_close(&a);
}

/* Its own unread completions, which a client sees without asking: they are there before the answer is, nobody else's are seen, also
 * not those of one who has the same number and seat later, and the page can't be written. */
static void counters(void)
{
    struct client a, b, c;
    struct link link;
    EXPECT(link_open(&link, path) == 0 && ask_counters(&link) == LESUNGKAP_FULL);
    link_close(&link);
    client_open(&a, path, 8);
    client_open(&b, path, 8);
    EXPECT(ask_counters(&a.link) == LESUNGKAP_DONE && ask_counters(&a.link) == LESUNGKAP_IN_USE);
    EXPECT(ask_counters(&b.link) == LESUNGKAP_DONE && a.link.counters != NULL && b.link.counters != NULL);
    client_ready(&a, b.qp);
    client_ready(&b, a.qp);
    for (unsigned n = 1; n <= 8; n++) {
        EXPECT(client_send(&a, LESUNGKAP_WRITE, 0, 8, 0, b.mr.rkey) == LESUNGKAP_DONE);
        EXPECT(a.link.counters[a.cqn] == n && b.link.counters[a.cqn] == 0 && b.link.counters[b.cqn] == 0);
    }
    for (unsigned n = 8; n > 0; n--) {
        EXPECT(client_completion(&a).status == LESUNGKAP_SUCCESS && a.link.counters[a.cqn] == n - 1);
    }
    EXPECT(mprotect((void *)(uintptr_t)a.link.counters, PACKET_PAGE, PROT_READ | PROT_WRITE) == -1);
    const _Atomic uint32_t *kept = a.link.counters;
    const uint32_t cqn = a.cqn;
    a.link.counters = NULL;
    client_close(&a);
    do { /* until the monitor has seen it go */
        client_open(&c, path, 8);
    } while (c.cqn != cqn && (client_close(&c), 1));
    EXPECT(ask_counters(&c.link) == LESUNGKAP_DONE);
    EXPECT(client_move(&c, LESUNGKAP_QP_ERROR, 0) == LESUNGKAP_DONE && client_receive(&c, 0, 1) == (LESUNGKAP_DONE | LESUNGKAP_FLUSHED << 8));
    EXPECT(c.link.counters[cqn] == 1 && kept[cqn] == 0);
    munmap((void *)(uintptr_t)kept, PACKET_PAGE);
    client_close(&b);
    client_close(&c);
}

/* Sends records in one packet; the answers' kinds, in order, or LINK_LOST behind the last. */
static void ask_records(struct client *client, const struct packet *records, unsigned count, uint8_t answers[32])
{
    uint8_t body[LESUNGKAP_TAPE_MOST_BODY], one[PACKET_MOST_BYTES], request[PACKET_MOST_BYTES], answer[PACKET_MOST_BYTES];
    struct packet batch = {PACKET_BATCH, 0, body, 0}, got = {0, 0, NULL, 0};
    for (unsigned n = 0; n < count; n++) {
        const size_t length = put_packet(one, LESUNGKAP_TAPE_CALL_MARK, records + n);
        memcpy(body + batch.length, one, length);
        batch.length += length;
    }
    const size_t length = link_exchange(&client->link, request, put_packet(request, LESUNGKAP_TAPE_CALL_MARK, &batch), -1, answer);
    EXPECT(get_packet(answer, length, LESUNGKAP_TAPE_ANSWER_MARK, &got) && got.third == LESUNGKAP_DONE);
    size_t at = 0, whole = 1;
    for (unsigned n = 0; n < 32; n++) {
        struct packet part;
        whole = first_packet(got.body + at, got.length - at, LESUNGKAP_TAPE_ANSWER_MARK, &part);
        answers[n] = whole > 0 ? part.third : LINK_LOST;
        at += whole;
    }
    EXPECT(at == got.length);
}

/* Several records in one packet are run in order up to the first that is refused; none is run that its sender may not have run, of
 * another kind, or behind the sixteenth. */
static void batches(void)
{
    struct client a, b;
    uint8_t answers[32], command[LESUNGKAP_COMMAND_MOST_BYTES];
    client_open(&a, path, 16);
    client_open(&b, path, 16);
    client_ready(&a, b.qp);
    client_ready(&b, a.qp);
    const struct packet poll = {PACKET_POLL, (uint8_t)a.cqn, NULL, 0}, others = {PACKET_POLL, (uint8_t)b.cqn, NULL, 0};
    const struct packet create = {PACKET_CONTROL, 0, command, lesungkap_put_create_pd(command, sizeof command)};
    const struct packet inner = {PACKET_BATCH, 0, NULL, 0}, window = {PACKET_WINDOW, 0, NULL, 0}, with_body = {PACKET_POLL, 0, command, 1};
    for (int n = 0; n < 16; n++) {
        EXPECT(client_send(&a, LESUNGKAP_WRITE, 0, 8, 0, b.mr.rkey) == LESUNGKAP_DONE);
    }
    const struct packet bad[] = {others, create, inner, window, with_body};
    for (unsigned n = 0; n < sizeof bad / sizeof *bad; n++) {
        const struct packet records[] = {poll, bad[n], poll};
        ask_records(&a, records, 3, answers);
        EXPECT(answers[0] == LESUNGKAP_DONE && answers[1] == (n == 0 ? LESUNGKAP_NOT_LIVE : LESUNGKAP_BAD_TAPE_RECORD));
        EXPECT(answers[2] == LINK_LOST);
    }
    struct packet many[20];
    for (int n = 0; n < 20; n++) {
        many[n] = poll;
    }
    for (int n = 0; n < 5; n++) { /* as many as were polled before */
        EXPECT(client_send(&a, LESUNGKAP_WRITE, 0, 8, 0, b.mr.rkey) == LESUNGKAP_DONE);
    }
    ask_records(&a, many, 20, answers);
    EXPECT(answers[15] == LESUNGKAP_DONE && answers[16] == LINK_LOST);
    ask_records(&a, many, 20, answers);
    EXPECT(answers[0] == LESUNGKAP_NOTHING && answers[1] == LINK_LOST);
    client_close(&a);
    client_close(&b);
}

/* Two clients' sends wait for each other while one makes requests that are done and don't help them: the tape does not
 * grow by tries of the sends. */
static void held_and_tried(void)
{
    struct client a, b;
    struct lesungkap_query_port_ack port;
    struct lesungkap_register_mr_ack mr;
    uint8_t bytes[LESUNGKAP_MOST_INLINE] = {0};
    struct lesungkap_send send;
    memset(&send, 0, sizeof send);
    send.opcode = LESUNGKAP_SEND;
    send.flags = LESUNGKAP_FLAG_INLINE;
    send.count = sizeof bytes;
    send.inline_bytes = bytes;
    client_open(&a, path, 8);
    client_open(&b, path, 8);
    client_ready(&a, b.qp);
    client_ready(&b, a.qp);
    EXPECT(lesungkap_answer(ask_send(&a.link, a.qp, &send)) == LESUNGKAP_HELD_PEER);
    EXPECT(lesungkap_answer(ask_send(&b.link, b.qp, &send)) == LESUNGKAP_HELD_PEER);
    const struct lesungkap_register_mr region = {a.pdn, 1, 0, 1, 0};
    for (int n = 0; n < TIMES; n++) {
        EXPECT(ask_query_port(&a.link, &port) == LESUNGKAP_DONE);
        EXPECT(ask_register_mr(&a.link, &region, &mr) == LESUNGKAP_DONE && ask_deregister_mr(&a.link, mr.mrn) == LESUNGKAP_DONE);
    }
    client_close(&a);
    client_close(&b);
}

/* Asks until nobody answers any more, and says how many calls were answered. */
static void until_the_end(void)
{
    struct client a;
    struct lesungkap_register_mr_ack mr;
    unsigned answered = 1;
    client_join(&a, path);
    EXPECT(ask_create_pd(&a.link, &a.pdn) == LESUNGKAP_DONE);
    const struct lesungkap_register_mr region = {a.pdn, 1, 0, 1, 0};
    while (ask_register_mr(&a.link, &region, &mr) == LESUNGKAP_DONE && ++answered && ask_deregister_mr(&a.link, mr.mrn) == LESUNGKAP_DONE) {
        answered++;
    }
    printf("%u\n", answered);
}

int main(int count, char **words)
{
    static const struct {
        const char *name;
        void (*run)(void);
    } cases[] = {{"bad memory", bad_memory},           {"memory after joining", memory_after_joining},
                 {"others' objects", others_objects},  {"window and share", window_and_share},
                 {"a former number", former_number},   {"held sends", held_in_order},
                 {"odd packets", odd_packets},         {"connections", connections},
                 {"slow files", slow_files},           {"stuck channels", stuck_channels},
                 {"a flood", flood},                   {"in turn", in_turn},
                 {"bad channels", bad_channels},       {"its own end", own_end},
                 {"filled memory", filled_memory},     {"keys", keys},
                 {"counters", counters},               {"tries", held_and_tried},
                 {"batches", batches}};
    EXPECT(count == 2 || count == 3);
    path = words[1];
    if (count == 3 && strcmp(words[2], "a file that never closes") == 0) {
        never_closes();
    }
    if (count == 3 && strcmp(words[2], "until the end") == 0) {
        until_the_end();
        return 0;
    }
    for (size_t n = 0; n < sizeof cases / sizeof *cases; n++) {
        if (count == 2 || strcmp(words[2], cases[n].name) == 0) {
            printf("%s\n", cases[n].name);
            fflush(stdout);
            cases[n].run();
        }
    }
    return 0;
}
