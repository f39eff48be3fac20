/* A small monitor: three operators share one card. Each has its own protection domain, completion queue, memory region and queue pair;
 * the monitor makes one call per request and shows what came of it. It ends with status 1 if the card does anything else than this file
 * expects. Its calls and their answers are recorded up to the first enqueue; with two arguments the tapes go to the files that they name.
 *
 * C11, and C++17 as it stands.
 */
#include <lesungkap.h>
#include <lesungkap_tape.h>

#include <inttypes.h>
#include <stdio.h>
#include <stdlib.h>
#include <string.h>

enum { MEMORY_BYTES = 4096, REGION_BYTES = 1024, TEXT_BYTES = 24, TAPE_BYTES = 65536 };

struct account {
    const char *name;
    uint64_t start;  /* first memory byte of its region */
    uint64_t virt;   /* address under which it knows that byte */
    uint32_t access; /* what the region grants */
    uint32_t flags;  /* what its queue pair lets the peer use of that */
    uint32_t pdn, cqn, mrn, key, qpn;
};

static uint8_t state[LESUNGKAP_STATE_BYTES];
static uint8_t memory[MEMORY_BYTES];
static uint8_t command[LESUNGKAP_COMMAND_MOST_BYTES];
static uint8_t ack[LESUNGKAP_ACK_MOST_BYTES];
static struct lesungkap_recorder recorder;
static uint64_t last_request = 0;

static void expect(int holds, const char *what)
{
    if (!holds) {
        printf("UNEXPECTED: %s\n", what);
        exit(1);
    }
}

/* A result in words. Answer 0 says that a request is finished, and its status whether it went well. */
static void show_result(uint32_t result)
{
    const unsigned answer = lesungkap_answer(result), status = lesungkap_status(result);
    if (answer == LESUNGKAP_HELD_PEER || answer == LESUNGKAP_HELD_PLACE) {
        printf("answer %u, %s\n", answer, lesungkap_answer_text(answer));
    } else if (answer != LESUNGKAP_DONE) {
        printf("answer %u, refused: %s\n", answer, lesungkap_answer_text(answer));
    } else if (status != LESUNGKAP_SUCCESS) {
        printf("answer 0, finished, and it FAILED: status %u, %s\n", status, lesungkap_status_text(status));
    } else {
        printf("answer 0, done\n");
    }
}

/* Whether a work request or a receive is finished with this status. */
static int ended(uint32_t result, unsigned status)
{
    return lesungkap_answer(result) == LESUNGKAP_DONE && lesungkap_status(result) == status;
}

/* ---- control commands */

/* Runs the command of this length, which must be done. */
static void control(size_t length)
{
    const uint32_t result = lesungkap_recorded_control(&recorder, state, sizeof state, command, length, ack, sizeof ack);
    expect(result == LESUNGKAP_DONE, lesungkap_answer_text(lesungkap_answer(result)));
}

/* A guest's driver asks what the card is before it creates anything. */
static void query(void)
{
    struct lesungkap_query_device_ack device;
    struct lesungkap_query_port_ack port;
    control(lesungkap_put_query_device(command, sizeof command));
    expect(lesungkap_get_query_device_ack(ack, sizeof ack, &device) == LESUNGKAP_DONE, "the ack of query device");
    printf("  control       query device: answer 0, done: version %" PRIu32 "; %" PRIu32 " PDs, CQs of %" PRIu32 " places, %" PRIu32
           " MRs of up to %" PRIu64 " bytes, %" PRIu32 " entries to a send\n",
           device.hw_ver, device.max_pd, device.max_cqe, device.max_mr, device.max_mr_size, device.max_send_sge);
    control(lesungkap_put_query_port(command, sizeof command));
    expect(lesungkap_get_query_port_ack(ack, sizeof ack, &port) == LESUNGKAP_DONE, "the ack of query port");
    printf("  control       query port: answer 0, done: messages of up to %" PRIu32 " bytes\n", port.max_msg_sz);
    expect(device.max_mr_size == sizeof memory && port.max_msg_sz >= TEXT_BYTES, "a card for this memory and these messages");
}

static void modify(const struct account *who, uint32_t mask, uint8_t to, const struct account *peer)
{
    struct lesungkap_modify_qp data;
    memset(&data, 0, sizeof data);
    data.qpn = who->qpn;
    data.mask = LESUNGKAP_MASK_STATE | mask;
    data.state = to;
    data.destination = peer->qpn;
    data.access_flags = who->flags;
    control(lesungkap_put_modify_qp(command, sizeof command, &data));
}

/* What access flags let a peer do. */
static const char *rights_text(uint32_t flags)
{
    static const char *const texts[4] = {"nothing", "remote write", "remote read", "remote write and remote read"};
    return texts[(flags & LESUNGKAP_REMOTE_WRITE ? 1 : 0) + (flags & LESUNGKAP_REMOTE_READ ? 2 : 0)];
}

/* Brings a queue pair to ready to send, joined with the peer's, to which it grants what its account says. */
static void make_ready(const struct account *who, const struct account *peer)
{
    modify(who, 0, LESUNGKAP_QP_RESET, peer);
    modify(who, LESUNGKAP_MASK_ACCESS_FLAGS, LESUNGKAP_QP_INIT, peer);
    modify(who, LESUNGKAP_MASK_DESTINATION, LESUNGKAP_QP_RTR, peer);
    modify(who, 0, LESUNGKAP_QP_RTS, peer);
    printf("  control x4    %s: modify QP to reset, init granting %s, ready to receive from %s, ready to send: answer 0, done\n", who->name,
           rights_text(who->flags), peer->name);
}

static void register_region(struct account *who)
{
    const struct lesungkap_register_mr data = {who->pdn, who->access, who->start, REGION_BYTES, who->virt};
    struct lesungkap_register_mr_ack made;
    control(lesungkap_put_register_mr(command, sizeof command, &data));
    expect(lesungkap_get_register_mr_ack(ack, sizeof ack, &made) == LESUNGKAP_DONE, "the ack of register MR");
    who->mrn = made.mrn;
    who->key = made.lkey;
    printf("  control       %s: register MR over memory bytes %" PRIu64 " to %" PRIu64 ", granting local write%s%s: answer 0, done: key %" PRIu32 "\n",
           who->name, who->start, who->start + REGION_BYTES - 1, who->access & LESUNGKAP_REMOTE_WRITE ? ", remote write" : "",
           who->access & LESUNGKAP_REMOTE_READ ? ", remote read" : "", who->key);
}

static void open_account(struct account *who)
{
    struct lesungkap_create_pd_ack pd;
    control(lesungkap_put_create_pd(command, sizeof command));
    expect(lesungkap_get_create_pd_ack(ack, sizeof ack, &pd) == LESUNGKAP_DONE, "the ack of create PD");
    who->pdn = pd.pdn;

    const struct lesungkap_create_cq places = {8};
    struct lesungkap_create_cq_ack cq;
    control(lesungkap_put_create_cq(command, sizeof command, &places));
    expect(lesungkap_get_create_cq_ack(ack, sizeof ack, &cq) == LESUNGKAP_DONE, "the ack of create CQ");
    who->cqn = cq.cqn;

    const struct lesungkap_create_qp pair = {who->pdn, LESUNGKAP_QP_TYPE_RC, LESUNGKAP_SIGNAL_ALL, who->cqn, who->cqn};
    struct lesungkap_create_qp_ack qp;
    control(lesungkap_put_create_qp(command, sizeof command, &pair));
    expect(lesungkap_get_create_qp_ack(ack, sizeof ack, &qp) == LESUNGKAP_DONE, "the ack of create QP");
    who->qpn = qp.qpn;

    printf("  control x3    %s: create PD, CQ and QP: answer 0, done: PD %" PRIu32 ", CQ %" PRIu32 ", QP %" PRIu32 "\n", who->name, who->pdn,
           who->cqn, who->qpn);
    register_region(who);
}

/* ---- work requests */

static struct lesungkap_sge entry(const struct account *who, uint64_t offset, uint32_t length)
{
    const struct lesungkap_sge sge = {who->virt + offset, length, who->key};
    return sge;
}

/* Posts a request with one local entry; a send looks at no remote address. */
static uint32_t post_send(const struct account *who, uint8_t opcode, struct lesungkap_sge local, struct lesungkap_sge remote)
{
    struct lesungkap_send send;
    uint8_t record[LESUNGKAP_SEND_MOST_BYTES];
    memset(&send, 0, sizeof send);
    send.wr_id = ++last_request;
    send.opcode = opcode;
    send.remote_address = remote.address;
    send.remote_key = remote.key;
    send.count = 1;
    send.sges[0] = local;
    const size_t length = lesungkap_put_send(record, sizeof record, &send);
    const uint32_t result =
        lesungkap_recorded_post_send(&recorder, state, sizeof state, memory, sizeof memory, who->qpn, record, length);
    printf("  post_send     %s: request %" PRIu64 ", %s of %" PRIu32 " bytes: ", who->name, send.wr_id,
           opcode == LESUNGKAP_SEND ? "send" : opcode == LESUNGKAP_WRITE ? "write" : "read", local.length);
    show_result(result);
    return result;
}

static uint32_t send_text(const struct account *who, struct lesungkap_sge text)
{
    const struct lesungkap_sge none = {0, 0, 0};
    return post_send(who, LESUNGKAP_SEND, text, none);
}

static uint32_t post_receive(const struct account *who, struct lesungkap_sge sge)
{
    struct lesungkap_receive receive;
    uint8_t record[LESUNGKAP_RECEIVE_MOST_BYTES];
    memset(&receive, 0, sizeof receive);
    receive.wr_id = ++last_request;
    receive.count = 1;
    receive.sges[0] = sge;
    const size_t length = lesungkap_put_receive(record, sizeof record, &receive);
    const uint32_t result = lesungkap_recorded_post_receive(&recorder, state, sizeof state, who->qpn, record, length);
    printf("  post_receive  %s: request %" PRIu64 ", up to %" PRIu32 " bytes: ", who->name, receive.wr_id, sge.length);
    show_result(result);
    return result;
}

/* A receive that waits. */
static void wait_for(const struct account *who, struct lesungkap_sge sge)
{
    expect(post_receive(who, sge) == LESUNGKAP_DONE, "a receive");
}

static uint32_t flush(const struct account *who)
{
    const uint32_t result = lesungkap_recorded_flush(&recorder, state, sizeof state, who->qpn);
    printf("  flush         %s: ", who->name);
    show_result(result);
    return result;
}

/* Takes every completion out of an operator's queue. */
static void poll_all(const struct account *who)
{
    uint8_t buffer[LESUNGKAP_COMPLETION_BYTES];
    struct lesungkap_completion done;
    uint32_t result;
    while ((result = lesungkap_recorded_poll(&recorder, state, sizeof state, who->cqn, buffer, sizeof buffer)) == LESUNGKAP_DONE) {
        expect(lesungkap_get_completion(buffer, sizeof buffer, &done) == LESUNGKAP_DONE, "a completion");
        printf("  poll          %s: request %" PRIu64 ", %s: status %u, %s, %" PRIu32 " bytes\n", who->name, done.wr_id,
               lesungkap_completed_text(done.opcode), done.status, lesungkap_status_text(done.status), done.byte_length);
    }
    expect(lesungkap_answer(result) == LESUNGKAP_NOTHING, "a poll of an empty queue");
}

/* ---- what is seen without a call */

static void show_qp(const struct account *who)
{
    struct lesungkap_qp qp;
    expect(lesungkap_peek_qp(state, sizeof state, who->qpn, &qp) == LESUNGKAP_DONE, "a live queue pair");
    printf("  (state)       %s's queue pair is in state %u, %s; receives waiting on it: %u\n", who->name, qp.state,
           lesungkap_qp_state_text(qp.state), qp.waiting);
}

/* The guest's own writing, outside the card. */
static struct lesungkap_sge put_text(const struct account *who, uint64_t offset, const char *text)
{
    memcpy(memory + who->start + offset, text, TEXT_BYTES);
    return entry(who, offset, TEXT_BYTES);
}

static void show_text(const struct account *who, uint64_t offset)
{
    printf("  (memory)      %s has \"%.*s\" in memory bytes %" PRIu64 " to %" PRIu64 "\n", who->name, (int)TEXT_BYTES,
           (const char *)memory + who->start + offset, who->start + offset, who->start + offset + TEXT_BYTES - 1);
}

/* ---- the story */

static void show_messages(const struct account *north, const struct account *coast)
{
    printf("\n1. North sends a message before Coast waits for one, and again after.\n");
    struct lesungkap_sge text = put_text(north, 0, "Train 17 leaves at 08:05");
    expect(lesungkap_answer(send_text(north, text)) == LESUNGKAP_HELD_PEER, "a send without a receive");
    wait_for(coast, entry(coast, 100, 64));
    expect(ended(send_text(north, text), LESUNGKAP_SUCCESS), "a send");
    poll_all(north);
    poll_all(coast);
    show_text(coast, 100);

    printf("\n2. North writes into Coast's loop plan, and reads it back into its own region.\n");
    text = put_text(north, 200, "Loop 3 taken 08:20-08:40");
    const struct lesungkap_sge plan = entry(coast, 512, TEXT_BYTES);
    expect(ended(post_send(north, LESUNGKAP_WRITE, text, plan), LESUNGKAP_SUCCESS), "a write");
    expect(ended(post_send(north, LESUNGKAP_READ, entry(north, 600, TEXT_BYTES), plan), LESUNGKAP_SUCCESS), "a read");
    poll_all(north);
    show_text(coast, 512);
    show_text(north, 600);
}

/* A write of 24 bytes that ends `past` bytes after the last byte of Coast's region. */
static uint32_t write_to_the_end(const struct account *north, const struct account *coast, uint64_t past)
{
    const uint64_t first = REGION_BYTES - TEXT_BYTES + past;
    printf("  (memory)      24 bytes to memory bytes %" PRIu64 " to %" PRIu64 "; Coast's last byte is %" PRIu64 "\n", coast->start + first,
           coast->start + first + TEXT_BYTES - 1, coast->start + REGION_BYTES - 1);
    return post_send(north, LESUNGKAP_WRITE, entry(north, 200, TEXT_BYTES), entry(coast, first, TEXT_BYTES));
}

static void show_overhang(const struct account *north, const struct account *coast, const struct account *ridge)
{
    printf("\n3. Where does the last byte stand? A write that overhangs Coast's region by one byte, into Ridge's plan, then one that fits.\n");
    static uint8_t before[MEMORY_BYTES];
    put_text(ridge, 0, "Ridge crossing 08:30 OK.");
    memcpy(before, memory, sizeof before);
    expect(ended(write_to_the_end(north, coast, 1), LESUNGKAP_REMOTE_ACCESS), "an overhang by one byte");
    size_t changed = 0;
    for (size_t n = 0; n < sizeof memory; n++) {
        changed += memory[n] != before[n];
    }
    printf("  (memory)      byte %" PRIu64 " is Ridge's: '%c' before, '%c' after; bytes changed in the whole memory: %zu\n", ridge->start,
           before[ridge->start], memory[ridge->start], changed);
    expect(changed == 0, "a failed write that changes memory");
    poll_all(north);
    show_qp(north);
    make_ready(north, coast);
    expect(ended(write_to_the_end(north, coast, 0), LESUNGKAP_SUCCESS), "a write up to the last byte");
    poll_all(north);
    show_text(coast, REGION_BYTES - TEXT_BYTES);
    show_text(ridge, 0);
}

static void show_rights(const struct account *north, struct account *coast)
{
    printf("\n4. Coast lets its plan be read and not written: its queue pair grants remote read alone, over the same region.\n");
    coast->flags = LESUNGKAP_REMOTE_READ;
    make_ready(coast, north);
    const struct lesungkap_sge plan = entry(coast, 512, TEXT_BYTES);
    expect(ended(post_send(north, LESUNGKAP_READ, entry(north, 600, TEXT_BYTES), plan), LESUNGKAP_SUCCESS), "a read that is granted");
    expect(ended(post_send(north, LESUNGKAP_WRITE, entry(north, 0, TEXT_BYTES), plan), LESUNGKAP_REMOTE_ACCESS), "a write that isn't granted");
    poll_all(north);
    show_text(coast, 512);
    make_ready(north, coast);
}

static void show_dropped_region(const struct account *north, const struct account *coast)
{
    printf("\n5. Coast drops its region while two receives wait on it; what still waits after the failure is flushed.\n");
    wait_for(coast, entry(coast, 0, 64));
    wait_for(coast, entry(coast, 64, 64));
    const struct lesungkap_deregister_mr data = {coast->mrn};
    control(lesungkap_put_deregister_mr(command, sizeof command, &data));
    printf("  control       Coast: deregister MR: answer 0, done\n");
    expect(ended(send_text(north, entry(north, 0, TEXT_BYTES)), LESUNGKAP_REMOTE_INVALID), "a send into a dropped region");
    poll_all(north);
    poll_all(coast);
    show_qp(coast);
    expect(flush(coast) == LESUNGKAP_DONE, "a flush");
    poll_all(coast);
    expect(lesungkap_answer(flush(coast)) == LESUNGKAP_NOTHING, "a flush where nothing waits");
}

static void show_flushed_work(const struct account *north, const struct account *coast)
{
    printf("\n6. Both queue pairs are in error. What is posted on them is flushed at once: it completes, and no byte moves.\n");
    expect(ended(send_text(north, entry(north, 0, TEXT_BYTES)), LESUNGKAP_FLUSHED), "a send in error");
    expect(ended(post_receive(coast, entry(coast, 0, 64)), LESUNGKAP_FLUSHED), "a receive in error");
    poll_all(north);
    poll_all(coast);
    show_qp(north);
    show_qp(coast);
}

/* Puts a write or a send of one entry into an operator's queue. No tape holds enqueues and turns: the recorder's end with the first. */
static void enqueue(const struct account *who, uint8_t opcode, struct lesungkap_sge local, struct lesungkap_sge remote)
{
    struct lesungkap_send send;
    uint8_t record[LESUNGKAP_SEND_MOST_BYTES];
    memset(&send, 0, sizeof send);
    send.wr_id = ++last_request;
    send.opcode = opcode;
    send.remote_address = remote.address;
    send.remote_key = remote.key;
    send.count = 1;
    send.sges[0] = local;
    const size_t length = lesungkap_put_send(record, sizeof record, &send);
    const uint32_t result = lesungkap_recorded_enqueue(&recorder, state, sizeof state, memory, sizeof memory, who->qpn, record, length);
    printf("  enqueue       %s: request %" PRIu64 ", %s of %" PRIu32 " bytes: ", who->name, send.wr_id,
           opcode == LESUNGKAP_SEND ? "send" : "write", local.length);
    show_result(result);
    expect(result == LESUNGKAP_DONE, "an enqueue");
}

/* A turn that serves this operator, or with NULL nobody. */
static void turn(const struct account *who)
{
    const uint32_t result = lesungkap_recorded_turn(&recorder, state, sizeof state, memory, sizeof memory);
    printf("  turn          %s: ", who == NULL ? "nobody" : who->name);
    show_result(result);
    expect(who == NULL ? lesungkap_answer(result) == LESUNGKAP_NOTHING : ended(result, LESUNGKAP_SUCCESS) && lesungkap_served(result) == who->qpn,
           "a turn");
}

static void show_turns(const struct account *north, struct account *coast)
{
    printf("\n7. North has a stream of writes, Coast a message. They wait in queues, and each has its turn; the tapes end here.\n");
    coast->flags = LESUNGKAP_REMOTE_WRITE;
    register_region(coast);
    make_ready(north, coast);
    make_ready(coast, north);
    struct lesungkap_sge text = put_text(north, 200, "Loop 3 is free at 08:40.");
    for (uint64_t offset = 512; offset <= 576; offset += 32) {
        enqueue(north, LESUNGKAP_WRITE, text, entry(coast, offset, TEXT_BYTES));
    }
    text = put_text(coast, 700, "Thank you, it is 08:41. ");
    enqueue(coast, LESUNGKAP_SEND, text, text);
    expect(lesungkap_answer(send_text(north, text)) == LESUNGKAP_IN_USE, "a direct send that overtakes the queue");
    turn(north);
    turn(north); /* Coast's message is held: North waits for none */
    wait_for(north, entry(north, 300, 64));
    turn(coast);
    turn(north);
    turn(NULL);
    poll_all(north);
    poll_all(coast);
    show_text(coast, 576);
    show_text(north, 300);
}

static void play(void)
{
    const uint32_t all = LESUNGKAP_LOCAL_WRITE | LESUNGKAP_REMOTE_WRITE | LESUNGKAP_REMOTE_READ;
    struct account north = {"North", 0, 0x10000, LESUNGKAP_LOCAL_WRITE, 0, 0, 0, 0, 0, 0};
    struct account coast = {"Coast", 2048, 0x20000, all, LESUNGKAP_REMOTE_WRITE | LESUNGKAP_REMOTE_READ, 0, 0, 0, 0, 0};
    struct account ridge = {"Ridge", coast.start + REGION_BYTES, 0x30000, LESUNGKAP_LOCAL_WRITE, 0, 0, 0, 0, 0, 0};
    expect(lesungkap_reset(state, sizeof state, sizeof memory) == LESUNGKAP_DONE, "a reset");
    printf("Three operators share one card over %d bytes of memory. Each line names its call.\n\n", MEMORY_BYTES);
    printf("  reset         answer 0, done\n");
    query();
    open_account(&north);
    open_account(&coast);
    open_account(&ridge);
    printf("Coast grants North remote write and remote read twice: in its region of %d bytes, whose key %" PRIu32 " it tells North, and on the queue\n"
           "pair that it joins with North's. Ridge grants nothing; its first byte, %" PRIu64 ", stands right behind Coast's last.\n", REGION_BYTES,
           coast.key, ridge.start);
    make_ready(&north, &coast);
    make_ready(&coast, &north);
    show_messages(&north, &coast);
    show_overhang(&north, &coast, &ridge);
    show_rights(&north, &coast);
    show_dropped_region(&north, &coast);
    show_flushed_work(&north, &coast);
    expect(!recorder.failed && recorder.left_out == 0, "a call that was not recorded");
    show_turns(&north, &coast);
}

/* Plays the story, recorded to the two files or, without names, to buffers that are not kept. */
int main(int count, char **words)
{
    static uint8_t calls_tape[TAPE_BYTES], answers_tape[TAPE_BYTES];
    FILE *calls = NULL, *answers = NULL;
    recorder = lesungkap_record_to_buffers(calls_tape, sizeof calls_tape, answers_tape, sizeof answers_tape);
    if (count == 3) {
        calls = fopen(words[1], "wb");
        answers = calls == NULL ? NULL : fopen(words[2], "wb");
        if (answers == NULL) {
            perror(words[calls == NULL ? 1 : 2]);
            return 1;
        }
        recorder = lesungkap_record_to_files(calls, answers);
    } else if (count != 1) {
        fprintf(stderr, "usage: %s [CALLS ANSWERS]\n", words[0]);
        return 1;
    }
    play();
    expect((calls == NULL || fclose(calls) == 0) && (answers == NULL || fclose(answers) == 0), "a tape that could not be written");
    printf("\nAll as expected; %" PRIu64 " calls after the reset, with their answers, are on the tapes.\n", recorder.recorded);
    return 0;
}
