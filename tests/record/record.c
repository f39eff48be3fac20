/* Random calls on one card, recorded: to two files, and by hand to two buffers, which must hold the same bytes. Calls that no tape can
 * hold are mixed in and must be left out, refused page lists among them. A recorder whose buffers are full keeps whole records only, and
 * so does one whose card registers a page list. After every hundredth call the state is appended to a third file.
 *
 * usage: record CALLS ANSWERS STATES
 */
#include <lesungkap.h>
#include <lesungkap_tape.h>

#include <stdlib.h>

enum { MEMORY_BYTES = 4096, COUNT = 20000, TAPE_BYTES = 16 << 20, SMALL_BYTES = 5000 };

static uint8_t state[LESUNGKAP_STATE_BYTES];
static uint8_t memory[MEMORY_BYTES];
static uint8_t record[2 * LESUNGKAP_TAPE_MOST_BODY];
static uint8_t ack[LESUNGKAP_ACK_MOST_BYTES];
static struct lesungkap_recorder files, buffers, small;
static uint64_t odd; /* calls that no tape can hold */
static uint64_t seed = 7;
static uint32_t keys[16];

static void expect(int holds, const char *what)
{
    if (!holds) {
        printf("record: %s\n", what);
        exit(1);
    }
}

static uint32_t below(uint32_t bound)
{
    seed = seed * 6364136223846793005u + 1442695040888963407u;
    return (uint32_t)(seed >> 33) % bound;
}

/* The same record to the buffers as to the files. */
static void again(unsigned kind, uint32_t number, const uint8_t *body, size_t length, uint32_t result, const uint8_t *written,
                  size_t written_len)
{
    lesungkap_record(&buffers, kind, number, body, length, result, written, written_len);
    lesungkap_record(&small, kind, number, body, length, result, written, written_len);
}

/* A number that is mostly in its table, and at times over 255. */
static uint32_t some_number(uint32_t count) { return below(20) ? below(count) : below(2) ? 255 : 256 + below(5); }

static void run_control(size_t length)
{
    const size_t lent = below(50) ? sizeof ack : below(sizeof ack);
    const uint32_t result = lesungkap_recorded_control(&files, state, sizeof state, record, length, ack, lent);
    struct lesungkap_register_mr_ack made;
    again(LESUNGKAP_TAPE_CONTROL, 0, record, length, result, ack, lesungkap_ack_written(result, record));
    odd += lent < lesungkap_ack_need(record, length) || length > LESUNGKAP_TAPE_MOST_BODY;
    if (result == LESUNGKAP_DONE && record[LESUNGKAP_COMMAND_NUMBER_AT] == LESUNGKAP_REGISTER_MR) {
        expect(lesungkap_get_register_mr_ack(ack, sizeof ack, &made) == LESUNGKAP_DONE, "the ack of register MR");
        keys[below(16)] = made.rkey;
    }
}

static size_t put_random_command(void)
{
    const struct lesungkap_create_cq cq = {below(18)};
    const struct lesungkap_register_mr mr = {below(3), below(9), below(4096), 1 + below(2048), below(4) * 4096u};
    const struct lesungkap_create_qp qp = {below(3), LESUNGKAP_QP_TYPE_RC, (uint8_t)below(2), below(3), below(3)};
    const struct lesungkap_deregister_mr old_mr = {below(LESUNGKAP_MR_COUNT)};
    const struct lesungkap_destroy_qp old_qp = {below(LESUNGKAP_QP_COUNT)};
    switch (below(42)) {
    case 40: return lesungkap_put_query_device(record, sizeof record) + (below(4) ? 0 : 1);
    case 41: return lesungkap_put_query_port(record, sizeof record) + (below(4) ? 0 : 1);
    case 0: return lesungkap_put_create_pd(record, sizeof record);
    case 1: return lesungkap_put_create_cq(record, sizeof record, &cq);
    case 2: return lesungkap_put_create_qp(record, sizeof record, &qp);
    case 3: return lesungkap_put_deregister_mr(record, sizeof record, &old_mr);
    case 4: return below(4) ? 0 : lesungkap_put_destroy_qp(record, sizeof record, &old_qp);
    case 5: return sizeof record; /* what the last command left, far too long */
    default: return lesungkap_put_register_mr(record, sizeof record, &mr);
    }
}

/* Brings a queue pair one state on, joined with its neighbour. */
static void move_on(uint32_t qpn)
{
    struct lesungkap_qp qp;
    struct lesungkap_modify_qp data;
    if (lesungkap_peek_qp(state, sizeof state, qpn, &qp) != LESUNGKAP_DONE || qp.state == LESUNGKAP_QP_RTS) {
        return;
    }
    memset(&data, 0, sizeof data);
    data.qpn = qpn;
    data.state = qp.state == LESUNGKAP_QP_ERROR ? LESUNGKAP_QP_RESET : (uint8_t)(qp.state + 1);
    data.mask = LESUNGKAP_MASK_STATE | (data.state == LESUNGKAP_QP_RTR ? (uint32_t)LESUNGKAP_MASK_DESTINATION : 0);
    data.destination = qpn ^ 1;
    if (below(4)) {
        data.mask |= LESUNGKAP_MASK_ACCESS_FLAGS;
        data.access_flags = below(3) ? 7 : below(9);
    }
    run_control(lesungkap_put_modify_qp(record, sizeof record, &data));
}

static struct lesungkap_sge random_sge(void)
{
    const struct lesungkap_sge sge = {below(4) * 4096u + below(64), below(200), keys[below(16)]};
    return sge;
}

static void post_send(void)
{
    static const uint8_t bytes[LESUNGKAP_MOST_INLINE] = {1, 2, 3};
    struct lesungkap_send send;
    const uint32_t qpn = some_number(LESUNGKAP_QP_COUNT);
    const struct lesungkap_sge remote = random_sge();
    memset(&send, 0, sizeof send);
    send.wr_id = seed;
    send.opcode = (uint8_t)below(6);
    send.flags = (uint8_t)below(16);
    send.immediate = below(1000);
    send.remote_address = remote.address;
    send.remote_key = remote.key;
    send.inline_bytes = bytes;
    send.count = send.flags & LESUNGKAP_FLAG_INLINE ? below(LESUNGKAP_MOST_INLINE + 1) : below(LESUNGKAP_SEND_MOST_SGES + 1);
    for (size_t n = 0; n < LESUNGKAP_SEND_MOST_SGES; n++) {
        send.sges[n] = random_sge();
    }
    const size_t length = lesungkap_put_send(record, sizeof record, &send) + (below(50) ? 0 : below(200));
    const size_t lent = below(50) ? sizeof memory : sizeof memory - 1;
    const uint32_t result = lesungkap_recorded_post_send(&files, state, sizeof state, memory, lent, qpn, record, length);
    again(LESUNGKAP_TAPE_SEND, qpn, record, length, result, NULL, 0);
    odd += lent < sizeof memory || qpn > 255 || length > LESUNGKAP_TAPE_MOST_BODY;
}

static void post_receive(void)
{
    struct lesungkap_receive receive;
    const uint32_t qpn = some_number(LESUNGKAP_QP_COUNT);
    memset(&receive, 0, sizeof receive);
    receive.wr_id = seed;
    receive.count = below(LESUNGKAP_RECEIVE_MOST_SGES + 1);
    receive.sges[0] = random_sge();
    receive.sges[1] = random_sge();
    const size_t length = lesungkap_put_receive(record, sizeof record, &receive);
    const size_t lent = below(50) ? sizeof state : sizeof state - 1;
    const uint32_t result = lesungkap_recorded_post_receive(&files, state, lent, qpn, record, length);
    again(LESUNGKAP_TAPE_RECEIVE, qpn, record, length, result, NULL, 0);
    odd += lent < sizeof state || qpn > 255;
}

static void flush(void)
{
    const uint32_t qpn = some_number(LESUNGKAP_QP_COUNT);
    const uint32_t result = lesungkap_recorded_flush(&files, state, sizeof state, qpn);
    again(LESUNGKAP_TAPE_FLUSH, qpn, NULL, 0, result, NULL, 0);
    odd += qpn > 255;
}

static void poll(void)
{
    uint8_t buffer[LESUNGKAP_COMPLETION_BYTES];
    const uint32_t cqn = some_number(3);
    const size_t lent = below(50) ? sizeof buffer : below(sizeof buffer);
    const uint32_t result = lesungkap_recorded_poll(&files, state, sizeof state, cqn, buffer, lent);
    again(LESUNGKAP_TAPE_POLL, cqn, NULL, 0, result, buffer, result == LESUNGKAP_DONE ? sizeof buffer : 0);
    odd += lent < sizeof buffer || cqn > 255;
}

/* How many whole records a tape holds; none if its bytes end inside one. */
static uint64_t records_of(const struct lesungkap_tape *tape)
{
    uint64_t records = 0;
    size_t at = 0;
    while (at < tape->used) {
        at += LESUNGKAP_TAPE_HEADER_BYTES + (size_t)lesungkap_get_le_(tape->bytes + at + LESUNGKAP_TAPE_LENGTH_AT, 2);
        records++;
    }
    return at == tape->used ? records : 0;
}

/* A page list that is refused: for its count, its entry or its command. */
static void refused_pages(void)
{
    const struct lesungkap_register_mr mr = {below(3), below(9), below(2), 1 + below(4096), 0};
    const uint64_t pages[2] = {below(2) ? 4096 : 1, 0};
    const size_t length = below(4) ? lesungkap_put_register_mr(record, sizeof record, &mr) : lesungkap_put_create_pd(record, sizeof record);
    const uint32_t result = lesungkap_recorded_register_pages(&files, state, sizeof state, record, length, pages, below(3), ack, sizeof ack);
    expect(result != LESUNGKAP_DONE, "a page list that isn't one");
    odd++;
}

/* An enqueue or a turn that is refused: for its record, its queue pair or its memory. */
static void refused_queue(void)
{
    static uint8_t send[LESUNGKAP_SEND_BYTES];
    const int is_turn = below(2) == 0;
    const uint32_t result =
        is_turn ? lesungkap_recorded_turn(&files, state, sizeof state, memory, sizeof memory - below(2))
                : lesungkap_recorded_enqueue(&files, state, sizeof state, memory, sizeof memory - below(2), 8, send, sizeof send - below(2));
    expect(result != LESUNGKAP_DONE, "an enqueue or a turn that can't be done");
    odd++;
}

/* An enqueue that is done ends the tapes of its recorder, and so does a turn. */
static void queues_end_the_tapes(void)
{
    static uint8_t other[LESUNGKAP_STATE_BYTES], bytes[4][1000], send[LESUNGKAP_SEND_BYTES];
    const struct lesungkap_create_cq cq = {2};
    const struct lesungkap_create_qp qp = {0, LESUNGKAP_QP_TYPE_RC, 0, 0, 0};
    const struct lesungkap_modify_qp failed = {0, LESUNGKAP_MASK_STATE, LESUNGKAP_QP_ERROR, {0}, 0, 0};
    struct lesungkap_recorder first = lesungkap_record_to_buffers(bytes[0], 1000, bytes[1], 1000);
    expect(lesungkap_reset(other, sizeof other, sizeof memory) == LESUNGKAP_DONE, "a reset");
    for (int n = 0; n < 4; n++) {
        const size_t length = n == 0   ? lesungkap_put_create_pd(record, sizeof record)
                              : n == 1 ? lesungkap_put_create_cq(record, sizeof record, &cq)
                              : n == 2 ? lesungkap_put_create_qp(record, sizeof record, &qp)
                                       : lesungkap_put_modify_qp(record, sizeof record, &failed);
        expect(lesungkap_recorded_control(&first, other, sizeof other, record, length, ack, sizeof ack) == LESUNGKAP_DONE, "a queue pair in error");
    }
    struct lesungkap_recorder second = lesungkap_record_to_buffers(bytes[2], 1000, bytes[3], 1000);
    expect(lesungkap_recorded_turn(&first, other, sizeof other, memory, sizeof memory) == LESUNGKAP_NOTHING, "a turn of nothing");
    expect(lesungkap_recorded_enqueue(&first, other, sizeof other, memory, sizeof memory, 0, send, 1) == LESUNGKAP_RECORD_LENGTH, "no record");
    expect(first.left_out == 2 && !first.failed && first.recorded == 4, "a refused enqueue and a refused turn left out");
    expect(lesungkap_recorded_enqueue(&first, other, sizeof other, memory, sizeof memory, 0, send, sizeof send) == LESUNGKAP_DONE, "an enqueue");
    expect(lesungkap_recorded_flush(&first, other, sizeof other, 0) == LESUNGKAP_NOTHING, "a call after it");
    expect(first.failed && first.recorded == 4 && first.left_out == 2 && records_of(&first.calls) == 4 && records_of(&first.answers) == 4,
           "tapes that end with an enqueue");
    expect(lesungkap_recorded_turn(&second, other, sizeof other, memory, sizeof memory) == LESUNGKAP_FLUSHED << 8, "a turn");
    expect(lesungkap_recorded_flush(&second, other, sizeof other, 0) == LESUNGKAP_NOTHING, "a call after it");
    expect(second.failed && second.recorded == 0 && second.left_out == 0, "tapes that end with a turn");
}

/* A page list that is done ends the tapes of its recorder, and no call after it is recorded. */
static void ends_the_tapes(void)
{
    static uint8_t other[LESUNGKAP_STATE_BYTES], calls[1000], answers[1000];
    const struct lesungkap_register_mr mr = {0, 7, 0, 4096, 0};
    const uint64_t pages[1] = {0};
    struct lesungkap_recorder ended = lesungkap_record_to_buffers(calls, sizeof calls, answers, sizeof answers);
    expect(lesungkap_reset(other, sizeof other, sizeof memory) == LESUNGKAP_DONE, "a reset");
    const size_t create = lesungkap_put_create_pd(record, sizeof record);
    expect(lesungkap_recorded_control(&ended, other, sizeof other, record, create, ack, sizeof ack) == LESUNGKAP_DONE, "a domain");
    const size_t length = lesungkap_put_register_mr(record, sizeof record, &mr);
    expect(lesungkap_recorded_register_pages(&ended, other, sizeof other, record, length, pages, 0, ack, sizeof ack) == LESUNGKAP_RANGE,
           "an empty page list");
    expect(ended.left_out == 1 && !ended.failed, "a refused page list left out");
    expect(lesungkap_recorded_register_pages(&ended, other, sizeof other, record, length, pages, 1, ack, sizeof ack) == LESUNGKAP_DONE,
           "a page list");
    expect(lesungkap_recorded_control(&ended, other, sizeof other, record, create, ack, sizeof ack) != LESUNGKAP_BAD_STATE, "a call after it");
    expect(ended.failed && ended.recorded == 1 && ended.left_out == 1 && records_of(&ended.calls) == 1 && records_of(&ended.answers) == 1,
           "tapes that end with a page list");
}

static void one_call(void)
{
    switch (below(16)) {
    case 0:
    case 1: run_control(put_random_command()); break;
    case 2:
    case 3:
    case 4: move_on(below(LESUNGKAP_QP_COUNT)); break;
    case 5:
    case 6:
    case 7:
    case 8: post_send(); break;
    case 9:
    case 10: post_receive(); break;
    case 11: below(10) ? flush() : below(2) ? refused_pages() : refused_queue(); break;
    default: poll(); break;
    }
}

/* The file holds exactly these bytes. */
static int same(const char *name, const struct lesungkap_tape *tape)
{
    FILE *file = fopen(name, "rb");
    size_t n = 0;
    int byte;
    expect(file != NULL, "a tape that can't be opened");
    while ((byte = fgetc(file)) != EOF && n < tape->used && tape->bytes[n] == byte) {
        n++;
    }
    fclose(file);
    return byte == EOF && n == tape->used;
}

int main(int count, char **words)
{
    static uint8_t calls_bytes[TAPE_BYTES], answers_bytes[TAPE_BYTES], small_calls[TAPE_BYTES], small_answers[SMALL_BYTES];
    expect(count == 4, "usage: record CALLS ANSWERS STATES");
    FILE *calls = fopen(words[1], "wb"), *answers = fopen(words[2], "wb"), *states = fopen(words[3], "wb");
    expect(calls != NULL && answers != NULL && states != NULL, "a file that can't be opened");
    files = lesungkap_record_to_files(calls, answers);
    buffers = lesungkap_record_to_buffers(calls_bytes, sizeof calls_bytes, answers_bytes, sizeof answers_bytes);
    small = lesungkap_record_to_buffers(small_calls, sizeof small_calls, small_answers, sizeof small_answers);
    expect(lesungkap_reset(state, sizeof state, sizeof memory) == LESUNGKAP_DONE, "a reset");
    for (int n = 0; n < COUNT; n++) {
        one_call();
        if (n % 100 == 0) {
            expect(fwrite(state, 1, sizeof state, states) == sizeof state, "a state that can't be written");
        }
    }
    ends_the_tapes();
    queues_end_the_tapes();
    expect(fclose(calls) == 0 && fclose(answers) == 0 && fclose(states) == 0, "a file that can't be written");
    expect(!files.failed && !buffers.failed && files.recorded == buffers.recorded, "a record that was lost");
    expect(files.left_out == odd && odd > 100, "calls left out");
    expect(same(words[1], &buffers.calls) && same(words[2], &buffers.answers), "files and buffers that differ");
    expect(small.failed && small.recorded > 0, "a full buffer");
    expect(records_of(&small.calls) == small.recorded && records_of(&small.answers) == small.recorded, "whole records in full buffers");
    printf("%llu calls recorded, %llu left out\n", (unsigned long long)files.recorded, (unsigned long long)files.left_out);
    return 0;
}
