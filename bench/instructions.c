// Writes, polls, enqueues and turns on thin tables, for bench/instructions to count their instructions: two queue pairs of one domain, two regions,
// one completion queue. Arguments: what to do (write, poll, turn), how often, bytes of a message. TURNS: the library has send queues.
#include <stdint.h>
#include <stdio.h>
#include <stdlib.h>
#include <string.h>

#include "lesungkap.h"

static uint8_t state[LESUNGKAP_STATE_BYTES], memory[65536], ack[13], record[592], entry[24];

static void put32(uint8_t *at, uint32_t v) { memcpy(at, &v, 4); }

static void put64(uint8_t *at, uint64_t v) { memcpy(at, &v, 8); }

static void done(uint32_t result) {
    if ((result & 0xffff) != 0) {
        fprintf(stderr, "instructions: a call was answered %u with status %u\n", result & 255, result >> 8 & 255);
        exit(1);
    }
}

static void command(const uint8_t *bytes, size_t length) { done(lesungkap_control(state, sizeof state, bytes, length, ack, sizeof ack)); }

static void register_mr(uint64_t start, uint64_t virt) {
    uint8_t b[34] = {6, 7};
    put32(b + 6, 7);
    put64(b + 10, start);
    put64(b + 18, 8192);
    put64(b + 26, virt);
    command(b, sizeof b);
}

static void modify(uint32_t qpn, uint32_t mask, uint8_t to, uint32_t destination) {
    uint8_t b[22] = {6, 10};
    put32(b + 2, qpn);
    put32(b + 6, mask);
    b[10] = to;
    put32(b + 14, destination);
    put32(b + 18, 7);
    command(b, sizeof b);
}

static void set_up(uint32_t bytes) {
    const uint8_t pd[2] = {6, 4}, cq[6] = {6, 2, 16}, qp[18] = {6, 9, 0, 0, 0, 0, 2, 1};
    done(lesungkap_reset(state, sizeof state, sizeof memory));
    command(pd, sizeof pd);
    command(cq, sizeof cq);
    register_mr(0, 4096);
    register_mr(8192, 65536);
    for (uint32_t q = 0; q < 2; q++)
        command(qp, sizeof qp);
    for (uint32_t q = 0; q < 2; q++) {
        modify(q, 5, 1, 0);
        modify(q, 32769, 2, 1 - q);
        modify(q, 1, 3, 0);
    }
    put64(record + 16, 65536);
    put32(record + 24, 257);
    put32(record + 560, 1);
    put64(record + 576, 4096);
    put32(record + 584, bytes);
    put32(record + 588, 1);
}

static void post(void) { done(lesungkap_post_send(state, sizeof state, memory, sizeof memory, 0, record, sizeof record)); }

static void post_and_poll(void) {
    post();
    done(lesungkap_poll(state, sizeof state, 0, entry, sizeof entry));
}

#ifdef TURNS
static void enqueue_and_turn(void) {
    done(lesungkap_enqueue(state, sizeof state, memory, sizeof memory, 0, record, sizeof record));
    done(lesungkap_turn(state, sizeof state, memory, sizeof memory));
}
#endif

int main(int argc, char **argv) {
    if (argc != 4)
        return 2;
    void (*once)(void) = post;
    set_up((uint32_t)atoi(argv[3]));
    if (strcmp(argv[1], "poll") == 0) {
        record[9] = 2;
        once = post_and_poll;
    }
#ifdef TURNS
    if (strcmp(argv[1], "turn") == 0)
        once = enqueue_and_turn;
#endif
    for (int i = atoi(argv[2]); i > 0; i--)
        once();
    return 0;
}
