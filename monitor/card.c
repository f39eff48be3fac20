#define _GNU_SOURCE
#include "card.h"

#include "report.h"

#include <errno.h>
#include <stdio.h>
#include <string.h>
#include <sys/mman.h>

static int reset(struct card *card)
{
    const unsigned answer =
        lesungkap_answer(lesungkap_reset(card->state, sizeof card->state, card->memory_len));
    return answer == LESUNGKAP_DONE || failed("the card's reset", lesungkap_answer_text(answer));
}

int card_open(struct card *card, size_t memory_len, const struct tape_options *tape)
{
    void *memory =
        mmap(NULL, memory_len, PROT_NONE, MAP_PRIVATE | MAP_ANONYMOUS | MAP_NORESERVE, -1, 0);
    if (memory == MAP_FAILED) {
        return failed("the card's memory", strerror(errno));
    }
    card->memory = memory;
    card->memory_len = memory_len;
    return reset(card) && tape_open(&card->tape, tape);
}

int card_renew(struct card *card)
{
    return tape_next(&card->tape) && reset(card);
}

int card_close(struct card *card)
{
    munmap(card->memory, card->memory_len);
    return tape_close(&card->tape);
}

/* ---- calls */

static uint64_t begin(const struct card *card)
{
    return card->timed ? clock_now() : 0;
}

static void end(struct card *card, uint64_t since)
{
    card->calls++;
    card->nanoseconds += card->timed ? clock_now() - since : 0;
}

uint32_t card_control(struct card *card, const uint8_t *command, size_t length,
                      uint8_t ack[LESUNGKAP_ACK_MOST_BYTES])
{
    const uint64_t since = begin(card);
    const uint32_t result = lesungkap_control(card->state, sizeof card->state, command, length, ack,
                                              LESUNGKAP_ACK_MOST_BYTES);
    end(card, since);
    tape_record(&card->tape, LESUNGKAP_TAPE_CONTROL, 0, command, length, result, ack,
                lesungkap_ack_written(result, command));
    return result;
}

int is_held(uint32_t result)
{
    return lesungkap_answer(result) == LESUNGKAP_HELD_PEER ||
           lesungkap_answer(result) == LESUNGKAP_HELD_PLACE;
}

static uint32_t post_send(struct card *card, uint32_t qpn, const uint8_t *bytes, size_t length)
{
    const uint64_t since = begin(card);
    const uint32_t result = lesungkap_post_send(card->state, sizeof card->state, card->memory,
                                                card->memory_len, qpn, bytes, length);
    end(card, since);
    return result;
}

uint32_t card_send(struct card *card, uint32_t qpn, const uint8_t *bytes, size_t length)
{
    const uint32_t result = post_send(card, qpn, bytes, length);
    tape_record(&card->tape, LESUNGKAP_TAPE_SEND, qpn, bytes, length, result, NULL, 0);
    return result;
}

uint32_t card_send_again(struct card *card, uint32_t qpn, const uint8_t *bytes, size_t length)
{
    const uint32_t result = post_send(card, qpn, bytes, length);
    if (!is_held(result)) {
        tape_record(&card->tape, LESUNGKAP_TAPE_SEND, qpn, bytes, length, result, NULL, 0);
    }
    return result;
}

uint32_t card_receive(struct card *card, uint32_t qpn, const uint8_t *bytes, size_t length)
{
    const uint64_t since = begin(card);
    const uint32_t result =
        lesungkap_post_receive(card->state, sizeof card->state, qpn, bytes, length);
    end(card, since);
    tape_record(&card->tape, LESUNGKAP_TAPE_RECEIVE, qpn, bytes, length, result, NULL, 0);
    return result;
}

uint32_t card_flush(struct card *card, uint32_t qpn)
{
    const uint64_t since = begin(card);
    const uint32_t result = lesungkap_flush(card->state, sizeof card->state, qpn);
    end(card, since);
    tape_record(&card->tape, LESUNGKAP_TAPE_FLUSH, qpn, NULL, 0, result, NULL, 0);
    return result;
}

uint32_t card_poll(struct card *card, uint32_t cqn, uint8_t completion[LESUNGKAP_COMPLETION_BYTES])
{
    const uint64_t since = begin(card);
    const uint32_t result = lesungkap_poll(card->state, sizeof card->state, cqn, completion,
                                           LESUNGKAP_COMPLETION_BYTES);
    end(card, since);
    const int done = lesungkap_answer(result) == LESUNGKAP_DONE;
    tape_record(&card->tape, LESUNGKAP_TAPE_POLL, cqn, NULL, 0, result, completion,
                done ? LESUNGKAP_COMPLETION_BYTES : 0);
    return result;
}

uint32_t card_break(struct card *card, uint32_t qpn)
{
    struct lesungkap_modify_qp data;
    uint8_t command[LESUNGKAP_COMMAND_MOST_BYTES], ack[LESUNGKAP_ACK_MOST_BYTES];
    memset(&data, 0, sizeof data);
    data.qpn = qpn;
    data.mask = LESUNGKAP_MASK_STATE;
    data.state = LESUNGKAP_QP_ERROR;
    const size_t length = lesungkap_put_modify_qp(command, sizeof command, &data);
    return card_control(card, command, length, ack);
}

/* ---- what is seen without a call */

unsigned card_unread(const struct card *card, uint32_t cqn)
{
    struct lesungkap_cq cq;
    const unsigned answer = lesungkap_peek_cq(card->state, sizeof card->state, cqn, &cq);
    return answer == LESUNGKAP_DONE ? cq.unread : 0;
}
