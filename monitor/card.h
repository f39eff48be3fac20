/* The card: its private state, the one lent memory, the tape, and the time spent in calls. */
#ifndef LESUNGKAP_MONITOR_CARD_H
#define LESUNGKAP_MONITOR_CARD_H

#include "tape.h"

struct card {
    uint8_t state[LESUNGKAP_STATE_BYTES];
    uint8_t *memory;
    size_t memory_len;
    struct tape tape;
    int timed;
    uint64_t calls;
    uint64_t nanoseconds; /* in calls, if timed */
};

/* Makes a fresh card, whose memory nothing is behind yet, and its tape. Says what failed and
 * returns 0. */
int card_open(struct card *card, size_t memory_len, const struct tape_options *tape);
/* Resets the card and begins a new tape; 0 where service ends. */
int card_renew(struct card *card);
/* Ends the tape; 0 if it is not whole. */
int card_close(struct card *card);

uint32_t card_control(struct card *card, const uint8_t *command, size_t length,
                      uint8_t ack[LESUNGKAP_ACK_MOST_BYTES]);
uint32_t card_send(struct card *card, uint32_t qpn, const uint8_t *record, size_t length);
/* The same for a send that was held: it is recorded only if it isn't held again, which changes
 * nothing. */
uint32_t card_send_again(struct card *card, uint32_t qpn, const uint8_t *record, size_t length);
uint32_t card_receive(struct card *card, uint32_t qpn, const uint8_t *record, size_t length);
uint32_t card_flush(struct card *card, uint32_t qpn);
uint32_t card_poll(struct card *card, uint32_t cqn, uint8_t completion[LESUNGKAP_COMPLETION_BYTES]);

/* Whether a send's result says that it was held: nothing happened, and it may be made again. */
int is_held(uint32_t result);
/* Unread completions of a queue; 0 if there is no such queue. */
unsigned card_unread(const struct card *card, uint32_t cqn);
/* Moves a queue pair to the error state. */
uint32_t card_break(struct card *card, uint32_t qpn);

#endif
