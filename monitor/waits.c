/* What the oldest held send of a queue pair waits for: its owner asks, who keeps the time. */
#include "monitor.h"

/* By the tests of a send in the card's order, on a queue pair that is not in error. */
static uint32_t reason(const struct monitor *monitor, uint32_t qpn,
                       const struct lesungkap_send *send)
{
    const struct card *card = &monitor->card;
    struct lesungkap_qp own, peer;
    const int takes_receive = send->opcode == LESUNGKAP_SEND ||
                              send->opcode == LESUNGKAP_SEND_IMMEDIATE ||
                              send->opcode == LESUNGKAP_WRITE_IMMEDIATE;
    if (lesungkap_peek_qp(card->state, sizeof card->state, qpn, &own) != LESUNGKAP_DONE ||
        lesungkap_peek_qp(card->state, sizeof card->state, own.destination, &peer) !=
            LESUNGKAP_DONE ||
        (peer.state != LESUNGKAP_QP_RTR && peer.state != LESUNGKAP_QP_RTS) ||
        peer.destination != qpn) {
        return PACKET_WAITS_FOR_PEER;
    }
    return takes_receive && peer.waiting == 0 ? PACKET_WAITS_FOR_RECEIVE : PACKET_WAITS_FOR_PLACE;
}

void work_waits(struct monitor *monitor, unsigned client, uint32_t qpn, struct answer *answer)
{
    if (!owns(monitor, client, QP, qpn)) {
        answer->result = LESUNGKAP_NOT_LIVE;
        return;
    }
    const struct held *held = monitor->held + qpn;
    struct lesungkap_send send;
    uint32_t what = PACKET_WAITS_FOR_NOTHING;
    if (peer_gone(monitor, qpn)) {
        what = PACKET_WAITS_FOR_GONE;
    } else if (held->count > 0 &&
               lesungkap_get_send(held->at[held->first].record, held->at[held->first].length,
                                  &send) == LESUNGKAP_DONE) {
        what = reason(monitor, qpn, &send);
    }
    put_number(answer->body, 4, held->first);
    put_number(answer->body + 4, 4, what);
    answer->length = PACKET_WAITS_BYTES;
    answer->result = LESUNGKAP_DONE;
}
