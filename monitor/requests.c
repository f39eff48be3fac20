/* Who may do what: each control command is looked at before the card sees it. An object that is
 * another's is answered as one that does not exist, a region outside the client's window as one
 * outside the memory, and what is over a client's share as a full table. */
#include "monitor.h"

static const unsigned counts[KINDS] = {LESUNGKAP_PD_COUNT, LESUNGKAP_CQ_COUNT, LESUNGKAP_MR_COUNT,
                                       LESUNGKAP_QP_COUNT};

/* ---- ownership */

int owns(const struct monitor *monitor, unsigned client, enum kind kind, uint32_t number)
{
    return number < counts[kind] && monitor->owner[kind][number] == client + 1;
}

/* The card takes for a region the lowest free slot, whoever dropped the one before, and retires a
 * slot when its last key was dropped: half of the slots are shared out as regions, the keys of the
 * other half may be used up. So there is always a slot for one who is within both. */
unsigned seat_share(const struct monitor *monitor, enum kind kind)
{
    return counts[kind] / monitor->seats / (kind == MR ? 2 : 1);
}

static int within_share(const struct monitor *monitor, unsigned client, enum kind kind)
{
    const struct connection *connection = monitor->connections + client;
    const struct user *user = connection->user;
    return connection->seat != NO_SEAT && connection->has[kind] < seat_share(monitor, kind) &&
           (kind != MR || user->keys < operator_keys(monitor, user));
}

static void take_key(struct monitor *monitor, unsigned client)
{
    struct user *user = monitor->connections[client].user;
    if (++user->keys == operator_keys(monitor, user)) {
        complain(monitor, client,
                 "this operator has used up its keys: it registers no more until no client is "
                 "left, of any "
                 "operator");
    }
}

static void take(struct monitor *monitor, unsigned client, enum kind kind, uint32_t number)
{
    static const char *const names[KINDS] = {"PD", "CQ", "MR", "QP"};
    struct connection *connection = monitor->connections + client;
    struct tape *tape = &monitor->card.tape;
    monitor->owner[kind][number] = (uint8_t)(client + 1);
    connection->has[kind]++;
    tape_who(tape, tape_records(tape) - 1, connection->user->name, connection->client, "made %s %u",
             names[kind], (unsigned)number);
    if (kind == MR) {
        take_key(monitor, client);
    } else if (kind == QP) {
        struct queue_pair *pair = monitor->pairs + number;
        pair->given = ++pair->given_before;
        pair->name = operator_name(monitor, connection->user, number);
        pair->peer_given = 0;
    }
}

static void give_back(struct monitor *monitor, unsigned client, enum kind kind, uint32_t number)
{
    monitor->owner[kind][number] = 0;
    monitor->connections[client].has[kind]--;
    if (kind == QP) {
        monitor->pairs[number].given = 0;
        work_forget(monitor, number);
    } else if (kind == CQ) {
        events_forget(monitor, client, number);
        counters_hide(monitor->connections + client, number);
    }
}

/* ---- names of queue pairs */

/* The number that a name stands for, or LESUNGKAP_NO_QP. */
static uint32_t named(const struct monitor *monitor, uint32_t name)
{
    const uint32_t qpn = qp_number(name);
    return qpn < LESUNGKAP_QP_COUNT && monitor->pairs[qpn].given > 0 &&
                   monitor->pairs[qpn].name == name
               ? qpn
               : LESUNGKAP_NO_QP;
}

int peer_gone(const struct monitor *monitor, uint32_t qpn)
{
    const struct queue_pair *pair = monitor->pairs + qpn;
    return pair->peer_given != 0 && monitor->pairs[pair->peer].given != pair->peer_given;
}

/* Whether `other` names the number of `qpn` for a queue pair that had it before: these two must not
 * be joined. */
static int names_a_former(const struct monitor *monitor, uint32_t other, uint32_t qpn)
{
    const struct queue_pair *pair = monitor->pairs + other;
    return pair->peer_given != 0 && pair->peer == qpn &&
           pair->peer_given != monitor->pairs[qpn].given;
}

/* ---- commands */

/* A command that destroys an object, by its kind. */
static size_t put_destroy(uint8_t *command, size_t size, enum kind kind, uint32_t number)
{
    const struct lesungkap_destroy_qp qp = {number};
    const struct lesungkap_deregister_mr mr = {number};
    const struct lesungkap_destroy_cq cq = {number};
    const struct lesungkap_destroy_pd pd = {number};
    switch (kind) {
    case QP: return lesungkap_put_destroy_qp(command, size, &qp);
    case MR: return lesungkap_put_deregister_mr(command, size, &mr);
    case CQ: return lesungkap_put_destroy_cq(command, size, &cq);
    default: return lesungkap_put_destroy_pd(command, size, &pd);
    }
}

static unsigned get_destroy(const uint8_t *command, size_t length, enum kind kind, uint32_t *number)
{
    struct lesungkap_destroy_qp qp = {0};
    struct lesungkap_deregister_mr mr = {0};
    struct lesungkap_destroy_cq cq = {0};
    struct lesungkap_destroy_pd pd = {0};
    unsigned answer;
    switch (kind) {
    case QP:
        answer = lesungkap_get_destroy_qp(command, length, &qp);
        *number = qp.qpn;
        return answer;
    case MR:
        answer = lesungkap_get_deregister_mr(command, length, &mr);
        *number = mr.mrn;
        return answer;
    case CQ:
        answer = lesungkap_get_destroy_cq(command, length, &cq);
        *number = cq.cqn;
        return answer;
    default:
        answer = lesungkap_get_destroy_pd(command, length, &pd);
        *number = pd.pdn;
        return answer;
    }
}

/* The number of what a command has made, from its ack. */
static unsigned get_made(const struct answer *answer, enum kind kind, uint32_t *number)
{
    struct lesungkap_create_qp_ack qp = {0};
    struct lesungkap_register_mr_ack mr = {0};
    struct lesungkap_create_cq_ack cq = {0};
    struct lesungkap_create_pd_ack pd = {0};
    unsigned test;
    switch (kind) {
    case QP:
        test = lesungkap_get_create_qp_ack(answer->body, answer->length, &qp);
        *number = qp.qpn;
        return test;
    case MR:
        test = lesungkap_get_register_mr_ack(answer->body, answer->length, &mr);
        *number = mr.mrn;
        return test;
    case CQ:
        test = lesungkap_get_create_cq_ack(answer->body, answer->length, &cq);
        *number = cq.cqn;
        return test;
    default:
        test = lesungkap_get_create_pd_ack(answer->body, answer->length, &pd);
        *number = pd.pdn;
        return test;
    }
}

static uint32_t run(struct monitor *monitor, const uint8_t *command, size_t length,
                    struct answer *answer)
{
    events_before(monitor);
    answer->result = card_control(&monitor->card, command, length, answer->body);
    answer->length = lesungkap_ack_written(answer->result, command);
    events_after(monitor);
    monitor->changed |= answer->result == LESUNGKAP_DONE;
    return answer->result;
}

/* A command that changes nothing. */
static void query(struct monitor *monitor, const uint8_t *command, size_t length,
                  struct answer *answer)
{
    answer->result = card_control(&monitor->card, command, length, answer->body);
    answer->length = lesungkap_ack_written(answer->result, command);
}

/* A command that makes an object. */
static void create(struct monitor *monitor, unsigned client, enum kind kind, const uint8_t *command,
                   size_t length, struct answer *answer)
{
    uint32_t number;
    if (!within_share(monitor, client, kind)) {
        answer->result = LESUNGKAP_FULL;
    } else if (run(monitor, command, length, answer) == LESUNGKAP_DONE &&
               get_made(answer, kind, &number) == LESUNGKAP_DONE) {
        take(monitor, client, kind, number);
        if (kind == QP) {
            const struct lesungkap_create_qp_ack ack = {monitor->pairs[number].name};
            lesungkap_put_create_qp_ack(answer->body, sizeof answer->body, &ack);
        }
    }
}

static void destroy(struct monitor *monitor, unsigned client, enum kind kind,
                    const struct packet *packet, struct answer *answer)
{
    uint32_t number = 0;
    uint8_t own[LESUNGKAP_COMMAND_MOST_BYTES];
    answer->result = get_destroy(packet->body, packet->length, kind, &number);
    if (answer->result != LESUNGKAP_DONE) {
        return;
    }
    number = kind == QP ? named(monitor, number) : number;
    if (!owns(monitor, client, kind, number)) {
        answer->result = LESUNGKAP_NOT_LIVE;
    } else if (run(monitor, own, put_destroy(own, sizeof own, kind, number), answer) ==
               LESUNGKAP_DONE) {
        give_back(monitor, client, kind, number);
    }
}

static void register_mr(struct monitor *monitor, unsigned client, const struct packet *packet,
                        struct answer *answer)
{
    const struct connection *connection = monitor->connections + client;
    struct lesungkap_register_mr data = {0};
    uint8_t own[LESUNGKAP_COMMAND_MOST_BYTES];
    answer->result = lesungkap_get_register_mr(packet->body, packet->length, &data);
    if (answer->result != LESUNGKAP_DONE) {
        return;
    }
    if (!owns(monitor, client, PD, data.pdn)) {
        answer->result = LESUNGKAP_NOT_LIVE;
    } else if (data.start > connection->window_bytes ||
               data.length > connection->window_bytes - data.start) {
        answer->result = LESUNGKAP_RANGE;
    } else {
        data.start += (uint64_t)connection->seat * monitor->window;
        create(monitor, client, MR, own, lesungkap_put_register_mr(own, sizeof own, &data), answer);
    }
}

static void create_qp(struct monitor *monitor, unsigned client, const struct packet *packet,
                      struct answer *answer)
{
    struct lesungkap_create_qp data = {0};
    answer->result = lesungkap_get_create_qp(packet->body, packet->length, &data);
    if (answer->result != LESUNGKAP_DONE) {
        return;
    }
    if (!owns(monitor, client, PD, data.pdn) || !owns(monitor, client, CQ, data.send_cqn) ||
        !owns(monitor, client, CQ, data.receive_cqn)) {
        answer->result = LESUNGKAP_NOT_LIVE;
    } else {
        create(monitor, client, QP, packet->body, packet->length, answer);
    }
}

/* Puts the destination's number in its name's place; the answer if it can't be one. */
static unsigned resolve(struct monitor *monitor, struct lesungkap_modify_qp *data,
                        struct queue_pair *joined)
{
    if (!(data->mask & LESUNGKAP_MASK_DESTINATION)) {
        return LESUNGKAP_DONE;
    }
    const uint32_t peer = named(monitor, data->destination);
    if (peer == LESUNGKAP_NO_QP) {
        return LESUNGKAP_NOT_LIVE;
    }
    if (names_a_former(monitor, peer, data->qpn)) {
        return LESUNGKAP_IN_USE;
    }
    data->destination = joined->peer = peer;
    joined->peer_given = monitor->pairs[peer].given;
    return LESUNGKAP_DONE;
}

static void modify_qp(struct monitor *monitor, unsigned client, const struct packet *packet,
                      struct answer *answer)
{
    struct lesungkap_modify_qp data = {0};
    uint8_t own[LESUNGKAP_COMMAND_MOST_BYTES];
    answer->result = lesungkap_get_modify_qp(packet->body, packet->length, &data);
    if (answer->result != LESUNGKAP_DONE) {
        return;
    }
    data.qpn = named(monitor, data.qpn);
    if (!owns(monitor, client, QP, data.qpn)) {
        answer->result = LESUNGKAP_NOT_LIVE;
        return;
    }
    struct queue_pair joined = monitor->pairs[data.qpn];
    answer->result = resolve(monitor, &data, &joined);
    if (answer->result != LESUNGKAP_DONE) {
        return;
    }
    if (run(monitor, own, lesungkap_put_modify_qp(own, sizeof own, &data), answer) ==
        LESUNGKAP_DONE) {
        monitor->pairs[data.qpn] = joined;
        if (data.state == LESUNGKAP_QP_RESET) {
            monitor->pairs[data.qpn].peer_given = 0;
            work_forget(monitor, data.qpn);
        }
    }
}

void request_control(struct monitor *monitor, unsigned client, const struct packet *packet,
                     struct answer *answer)
{
    const uint8_t *command = packet->body;
    const size_t length = packet->length;
    if (length < LESUNGKAP_COMMAND_DATA_AT) {
        answer->result = LESUNGKAP_RECORD_LENGTH;
        return;
    }
    if (command[LESUNGKAP_COMMAND_CLASS_AT] != LESUNGKAP_CONTROL_CLASS) {
        answer->result = LESUNGKAP_UNKNOWN;
        return;
    }
    switch (command[LESUNGKAP_COMMAND_NUMBER_AT]) {
    case LESUNGKAP_QUERY_DEVICE:
    case LESUNGKAP_QUERY_PORT: query(monitor, command, length, answer); break;
    case LESUNGKAP_CREATE_PD: create(monitor, client, PD, command, length, answer); break;
    case LESUNGKAP_CREATE_CQ: create(monitor, client, CQ, command, length, answer); break;
    case LESUNGKAP_REGISTER_MR: register_mr(monitor, client, packet, answer); break;
    case LESUNGKAP_CREATE_QP: create_qp(monitor, client, packet, answer); break;
    case LESUNGKAP_MODIFY_QP: modify_qp(monitor, client, packet, answer); break;
    case LESUNGKAP_DESTROY_PD: destroy(monitor, client, PD, packet, answer); break;
    case LESUNGKAP_DESTROY_CQ: destroy(monitor, client, CQ, packet, answer); break;
    case LESUNGKAP_DEREGISTER_MR: destroy(monitor, client, MR, packet, answer); break;
    case LESUNGKAP_DESTROY_QP: destroy(monitor, client, QP, packet, answer); break;
    default: answer->result = LESUNGKAP_UNKNOWN;
    }
}

/* ---- the end of a client */

void destroy_all(struct monitor *monitor, unsigned client)
{
    static const enum kind order[KINDS] = {QP, MR, CQ, PD};
    uint8_t command[LESUNGKAP_COMMAND_MOST_BYTES];
    struct answer answer;
    for (unsigned n = 0; n < KINDS; n++) {
        for (uint32_t number = 0; number < counts[order[n]]; number++) {
            if (owns(monitor, client, order[n], number)) {
                if (run(monitor, command, put_destroy(command, sizeof command, order[n], number),
                        &answer) != LESUNGKAP_DONE) {
                    complain(monitor, client,
                             "an object of a client that has gone could not be destroyed");
                }
                give_back(monitor, client, order[n], number);
            }
        }
    }
}
