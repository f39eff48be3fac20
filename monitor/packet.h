/* Packets between lesungkap-monitor and its clients (docs/MONITOR.md). A packet is a record of a
 * tape (lesungkap_tape.h): a request is a call's record, its answer an answer's. Kinds 1 to 5 are
 * the tape's calls; the others below are the monitor's own.
 */
#ifndef LESUNGKAP_PACKET_H
#define LESUNGKAP_PACKET_H

#include <lesungkap_tape.h>

enum {
    PACKET_VERSION = 2,
    PACKET_CONTROL = LESUNGKAP_TAPE_CONTROL,
    PACKET_SEND = LESUNGKAP_TAPE_SEND,
    PACKET_RECEIVE = LESUNGKAP_TAPE_RECEIVE,
    PACKET_POLL = LESUNGKAP_TAPE_POLL,
    PACKET_FLUSH = LESUNGKAP_TAPE_FLUSH,
    PACKET_WINDOW = 16,  /* how much memory a client may bring; the answer's body: version and
                            bytes, 4 each */
    PACKET_JOIN = 17,    /* with the file of the client's memory */
    PACKET_CHANNEL = 18, /* number: a completion queue; with the socket that its events go to */
    PACKET_ARM = 19,     /* number: a completion queue, whose next completion gives an event */
    PACKET_SHOW = 20,    /* number: a line of the statistics; the answer's body: its text */
    PACKET_WAITS = 21,   /* number: a queue pair; the answer's body: where its oldest held send lies
                            and what it waits for, 4 each */
    PACKET_COUNTERS = 22, /* the answer comes with the file of the client's page of counters: 4
                             bytes for each completion queue, how many completions are unread */
    PACKET_BATCH = 23,    /* body: up to PACKET_BATCH_MOST records of kinds 2 to 5; the answer's
                             body: the record of each one's answer */

    PACKET_MOST_BODY = 1024, /* of a batch; of others LESUNGKAP_TAPE_MOST_BODY */
    PACKET_MOST_BYTES = LESUNGKAP_TAPE_HEADER_BYTES + PACKET_MOST_BODY,
    PACKET_WINDOW_BYTES = 8,
    PACKET_POLL_BYTES = LESUNGKAP_COMPLETION_BYTES + 1, /* last: how many completions are left */
    PACKET_WAITS_BYTES = 8,
    PACKET_BATCH_MOST = 16,
    PACKET_PAGE = 4096,
    PACKET_HELD_MOST = 1024, /* sends that wait on a queue pair */
    PACKET_NAME_SHIFT = 8    /* of a queue pair's name: its number below, above it whose it is and
                                how often he was given it, in 16 bits */
};

/* What a held send waits for. */
enum {
    PACKET_WAITS_FOR_NOTHING = 0, /* none is held */
    PACKET_WAITS_FOR_PEER = 1,    /* it is not ready */
    PACKET_WAITS_FOR_RECEIVE = 2, /* of the peer's */
    PACKET_WAITS_FOR_PLACE = 3,   /* of a completion */
    PACKET_WAITS_FOR_GONE = 4     /* its destination is no more */
};

/* A packet's parts: kind and number of a request, answer and status of an answer. */
struct packet {
    uint8_t third;
    uint8_t fourth;
    const uint8_t *body;
    size_t length;
};

static inline void put_number(uint8_t *bytes, size_t width, uint32_t number)
{
    for (size_t n = 0; n < width; n++) {
        bytes[n] = (uint8_t)(number >> (8 * n));
    }
}

static inline uint32_t get_number(const uint8_t *bytes, size_t width)
{
    uint32_t number = 0;
    for (size_t n = 0; n < width; n++) {
        number |= (uint32_t)bytes[n] << (8 * n);
    }
    return number;
}

/* Writes a packet into PACKET_MOST_BYTES bytes; its length, or 0 if the body is too long. */
static inline size_t put_packet(uint8_t *bytes, unsigned mark, const struct packet *packet)
{
    if (packet->length > PACKET_MOST_BODY) {
        return 0;
    }
    put_number(bytes, 2, mark);
    bytes[LESUNGKAP_TAPE_KIND_AT] = packet->third;
    bytes[LESUNGKAP_TAPE_NUMBER_AT] = packet->fourth;
    put_number(bytes + LESUNGKAP_TAPE_LENGTH_AT, 2, (uint32_t)packet->length);
    if (packet->length > 0) {
        memcpy(bytes + LESUNGKAP_TAPE_HEADER_BYTES, packet->body, packet->length);
    }
    return LESUNGKAP_TAPE_HEADER_BYTES + packet->length;
}

/* Whether the bytes are one whole packet of this mark; its body points into them. */
static inline int get_packet(const uint8_t *bytes, size_t length, unsigned mark,
                             struct packet *packet)
{
    if (length < LESUNGKAP_TAPE_HEADER_BYTES || get_number(bytes, 2) != mark) {
        return 0;
    }
    packet->third = bytes[LESUNGKAP_TAPE_KIND_AT];
    packet->fourth = bytes[LESUNGKAP_TAPE_NUMBER_AT];
    packet->body = bytes + LESUNGKAP_TAPE_HEADER_BYTES;
    packet->length = get_number(bytes + LESUNGKAP_TAPE_LENGTH_AT, 2);
    return packet->length <= PACKET_MOST_BODY &&
           length == LESUNGKAP_TAPE_HEADER_BYTES + packet->length;
}

/* The first packet of several behind each other: how many bytes it has, 0 if it is none. */
static inline size_t first_packet(const uint8_t *bytes, size_t length, unsigned mark,
                                  struct packet *packet)
{
    if (length < LESUNGKAP_TAPE_HEADER_BYTES) {
        return 0;
    }
    const size_t whole =
        LESUNGKAP_TAPE_HEADER_BYTES + get_number(bytes + LESUNGKAP_TAPE_LENGTH_AT, 2);
    return whole <= length && get_packet(bytes, whole, mark, packet) ? whole : 0;
}

static inline uint32_t qp_number(uint32_t name)
{
    return name & ((1u << PACKET_NAME_SHIFT) - 1);
}

#endif
