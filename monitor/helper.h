/* The helper: a process of its own that takes the files which clients pass, and closes them. Both
 * can last as long as their owner likes, for ever too (a file system in user space, a socket that
 * another thread holds), and who does it can't even be killed then. So the monitor takes no message
 * with files and closes no file as the last: the helper has a second descriptor of the listener, of
 * every connection and of every channel. It has nothing else, neither the lock nor the tape.
 *
 * A connection has one job at a time. A thread of the helper does it, and its client alone waits.
 */
#ifndef LESUNGKAP_HELPER_H
#define LESUNGKAP_HELPER_H

#include "packet.h"

#include <sys/types.h>

enum {
    SEATS_MOST = LESUNGKAP_QP_COUNT,
    OPERATORS_MOST = SEATS_MOST + 2, /* with seats; and root and the monitor's own user */
    CONNECTIONS_MORE = 4,            /* an operator's, beside those of its seats */
    CONNECTIONS_OF_A_SEAT = 4,
    CONNECTIONS_MOST = CONNECTIONS_OF_A_SEAT * SEATS_MOST + CONNECTIONS_MORE * OPERATORS_MOST,
    REFUSED_MOST = 16, /* that wait until what they brought is closed */
    PLACES = CONNECTIONS_MOST + REFUSED_MOST,
    LISTENER_PLACE = PLACES,
    NO_FD = -1
};

/* What the helper does with the files of a place, in this order; then it reports. */
struct job {
    uint8_t place;
    uint8_t take;      /* the connection comes with this job; nothing is reported */
    uint8_t silent;    /* nothing is reported */
    uint8_t seal;      /* the packet's file is memory: fill it, and seal it against holes */
    uint8_t keep;      /* it is the channel of completion queue `keep - 1`, not to be closed */
    uint8_t drop_file; /* close it */
    uint8_t drop_connection; /* close the connection */
    uint8_t read;            /* read the next packet, with its file */
    uint64_t drop_channels;  /* bits of completion queues whose channel is closed */
};

_Static_assert(LESUNGKAP_CQ_COUNT <= 64, "a bit for each completion queue");

/* What came with a packet. Only memory and sockets are passed on. */
enum file { NO_FILE, MEMORY, SOCKET, OTHER_FILE };

struct report_of_job {
    uint8_t place;
    uint8_t sealed; /* the memory is filled and sealed, if that was asked */
    uint8_t failed; /* or could not be */
    uint8_t file;
    uint8_t read;
    pid_t sender;
    int64_t length; /* of the packet, or -1 */
    int64_t file_bytes;
    int64_t file_blocks; /* of 512 bytes */
    uint8_t bytes[PACKET_MOST_BYTES];
};

/* The monitor's end. */
struct helper {
    int fd;
    pid_t pid;
};

/* Starts the helper; says what failed and returns 0. */
int helper_start(struct helper *helper);
/* Gives it a job, with a file or NO_FD; 0 where the helper has gone. */
int helper_ask(const struct helper *helper, const struct job *job, int fd);
/* Its next report: 1; 0 where there is none now, -1 where the helper has gone. */
int helper_report(const struct helper *helper, struct report_of_job *report, int *fd);

/* Sends a packet with a file, or NO_FD; whether it was taken. */
int send_with_file(int to, const void *bytes, size_t length, int fd, int flags);
/* Takes a packet if it came without files. Its whole length; -1 with errno where there is none,
 * EPIPE at the end. */
ssize_t receive_packet(int from, uint8_t bytes[PACKET_MOST_BYTES], int *with_files);
/* Whether nothing is left in a connection that nothing more comes to, once a few packets without
 * files were taken. */
int is_drained(int from);
/* Whether a file can be a client's channel: a connected Unix socket of packets, made by this
 * process; it is shut for reading then. */
int becomes_channel(int fd, pid_t pid);

#endif
