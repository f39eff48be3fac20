/* The tape of a card from its reset on: NAME has the calls, NAME.answers the answers
 * (docs/TAPE.md), NAME.who a line for each client that comes or goes and for each object that it
 * makes. Files are made 0600 and never over an old one. A request's records are written before it
 * is answered. */
#ifndef LESUNGKAP_MONITOR_TAPE_H
#define LESUNGKAP_MONITOR_TAPE_H

#include <lesungkap_tape.h>

#include <inttypes.h>

enum { TAPE_NAME_BYTES = 4096, TAPE_BUFFER = 65536, TAPE_LINE_MOST = 256 };

struct tape_options {
    const char *name;    /* NULL: no tape */
    uint64_t part_bytes; /* when the next part begins; 0: never */
    int stop_when_full;  /* service ends where the tape can't be written */
};

/* One of the three files. */
struct tape_file {
    int fd;
    uint64_t written;
    size_t used;
    uint8_t bytes[TAPE_BUFFER]; /* not written yet */
};

struct tape {
    struct tape_options options;
    int recording;
    int whole;       /* every record was written */
    unsigned number; /* of the tape: 1 is NAME, 2 is NAME.0002 */
    unsigned part;   /* of its calls and answers: 2 is NAME.part0002 and NAME.answers.part0002 */
    char name[TAPE_NAME_BYTES];
    struct lesungkap_recorder recorder;
    struct tape_file calls, answers, who;
};

/* Begins a tape under the first name that is free; says what failed and returns 0. */
int tape_open(struct tape *tape, const struct tape_options *options);
/* Ends the tape; 0 if it is not whole. */
int tape_close(struct tape *tape);
/* Ends it and begins the next; 0 where service ends. */
int tape_next(struct tape *tape);

void tape_record(struct tape *tape, unsigned kind, uint32_t number, const uint8_t *body,
                 size_t length, uint32_t result, const uint8_t *written, size_t written_len);
/* The number of the next record. */
uint64_t tape_records(const struct tape *tape);
/* A line of NAME.who: a record's number, the time, the operator, the client. */
void tape_who(struct tape *tape, uint64_t record, const char *operator_name, uint64_t client,
              const char *format, ...) __attribute__((format(printf, 5, 6)));
/* Writes what was recorded; 0 where that can't be done and service ends. */
int tape_commit(struct tape *tape);

#endif
