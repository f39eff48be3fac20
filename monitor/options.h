/* The words that the monitor is started with, and its socket. */
#ifndef LESUNGKAP_OPTIONS_H
#define LESUNGKAP_OPTIONS_H

#include "monitor.h"

struct options {
    const char *socket;
    uint64_t memory; /* 0: not said */
    uint64_t clients;
    struct tape_options tape;
    const char *mode;  /* of the socket; NULL: not said */
    const char *group; /* of the socket; NULL: the user's */
    int lock;
    int times;
};

extern const char usage[];

/* Reads the words, and names the operators; says what is wrong and returns 0. */
int options_read(struct options *options, struct monitor *monitor, int count, char **words);
/* A socket that listens at the path, which is nobody else's; -1 after a line that says what is
 * wrong. */
int listen_at(const struct options *options, const struct monitor *monitor);

#endif
