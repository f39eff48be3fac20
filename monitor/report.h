/* Lines on standard error: the one way of saying that something is wrong. */
#ifndef LESUNGKAP_REPORT_H
#define LESUNGKAP_REPORT_H

#include <stdint.h>

/* What limits lines about one client, operator or matter to one a second. */
struct lines {
    uint64_t next; /* when one may be said again, by the clock */
    unsigned left_out;
};

/* Nanoseconds of a steady clock. */
uint64_t clock_now(void);
/* Whether a line can be written without waiting for a reader. */
int takes_a_line(int fd);
/* Says what failed and why; 0. For what ends the monitor, or happens once. */
int failed(const char *what, const char *why);
/* Says something about somebody, unless a line about him was said within a second. */
void report(struct lines *lines, const char *who, const char *what);

#endif
