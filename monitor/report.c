#define _GNU_SOURCE
#include "report.h"

#include <poll.h>
#include <stdio.h>
#include <time.h>
#include <unistd.h>

enum { SECOND = 1000000000 };

uint64_t clock_now(void)
{
    struct timespec now;
    clock_gettime(CLOCK_MONOTONIC, &now);
    return (uint64_t)now.tv_sec * 1000000000u + (uint64_t)now.tv_nsec;
}

int takes_a_line(int fd)
{
    struct pollfd out = {.fd = fd, .events = POLLOUT};
    return poll(&out, 1, 0) == 1 && (out.revents & POLLOUT);
}

int failed(const char *what, const char *why)
{
    if (takes_a_line(STDERR_FILENO)) {
        fprintf(stderr, "lesungkap-monitor: %s: %s\n", what, why);
    }
    return 0;
}

void report(struct lines *lines, const char *who, const char *what)
{
    const uint64_t now = clock_now();
    if (now < lines->next || !takes_a_line(STDERR_FILENO)) {
        lines->left_out++;
        return;
    }
    fprintf(stderr, "lesungkap-monitor: %s: %s", who, what);
    if (lines->left_out > 0) {
        fprintf(stderr, " (%u lines about it were left out before)", lines->left_out);
    }
    fputc('\n', stderr);
    lines->next = now + SECOND;
    lines->left_out = 0;
}
