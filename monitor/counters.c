/* A page for each client that asks for it, with the unread completions of its own queues: a poll of
 * an empty one need not be asked for. The monitor writes it and never reads it; the client maps it,
 * and can't write. */
#define _GNU_SOURCE
#include "monitor.h"

#include <fcntl.h>
#include <sys/mman.h>
#include <unistd.h>

_Static_assert(LESUNGKAP_CQ_COUNT * sizeof(uint32_t) <= PACKET_PAGE, "a counter for each queue");

/* Seals it once it is mapped here: nobody can map it again to write, nor change its length. */
static int seal(int fd)
{
    const int seals = F_SEAL_SHRINK | F_SEAL_GROW | F_SEAL_FUTURE_WRITE | F_SEAL_SEAL;
    return fcntl(fd, F_ADD_SEALS, seals) == 0;
}

uint32_t counters_open(struct monitor *monitor, unsigned client, int *file)
{
    struct connection *connection = monitor->connections + client;
    if (connection->seat == NO_SEAT) {
        return LESUNGKAP_FULL;
    }
    if (connection->counters != NULL) {
        return LESUNGKAP_IN_USE;
    }
    const int fd = memfd_create("lesungkap-counters", MFD_CLOEXEC | MFD_ALLOW_SEALING);
    if (fd < 0 || ftruncate(fd, PACKET_PAGE) != 0 || fallocate(fd, 0, 0, PACKET_PAGE) != 0) {
        close(fd);
        return LESUNGKAP_FULL;
    }
    void *page = mmap(NULL, PACKET_PAGE, PROT_READ | PROT_WRITE, MAP_SHARED | MAP_POPULATE, fd, 0);
    if (page == MAP_FAILED || !seal(fd)) {
        if (page != MAP_FAILED) {
            munmap(page, PACKET_PAGE);
        }
        close(fd);
        return LESUNGKAP_FULL;
    }
    connection->counters = page;
    for (uint32_t cqn = 0; cqn < LESUNGKAP_CQ_COUNT; cqn++) {
        counters_show(monitor, cqn);
    }
    *file = fd;
    return LESUNGKAP_DONE;
}

void counters_close(struct connection *connection)
{
    if (connection->counters != NULL) {
        munmap(connection->counters, PACKET_PAGE);
        connection->counters = NULL;
    }
}

void counters_show(struct monitor *monitor, uint32_t cqn)
{
    const unsigned owner = monitor->owner[CQ][cqn];
    if (owner > 0 && monitor->connections[owner - 1].counters != NULL) {
        atomic_store_explicit(monitor->connections[owner - 1].counters + cqn,
                              card_unread(&monitor->card, cqn), memory_order_release);
    }
}

void counters_hide(struct connection *connection, uint32_t cqn)
{
    if (connection->counters != NULL) {
        atomic_store_explicit(connection->counters + cqn, 0, memory_order_release);
    }
}
