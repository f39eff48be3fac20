/* A client of the monitor by its packets, for tests: one of each object, its memory mapped. */
#ifndef CLIENT_H
#define CLIENT_H

#include "../../monitor/verbs/link.h"

#include <fcntl.h>
#include <sys/types.h>

enum { CLIENT_VIRT = 0x10000000, SEALS = F_SEAL_SHRINK | F_SEAL_GROW };

struct client {
    struct link link;
    int memory_file;
    uint8_t *memory;
    uint32_t bytes;
    uint32_t pdn, cqn, qp;
    struct lesungkap_register_mr_ack mr;
};

/* Ends the program with a line where something isn't so. */
#define EXPECT(holds) expect(holds, #holds, __FILE__, __LINE__)
void expect(int holds, const char *what, const char *file, int line);

/* A memory file of so many bytes, with these seals. */
int memory_file(size_t bytes, int seals);
/* Connects and joins with all of the window; no objects yet. */
void client_join(struct client *client, const char *path);
/* The same, with a domain, a completion queue of `places`, a region of all of its memory with all rights, and a queue pair. */
void client_open(struct client *client, const char *path, uint32_t places);
void client_close(struct client *client);

uint32_t client_move(struct client *client, uint8_t state, uint32_t destination);
/* From reset to ready to send, joined with the peer. */
void client_ready(struct client *client, uint32_t destination);

/* A request over memory bytes `at` to `at + length - 1`. */
uint32_t client_send(struct client *client, uint8_t opcode, uint64_t at, uint32_t length, uint64_t remote, uint32_t key);
uint32_t client_receive(struct client *client, uint64_t at, uint32_t length);
/* Waits for the next completion. */
struct lesungkap_completion client_completion(struct client *client);

/* Stops the monitor, so that what comes in the meantime comes at once; its process, for SIGCONT. */
pid_t stop_monitor(const struct link *link);
/* When the next answer was given, by the kernel's clock; the link has SO_TIMESTAMPNS. */
double stamped(const struct link *link);

#endif
