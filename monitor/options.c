#include "options.h"

#include <errno.h>
#include <stdlib.h>

enum { TAPE_MOST_MEMORY = 1048576 }; /* what lesungkap-replay takes */

const char usage[] =
    "usage: lesungkap-monitor SOCKET [OPTION...]\n"
    "       lesungkap-monitor --show SOCKET | --version | --help\n"
    "  SOCKET                   where clients connect\n"
    "  --operator USER[:SEATS]  who may come, and how many of the clients may be his; again for "
    "each\n"
    "                           (the monitor's own user; without SEATS an equal part of the rest)\n"
    "  --clients N              how many share the card, each its part of every table (8)\n"
    "  --memory BYTES           of the card, shared out evenly (the most that the card takes, with "
    "a\n"
    "                           tape the most that the replay takes)\n"
    "  --mode MODE              of the socket, in octal (600; 666 if operators are named)\n"
    "  --group GROUP            of the socket\n"
    "  --lock                   keep clients' memory from being swapped out\n"
    "  --tape FILE              record calls in FILE, answers in FILE.answers, who in FILE.who; "
    "FILE.0002\n"
    "                           and so on where it exists, and when the card is reset\n"
    "  --tape-size BYTES        go on in FILE.part0002 and so on when a part is so large\n"
    "  --tape-full serve|stop   what to do where the tape can't be written (serve)\n"
    "  --times                  at the end, say how long requests and calls took\n"
    "--show and SIGUSR1 show what is live, SIGTERM and SIGINT end it.\n";

static int number_of(const char *word, uint64_t most, uint64_t *number)
{
    char *end = NULL;
    errno = 0;
    *number = strtoull(word, &end, 10);
    return word[0] >= '0' && word[0] <= '9' && *end == '\0' && errno == 0 && *number >= 1 &&
           *number <= most;
}

/* The options with a value that is a number. */
static int number_option(struct options *options, const char *name, const char *value)
{
    if (strcmp(name, "--memory") == 0) {
        return number_of(value, LESUNGKAP_MOST_MEMORY, &options->memory) ||
               failed(value, "no memory length of this card");
    }
    if (strcmp(name, "--clients") == 0) {
        return number_of(value, SEATS_MOST, &options->clients) ||
               failed(value, "no number of clients for this card");
    }
    if (strcmp(name, "--tape-size") == 0) {
        return number_of(value, INT64_MAX, &options->tape.part_bytes) ||
               failed(value, "no length of a tape's part");
    }
    return failed(name, "no such option (--help)");
}

static int word_option(struct options *options, struct monitor *monitor, const char *name,
                       const char *value)
{
    if (strcmp(name, "--operator") == 0) {
        return operators_add(monitor, value);
    }
    if (strcmp(name, "--tape") == 0) {
        options->tape.name = value;
    } else if (strcmp(name, "--tape-full") == 0) {
        options->tape.stop_when_full = strcmp(value, "stop") == 0;
        return options->tape.stop_when_full || strcmp(value, "serve") == 0 ||
               failed(value, "serve or stop, where the tape can't be written");
    } else if (strcmp(name, "--mode") == 0) {
        options->mode = value;
    } else if (strcmp(name, "--group") == 0) {
        options->group = value;
    } else {
        return number_option(options, name, value);
    }
    return 1;
}

/* Reads one option; the words that it took, or 0 after a line that says what is wrong. */
static int option(struct options *options, struct monitor *monitor, char **words, int count)
{
    if (strcmp(words[0], "--times") == 0) {
        options->times = 1;
        return 1;
    }
    if (strcmp(words[0], "--lock") == 0) {
        options->lock = 1;
        return 1;
    }
    if (count < 2) {
        return failed(words[0], "it needs a value, or isn't an option (--help)");
    }
    return word_option(options, monitor, words[0], words[1]) ? 2 : 0;
}

static int share_memory(struct options *options, struct monitor *monitor)
{
    const uint64_t card = LESUNGKAP_MOST_MEMORY, replay = TAPE_MOST_MEMORY;
    const uint64_t most = options->tape.name != NULL && replay < card ? replay : card;
    if (options->memory > most) {
        return failed("--memory", "a tape of so much memory can't be replayed");
    }
    options->memory = options->memory == 0 ? most : options->memory;
    if (options->memory / options->clients < PACKET_PAGE) {
        return failed("--memory", "it gives a client less than a page");
    }
    monitor->seats = (unsigned)options->clients;
    monitor->window = options->memory / options->clients / PACKET_PAGE * PACKET_PAGE;
    return 1;
}

int options_read(struct options *options, struct monitor *monitor, int count, char **words)
{
    for (int n = 1; n < count;) {
        if (words[n][0] != '-' && options->socket == NULL) {
            options->socket = words[n++];
            continue;
        }
        const int took = option(options, monitor, words + n, count - n);
        if (took == 0) {
            return 0;
        }
        n += took;
    }
    if (options->socket == NULL) {
        return failed("no SOCKET", "see --help");
    }
    if (options->tape.name == NULL &&
        (options->tape.part_bytes > 0 || options->tape.stop_when_full)) {
        return failed("--tape-size, --tape-full", "there is no --tape");
    }
    return share_memory(options, monitor) && operators_share(monitor);
}
