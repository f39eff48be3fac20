/* Operators: the users that may come, told by the kernel (SO_PEERCRED), and what each has of the
 * card. */
#define _GNU_SOURCE
#include "monitor.h"

#include <errno.h>
#include <pwd.h>
#include <stdio.h>
#include <stdlib.h>
#include <unistd.h>

enum {
    SHARE_NOT_SAID = 0,
    NAME_BITS = 16,    /* above a queue pair's number in its name */
    OPERATOR_BITS = 3, /* of them the highest say whose it is */
    COUNT_BITS = NAME_BITS - OPERATOR_BITS
};

_Static_assert(SEATS_MOST <= 1 << OPERATOR_BITS, "every operator with a seat has names of its own");

struct user *operators_find(struct monitor *monitor, uid_t uid)
{
    for (unsigned n = 0; n < monitor->operator_count; n++) {
        if (monitor->operators[n].uid == uid) {
            return monitor->operators + n;
        }
    }
    return NULL;
}

/* ---- naming them */

static struct user *add(struct monitor *monitor, uid_t uid, unsigned share)
{
    struct user *user = monitor->operators + monitor->operator_count++;
    const struct passwd *entry = getpwuid(uid);
    *user = (struct user){.uid = uid, .share = share, .unseated = NO_FD};
    if (entry != NULL) {
        snprintf(user->name, sizeof user->name, "%s", entry->pw_name);
    } else {
        snprintf(user->name, sizeof user->name, "%u", (unsigned)uid);
    }
    return user;
}

static int is_number(const char *word)
{
    return word[0] != '\0' && word[strspn(word, "0123456789")] == '\0';
}

/* A user by name or number. */
static int find_user(const char *word, uid_t *uid)
{
    char *end;
    const struct passwd *entry = getpwnam(word);
    if (entry != NULL) {
        *uid = entry->pw_uid;
        return 1;
    }
    errno = 0;
    const unsigned long number = strtoul(word, &end, 10);
    *uid = (uid_t)number;
    return is_number(word) && errno == 0 && number < (uid_t)-1;
}

int operators_add(struct monitor *monitor, const char *word)
{
    char name[256];
    const char *colon = strrchr(word, ':');
    const size_t length = colon == NULL ? strlen(word) : (size_t)(colon - word);
    unsigned long share = SHARE_NOT_SAID;
    uid_t uid;
    if (length >= sizeof name || monitor->operator_count == SEATS_MOST) {
        return failed(word, "there are too many operators for this card");
    }
    memcpy(name, word, length);
    name[length] = '\0';
    if (!find_user(name, &uid)) {
        return failed(name, "there is no such user");
    }
    if (operators_find(monitor, uid) != NULL) {
        return failed(name, "this operator was named before");
    }
    if (colon != NULL) {
        share = strtoul(colon + 1, NULL, 10);
        if (!is_number(colon + 1) || share == 0 || share > SEATS_MOST) {
            return failed(word, "no number of seats for this card");
        }
    }
    add(monitor, uid, (unsigned)share);
    return 1;
}

/* Root and the monitor's own user may always look at the statistics. */
static void add_onlookers(struct monitor *monitor)
{
    if (operators_find(monitor, geteuid()) == NULL) {
        add(monitor, geteuid(), 0);
    }
    if (operators_find(monitor, 0) == NULL) {
        add(monitor, 0, 0);
    }
}

int operators_share(struct monitor *monitor)
{
    unsigned said = 0, unsaid = 0;
    if (monitor->operator_count == 0) {
        add(monitor, geteuid(), monitor->seats);
    }
    for (unsigned n = 0; n < monitor->operator_count; n++) {
        said += monitor->operators[n].share;
        unsaid += monitor->operators[n].share == SHARE_NOT_SAID;
    }
    if (said + unsaid > monitor->seats) {
        return failed("--operator", "the operators' seats are more than --clients");
    }
    for (unsigned n = 0; n < monitor->operator_count; n++) {
        if (monitor->operators[n].share == SHARE_NOT_SAID) {
            monitor->operators[n].share = (monitor->seats - said) / unsaid;
        }
    }
    add_onlookers(monitor);
    return 1;
}

/* ---- what each has */

unsigned operator_connections(const struct user *user)
{
    return CONNECTIONS_OF_A_SEAT * user->share + CONNECTIONS_MORE;
}

unsigned operator_keys(const struct monitor *monitor, const struct user *user)
{
    return user->share * seat_share(monitor, MR) * KEYS_OF_A_SLOT;
}

uint32_t operator_name(struct monitor *monitor, struct user *user, uint32_t qpn)
{
    const uint32_t whose = (uint32_t)(user - monitor->operators);
    const uint32_t count = (uint32_t)(++user->named[qpn] & ((1u << COUNT_BITS) - 1));
    return qpn | (whose << COUNT_BITS | count) << PACKET_NAME_SHIFT;
}
