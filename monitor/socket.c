/* The socket: its path, its lock, who may connect. */
#define _GNU_SOURCE
#include "options.h"

#include <errno.h>
#include <fcntl.h>
#include <grp.h>
#include <stdio.h>
#include <stdlib.h>
#include <sys/file.h>
#include <sys/socket.h>
#include <sys/stat.h>
#include <sys/un.h>
#include <time.h>
#include <unistd.h>

enum { BACKLOG = 64, MODE_MOST = 0777, STALE_TRIES = 50 };

/* Keeps a second monitor away from this path: the lock lasts as long as the process. */
static int lock(const char *path)
{
    char name[sizeof((struct sockaddr_un *)0)->sun_path + 8];
    snprintf(name, sizeof name, "%s.lock", path);
    const int fd = open(name, O_RDWR | O_CREAT | O_CLOEXEC | O_NOFOLLOW, 0600);
    if (fd < 0) {
        return failed(name, strerror(errno));
    }
    return flock(fd, LOCK_EX | LOCK_NB) == 0 || failed(path, "another monitor serves it");
}

/* Whether nobody listens at the path. The helper of a monitor that was killed may do so a moment
 * longer. */
static int is_stale(const struct sockaddr_un *address)
{
    const struct timespec moment = {0, 20000000};
    int stale = 0;
    for (int n = 0; n < STALE_TRIES && !stale; n++) {
        const int fd = socket(AF_UNIX, SOCK_SEQPACKET | SOCK_CLOEXEC | SOCK_NONBLOCK, 0);
        stale = connect(fd, (const struct sockaddr *)address, sizeof *address) != 0 &&
                errno == ECONNREFUSED;
        close(fd);
        if (!stale) {
            nanosleep(&moment, NULL);
        }
    }
    return stale;
}

/* Removes the socket of a monitor that has ended; refuses anything else that has the path. */
static int clear_path(const struct sockaddr_un *address)
{
    struct stat file;
    if (lstat(address->sun_path, &file) != 0) {
        return errno == ENOENT || failed(address->sun_path, strerror(errno));
    }
    if (!S_ISSOCK(file.st_mode)) {
        return failed(address->sun_path, "the path is taken by something that is no socket");
    }
    if (!is_stale(address)) {
        return failed(address->sun_path, "the socket is another program's");
    }
    return unlink(address->sun_path) == 0 || failed(address->sun_path, strerror(errno));
}

/* The monitor asks who comes: the mode only has to let in those that were named. */
static int find_mode(const struct options *options, const struct monitor *monitor, mode_t *mode)
{
    int others = 0;
    char *end = NULL;
    if (options->mode != NULL) {
        const unsigned long said = strtoul(options->mode, &end, 8);
        *mode = (mode_t)said;
        return (*options->mode >= '0' && *options->mode <= '7' && *end == '\0' &&
                said <= MODE_MOST) ||
               failed(options->mode, "no mode of a socket");
    }
    for (unsigned n = 0; n < monitor->operator_count; n++) {
        others |= monitor->operators[n].share > 0 && monitor->operators[n].uid != geteuid();
    }
    *mode = others ? 0666 : 0600;
    return 1;
}

static int find_group(const struct options *options, gid_t *gid)
{
    char *end = NULL;
    *gid = (gid_t)-1;
    if (options->group == NULL) {
        return 1;
    }
    const struct group *group = getgrnam(options->group);
    *gid = group != NULL ? group->gr_gid : (gid_t)strtoul(options->group, &end, 10);
    return group != NULL || (*options->group >= '0' && *options->group <= '9' && *end == '\0') ||
           failed(options->group, "there is no such group");
}

/* Nobody can connect before the socket has its group and mode, as it does not listen before. */
static int bind_as(int fd, const struct sockaddr_un *address, gid_t gid, mode_t mode)
{
    const mode_t mask = umask(0177);
    const int bound = bind(fd, (const struct sockaddr *)address, sizeof *address) == 0;
    umask(mask);
    return bound && (gid == (gid_t)-1 || chown(address->sun_path, (uid_t)-1, gid) == 0) &&
           chmod(address->sun_path, mode) == 0 && listen(fd, BACKLOG) == 0;
}

int listen_at(const struct options *options, const struct monitor *monitor)
{
    struct sockaddr_un address = {.sun_family = AF_UNIX};
    const char *path = options->socket;
    const int yes = 1;
    mode_t mode;
    gid_t gid;
    if (strlen(path) + 8 > sizeof address.sun_path) {
        return failed(path, "the path is too long for a socket"), -1;
    }
    strcpy(address.sun_path, path);
    if (!find_mode(options, monitor, &mode) || !find_group(options, &gid) || !lock(path) ||
        !clear_path(&address)) {
        return -1;
    }
    const int fd = socket(AF_UNIX, SOCK_SEQPACKET | SOCK_CLOEXEC | SOCK_NONBLOCK, 0);
    if (fd < 0 || setsockopt(fd, SOL_SOCKET, SO_PASSCRED, &yes, sizeof yes) != 0 ||
        !bind_as(fd, &address, gid, mode)) {
        return failed(path, strerror(errno)), -1;
    }
    return fd;
}
