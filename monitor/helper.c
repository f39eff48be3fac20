#define _GNU_SOURCE
#include "helper.h"

#include "report.h"

#include <errno.h>
#include <fcntl.h>
#include <linux/magic.h>
#include <poll.h>
#include <pthread.h>
#include <signal.h>
#include <stdatomic.h>
#include <stddef.h>
#include <sys/prctl.h>
#include <sys/socket.h>
#include <sys/stat.h>
#include <sys/syscall.h>
#include <sys/vfs.h>
#include <unistd.h>

enum { PATIENCE = 100 }; /* milliseconds until a thread is asked for again */

/* ---- packets between the two */

union control {
    struct cmsghdr aligned;
    char bytes[CMSG_SPACE(sizeof(int))];
};

/* The length of the next packet; 0 at the end, -1 with errno. */
static ssize_t get(int from, void *bytes, size_t size, int flags, int *fd)
{
    union control control;
    struct iovec part = {bytes, size};
    struct msghdr message = {.msg_iov = &part,
                             .msg_iovlen = 1,
                             .msg_control = &control,
                             .msg_controllen = sizeof control};
    *fd = NO_FD;
    const ssize_t got = recvmsg(from, &message, flags | MSG_CMSG_CLOEXEC);
    const struct cmsghdr *head = got > 0 ? CMSG_FIRSTHDR(&message) : NULL;
    if (head != NULL && head->cmsg_type == SCM_RIGHTS && head->cmsg_len == CMSG_LEN(sizeof *fd)) {
        memcpy(fd, CMSG_DATA(head), sizeof *fd);
    }
    return got;
}

/* ---- the monitor's end */

int helper_ask(const struct helper *helper, const struct job *job, int fd)
{
    return send_with_file(helper->fd, job, sizeof *job, fd, 0);
}

int helper_report(const struct helper *helper, struct report_of_job *report, int *fd)
{
    const ssize_t got = get(helper->fd, report, sizeof *report, MSG_DONTWAIT, fd);
    return got > 0 ? 1 : got < 0 && (errno == EAGAIN || errno == EINTR) ? 0 : -1;
}

/* ---- the helper's end */

/* A job with the files that it is about, taken from the tables below: they are nobody else's. */
struct task {
    struct job job;
    int monitor;                       /* where it is reported */
    int from;                          /* the connection, to be read */
    int memory;                        /* to be sealed */
    int files[LESUNGKAP_CQ_COUNT + 2]; /* to be closed */
    unsigned count;
};

static struct {
    int connections[PLACES + 1]; /* the last is the listener */
    atomic_int files[PLACES];    /* that came with a packet and were not closed yet */
    int channels[LESUNGKAP_CQ_COUNT];
    struct task tasks[PLACES];
    uint8_t late[PLACES]; /* a task that has no thread yet */
} held;

/* Memory of the kernel's own, whose length nobody can change, and that can be sealed further. Only
 * such files are asked for their file system. */
static int is_sealed_memory(int fd)
{
    const int wanted = F_SEAL_SHRINK | F_SEAL_GROW;
    const int seals = fcntl(fd, F_GET_SEALS);
    struct statfs system;
    return seals >= 0 && (seals & (wanted | F_SEAL_SEAL)) == wanted && fstatfs(fd, &system) == 0 &&
           system.f_type == TMPFS_MAGIC;
}

/* The first file that came with a message, another is closed; and the process that sent it. */
static int take_parts(struct msghdr *message, pid_t *sender)
{
    int file = NO_FD;
    for (struct cmsghdr *part = CMSG_FIRSTHDR(message); part != NULL;
         part = CMSG_NXTHDR(message, part)) {
        const int ours = part->cmsg_len >= CMSG_LEN(0) && part->cmsg_level == SOL_SOCKET;
        const size_t length = ours ? part->cmsg_len - CMSG_LEN(0) : 0;
        struct ucred credentials;
        if (part->cmsg_type == SCM_CREDENTIALS && length >= sizeof credentials) {
            memcpy(&credentials, CMSG_DATA(part), sizeof credentials);
            *sender = credentials.pid;
        }
        for (size_t at = 0; part->cmsg_type == SCM_RIGHTS && at + sizeof(int) <= length;
             at += sizeof(int)) {
            int fd;
            memcpy(&fd, CMSG_DATA(part) + at, sizeof fd);
            if (file == NO_FD) {
                file = fd;
            } else {
                close(fd);
            }
        }
    }
    return file;
}

/* Reads a packet with its file. There is room for one file or two: the kernel closes the others
 * here. */
static int read_with_file(int from, struct report_of_job *report)
{
    union {
        struct cmsghdr aligned;
        char bytes[CMSG_SPACE(sizeof(struct ucred)) + CMSG_SPACE(sizeof(int))];
    } control;
    struct iovec part = {report->bytes, sizeof report->bytes};
    struct msghdr message = {.msg_iov = &part,
                             .msg_iovlen = 1,
                             .msg_control = &control,
                             .msg_controllen = sizeof control};
    struct stat stat;
    report->read = 1;
    report->length = recvmsg(from, &message, MSG_DONTWAIT | MSG_CMSG_CLOEXEC | MSG_TRUNC);
    const int file = report->length >= 0 ? take_parts(&message, &report->sender) : NO_FD;
    if (file != NO_FD && is_sealed_memory(file) && fstat(file, &stat) == 0) {
        report->file = MEMORY;
        report->file_bytes = stat.st_size;
        report->file_blocks = stat.st_blocks;
    } else if (file != NO_FD) {
        int domain = -1;
        socklen_t size = sizeof domain;
        const int asked = getsockopt(file, SOL_SOCKET, SO_DOMAIN, &domain, &size);
        report->file = asked == 0 && domain == AF_UNIX ? SOCKET : OTHER_FILE;
    }
    return file;
}

/* Fills the memory, so that nobody has to wait for a page of it, and seals it against holes. */
static int fill_and_seal(int memory)
{
    struct stat stat;
    return fcntl(memory, F_ADD_SEALS, F_SEAL_FUTURE_WRITE) == 0 && fstat(memory, &stat) == 0 &&
           fallocate(memory, 0, 0, stat.st_size) == 0;
}

static void *run(void *given)
{
    const struct task *task = given;
    const uint8_t place = task->job.place;
    struct report_of_job report = {.place = place};
    report.sealed = task->memory != NO_FD && fill_and_seal(task->memory);
    report.failed = task->memory != NO_FD && !report.sealed;
    for (unsigned n = 0; n < task->count; n++) {
        close(task->files[n]);
    }
    int file = NO_FD;
    if (task->from != NO_FD) {
        file = read_with_file(task->from, &report);
        held.files[place] = file;
    }
    const int passed = report.file == MEMORY || report.file == SOCKET ? file : NO_FD;
    const size_t most = sizeof report.bytes;
    const size_t bytes = report.length > 0 ? (size_t)report.length : 0;
    const size_t length = offsetof(struct report_of_job, bytes) + (bytes < most ? bytes : most);
    if (!task->job.silent) {
        send_with_file(task->monitor, &report, length, passed, 0);
    }
    return NULL;
}

/* Starts a task's thread; 0 where there is none now. */
static int start(struct task *task)
{
    pthread_attr_t attributes;
    pthread_t thread;
    pthread_attr_init(&attributes);
    pthread_attr_setdetachstate(&attributes, PTHREAD_CREATE_DETACHED);
    pthread_attr_setstacksize(&attributes, 65536);
    const int started = pthread_create(&thread, &attributes, run, task) == 0;
    pthread_attr_destroy(&attributes);
    return started;
}

static void to_close(struct task *task, int fd)
{
    if (fd != NO_FD) {
        task->files[task->count++] = fd;
    }
}

/* Takes what the job is about from the tables. */
static void take_files(struct task *task)
{
    const struct job *job = &task->job;
    const int file = held.files[job->place];
    task->memory = job->seal ? file : NO_FD;
    for (unsigned cqn = 0; cqn < LESUNGKAP_CQ_COUNT; cqn++) {
        if (job->drop_channels & (uint64_t)1 << cqn) {
            to_close(task, held.channels[cqn]);
            held.channels[cqn] = NO_FD;
        }
    }
    if (job->keep > 0) {
        held.channels[job->keep - 1] = file;
    } else if (job->drop_file) {
        to_close(task, file);
    }
    held.files[job->place] = job->keep > 0 || job->drop_file ? NO_FD : file;
    task->from = job->read ? held.connections[job->place] : NO_FD;
    if (job->drop_connection) {
        to_close(task, held.connections[job->place]);
        held.connections[job->place] = NO_FD;
    }
}

/* Does a job at once where it can't last, else by a thread. */
static void begin(const struct job *job, int monitor)
{
    struct task *task = held.tasks + job->place;
    const int at_once = job->silent || (job->keep > 0 && job->drop_channels == 0);
    *task = (struct task){.job = *job, .monitor = monitor};
    take_files(task);
    if (at_once) {
        run(task);
    } else {
        held.late[job->place] = !start(task);
    }
}

/* Starts what had no thread; whether something is left. */
static int start_late(void)
{
    int late = 0;
    for (unsigned n = 0; n < PLACES; n++) {
        held.late[n] = held.late[n] && !start(held.tasks + n);
        late |= held.late[n];
    }
    return late;
}

/* When the monitor has gone: nobody waits for it, even if this process can't end. */
static void hang_up(void)
{
    for (unsigned n = 0; n <= PLACES; n++) {
        if (held.connections[n] != NO_FD) {
            shutdown(held.connections[n], SHUT_RDWR);
        }
    }
}

static void no_files(void)
{
    memset(held.connections, 0xff, sizeof held.connections);
    memset(held.channels, 0xff, sizeof held.channels);
    for (unsigned n = 0; n < PLACES; n++) {
        held.files[n] = NO_FD;
    }
}

/* Does jobs until the monitor has gone. */
static void serve(int monitor)
{
    struct pollfd asks = {.fd = monitor, .events = POLLIN};
    struct job job;
    ssize_t got = 1;
    int fd;
    no_files();
    while (got > 0) {
        if (poll(&asks, 1, start_late() ? PATIENCE : -1) <= 0) {
            continue;
        }
        got = get(monitor, &job, sizeof job, 0, &fd);
        if (got == (ssize_t)sizeof job && job.take) {
            held.connections[job.place] = fd;
        } else if (got == (ssize_t)sizeof job) {
            begin(&job, monitor);
        }
    }
    hang_up();
}

/* Standard files are closed too: who reads them must not wait for this process. */
static void keep_only(int fd)
{
    const int nothing = open("/dev/null", O_RDWR);
    for (int n = 0; n < 3; n++) {
        dup2(nothing, n);
    }
    if (dup2(fd, 3) == 3) {
        syscall(SYS_close_range, 4u, ~0u, 0);
    }
}

int helper_start(struct helper *helper)
{
    int ends[2];
    if (socketpair(AF_UNIX, SOCK_SEQPACKET | SOCK_CLOEXEC, 0, ends) != 0) {
        return failed("socketpair", strerror(errno));
    }
    helper->pid = fork();
    if (helper->pid < 0) {
        return failed("fork", strerror(errno));
    }
    if (helper->pid == 0) {
        prctl(PR_SET_NAME, "lesungkap-files");
        keep_only(ends[1]);
        serve(3);
        _exit(0);
    }
    close(ends[1]);
    helper->fd = ends[0];
    return 1;
}
