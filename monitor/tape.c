#define _GNU_SOURCE
#include "tape.h"

#include "report.h"

#include <errno.h>
#include <fcntl.h>
#include <stdarg.h>
#include <time.h>
#include <unistd.h>

enum { NUMBER_MOST = 9999, NO_FILE_YET = -1 };

/* ---- files */

/* The file's name: of the tape, which of its three, and the part. */
static int file_name(const struct tape *tape, const char *which, unsigned part, char *name)
{
    char of_part[16] = "";
    if (part > 1) {
        snprintf(of_part, sizeof of_part, ".part%04u", part);
    }
    const int length = snprintf(name, TAPE_NAME_BYTES, "%s%s%s", tape->name, which, of_part);
    return length > 0 && length < TAPE_NAME_BYTES;
}

/* Makes a file that was not there; 0 with errno. */
static int make(struct tape *tape, struct tape_file *file, const char *which, unsigned part)
{
    char name[TAPE_NAME_BYTES];
    if (!file_name(tape, which, part, name)) {
        errno = ENAMETOOLONG;
        return 0;
    }
    file->fd = open(name, O_WRONLY | O_CREAT | O_EXCL | O_NOFOLLOW | O_CLOEXEC, 0600);
    file->written = 0;
    file->used = 0;
    return file->fd >= 0;
}

/* Closes a file that was made for nothing, and removes it. */
static void unmake(const struct tape *tape, struct tape_file *file, const char *which,
                   unsigned part)
{
    char name[TAPE_NAME_BYTES];
    if (file->fd >= 0 && file_name(tape, which, part, name)) {
        unlink(name);
        close(file->fd);
    }
    file->fd = NO_FILE_YET;
}

/* Makes the files of a part: of the first, all three. */
static int make_part(struct tape *tape, unsigned part)
{
    struct tape_file *who = part == 1 ? &tape->who : NULL;
    tape->calls.fd = tape->answers.fd = NO_FILE_YET;
    if (make(tape, &tape->calls, "", part) && make(tape, &tape->answers, ".answers", part) &&
        (who == NULL || make(tape, who, ".who", part))) {
        tape->part = part;
        return 1;
    }
    const int why = errno;
    unmake(tape, &tape->calls, "", part);
    unmake(tape, &tape->answers, ".answers", part);
    errno = why;
    return 0;
}

/* Whether a second part of this name is left of an old tape, whose first was removed. */
static int has_old_part(const struct tape *tape)
{
    char calls[TAPE_NAME_BYTES], answers[TAPE_NAME_BYTES];
    const int old = file_name(tape, "", 2, calls) && file_name(tape, ".answers", 2, answers) &&
                    (access(calls, F_OK) == 0 || access(answers, F_OK) == 0);
    errno = EEXIST;
    return old;
}

/* Begins the tape of the next number that is free. */
static int make_tape(struct tape *tape)
{
    const char *name = tape->options.name;
    int made = 0;
    do {
        const int length = ++tape->number == 1 ? snprintf(tape->name, sizeof tape->name, "%s", name)
                                               : snprintf(tape->name, sizeof tape->name, "%s.%04u",
                                                          name, tape->number);
        errno = length > 0 && (size_t)length < sizeof tape->name ? EEXIST : ENAMETOOLONG;
        made = errno == EEXIST && !has_old_part(tape) && make_part(tape, 1);
    } while (!made && errno == EEXIST && tape->number < NUMBER_MOST);
    if (!made) {
        return failed(tape->options.name, strerror(errno));
    }
    tape->recorder = lesungkap_record_to_buffers(tape->calls.bytes, sizeof tape->calls.bytes,
                                                 tape->answers.bytes, sizeof tape->answers.bytes);
    tape->recording = 1;
    tape->whole = 1;
    return 1;
}

int tape_open(struct tape *tape, const struct tape_options *options)
{
    tape->options = *options;
    return options->name == NULL || make_tape(tape);
}

/* ---- writing */

static int put_all(struct tape_file *file, const uint8_t *bytes, size_t length)
{
    while (length > 0) {
        const ssize_t put = write(file->fd, bytes, length);
        if (put < 0 && errno == EINTR) {
            continue;
        }
        if (put <= 0) {
            return 0;
        }
        bytes += put;
        length -= (size_t)put;
    }
    return 1;
}

/* Drops what was written behind the records of the last commit. */
static void cut_back(const struct tape_file *file)
{
    if (file->fd >= 0 && ftruncate(file->fd, (off_t)file->written) != 0) {
        failed("the tape", "it ends within a record");
    }
}

/* The tape ends here: whole records, and as many answers as calls. */
static void end_early(struct tape *tape, const char *why)
{
    cut_back(&tape->calls);
    cut_back(&tape->answers);
    cut_back(&tape->who);
    tape->recording = 0;
    tape->whole = 0;
    failed(tape->name, why);
    failed("the tape can't be written",
           tape->options.stop_when_full ? "service ends (--tape-full stop)"
                                        : "from here on no call is recorded (--tape-full serve)");
}

static void close_file(struct tape_file *file, int *whole)
{
    *whole &= file->fd < 0 || close(file->fd) == 0;
    file->fd = NO_FILE_YET;
}

/* Goes on in files of their own. */
static int next_part(struct tape *tape)
{
    close_file(&tape->calls, &tape->whole);
    close_file(&tape->answers, &tape->whole);
    return make_part(tape, tape->part + 1);
}

int tape_commit(struct tape *tape)
{
    if (!tape->recording) {
        return tape->whole || !tape->options.stop_when_full || tape->options.name == NULL;
    }
    if (tape->recorder.calls.used + tape->who.used == 0) {
        return 1;
    }
    if (!put_all(&tape->calls, tape->calls.bytes, tape->recorder.calls.used) ||
        !put_all(&tape->answers, tape->answers.bytes, tape->recorder.answers.used) ||
        !put_all(&tape->who, tape->who.bytes, tape->who.used)) {
        end_early(tape, strerror(errno));
        return !tape->options.stop_when_full;
    }
    tape->calls.written += tape->recorder.calls.used;
    tape->answers.written += tape->recorder.answers.used;
    tape->who.written += tape->who.used;
    tape->recorder.calls.used = tape->recorder.answers.used = tape->who.used = 0;
    const uint64_t bytes = tape->calls.written + tape->answers.written;
    if (tape->options.part_bytes > 0 && bytes >= tape->options.part_bytes && !next_part(tape)) {
        end_early(tape, strerror(errno));
        return !tape->options.stop_when_full;
    }
    return 1;
}

int tape_close(struct tape *tape)
{
    tape_commit(tape);
    if (tape->options.name == NULL) {
        return 1;
    }
    close_file(&tape->calls, &tape->whole);
    close_file(&tape->answers, &tape->whole);
    close_file(&tape->who, &tape->whole);
    tape->recording = 0;
    return tape->whole || failed(tape->name, "the tape is not whole");
}

int tape_next(struct tape *tape)
{
    const int went_on = tape_commit(tape);
    if (!tape->recording) {
        return went_on;
    }
    tape_close(tape);
    return make_tape(tape) || !tape->options.stop_when_full;
}

/* ---- recording */

/* Room for a record of any length, and for a line. */
static int has_room(struct tape *tape)
{
    const size_t most = LESUNGKAP_TAPE_HEADER_BYTES + LESUNGKAP_TAPE_MOST_BODY;
    return tape->recorder.calls.used + most <= TAPE_BUFFER &&
           tape->recorder.answers.used + most <= TAPE_BUFFER &&
           tape->who.used + TAPE_LINE_MOST <= TAPE_BUFFER;
}

void tape_record(struct tape *tape, unsigned kind, uint32_t number, const uint8_t *body,
                 size_t length, uint32_t result, const uint8_t *written, size_t written_len)
{
    if (tape->recording && !has_room(tape)) {
        tape_commit(tape);
    }
    if (tape->recording) {
        lesungkap_record(&tape->recorder, kind, number, body, length, result, written, written_len);
    }
}

uint64_t tape_records(const struct tape *tape)
{
    return tape->recorder.recorded;
}

void tape_who(struct tape *tape, uint64_t record, const char *operator_name, uint64_t client,
              const char *format, ...)
{
    struct timespec now;
    struct tm parts;
    va_list values;
    if (!tape->recording || (!has_room(tape) && !tape_commit(tape)) || !tape->recording) {
        return;
    }
    clock_gettime(CLOCK_REALTIME, &now);
    gmtime_r(&now.tv_sec, &parts);
    char *line = (char *)tape->who.bytes + tape->who.used;
    size_t length = (size_t)snprintf(line, TAPE_LINE_MOST, "%" PRIu64 " ", record);
    length += strftime(line + length, TAPE_LINE_MOST - length, "%Y-%m-%dT%H:%M:%S", &parts);
    length += (size_t)snprintf(line + length, TAPE_LINE_MOST - length, ".%06ldZ %s %" PRIu64 " ",
                               now.tv_nsec / 1000, operator_name, client);
    va_start(values, format);
    length += (size_t)vsnprintf(line + length, TAPE_LINE_MOST - length, format, values);
    va_end(values);
    length = length < TAPE_LINE_MOST ? length : TAPE_LINE_MOST - 1;
    line[length++] = '\n';
    tape->who.used += length;
}
