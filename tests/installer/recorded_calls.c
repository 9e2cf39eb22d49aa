/* Reports the calls of an installer to recording.py, which can let each of them fail. Linked with the sources of the
   installer, with the linker option --wrap=NAME for each function NAME that is defined here as __wrap_NAME. recording.py
   has the names.

   The environment variable RECORDER is the descriptor of a socket. Before each call of the installer's machine (a
   `minisign_installation`), and before each system call, the run sends a request and waits for the reply, so that the test
   can inspect the files between two calls. The run also sends notes, to which there is no reply. Without RECORDER, the calls
   are made as usual.

   A request or note is a line `KIND NAME A B LENGTH`, followed by LENGTH bytes. The requests:

     call NAME NUMBER DUE          a call of the machine, the number that is passed to it, and the operation that is due
     system NAME INODE 0           a system call on the file with this inode; the bytes are the name of the file

   The notes:

     part NAME 0 0                 before a call of the machine: a parameter, whose value is the bytes
     due - DUE ERROR               after a call of the machine: the operation that is now due, and the result of the call
     end NAME RESULT INODE         after some system calls: the result or -errno, and the inode of the file

   A reply has two numbers of 64 bits. The first is 0 to make the call, an errno with which it fails, or SHORT to read or
   write only half of the bytes. The second is the time if the call reads the clock, otherwise 1 if the call is made before
   it fails. */
#define _GNU_SOURCE
#include <dirent.h>
#include <errno.h>
#include <fcntl.h>
#include <stdarg.h>
#include <stdio.h>
#include <stdlib.h>
#include <string.h>
#include <sys/file.h>
#include <sys/random.h>
#include <sys/stat.h>
#include <sys/xattr.h>
#include <time.h>
#include <unistd.h>

#include "minisign_install.h"

#define SHORT (-1)

ssize_t __real_read(int fd, void *bytes, size_t size);
ssize_t __real_write(int fd, const void *bytes, size_t size);
int __real_fstat(int fd, struct stat *status);

/* ---- Messages ---- */

/* Returns the descriptor of the socket, or -1. */
static int recorder(void)
{
    const char *text = getenv("RECORDER");

    return text == NULL ? -1 : atoi(text);
}

static void send_bytes(int to, const void *bytes, size_t len)
{
    const char *at = bytes;

    while (len > 0) {
        ssize_t n = __real_write(to, at, len);

        if (n > 0) {
            at += n;
            len -= (size_t) n;
        } else if (errno != EINTR) {
            abort();
        }
    }
}

static void send_message(const char *kind, const char *name, long long a, unsigned long long b, const void *bytes,
                         size_t len)
{
    char line[200];
    int to = recorder(), saved = errno;
    int n = snprintf(line, sizeof line, "%s %s %lld %llu %zu\n", kind, name, a, b, len);

    if (to >= 0 && n > 0) {
        send_bytes(to, line, (size_t) n);
        send_bytes(to, bytes, len);
    }
    errno = saved;
}

/* Waits for a reply. Returns its first number. */
static int64_t wait_for_reply(int64_t *value)
{
    int64_t reply[2] = { 0 };
    size_t len = 0;
    int from = recorder(), saved = errno;

    while (from >= 0 && len < sizeof reply) {
        ssize_t n = __real_read(from, (char *) reply + len, sizeof reply - len);

        if (n == 0 || (n < 0 && errno != EINTR)) {
            abort();
        }
        len += n > 0 ? (size_t) n : 0;
    }
    errno = saved;
    *value = reply[1];
    return reply[0];
}

static unsigned long long inode_of(int fd)
{
    struct stat status;
    int saved = errno, is_file = fd >= 0 && __real_fstat(fd, &status) == 0;

    errno = saved;
    return is_file ? (unsigned long long) status.st_ino : 0;
}

/* Sends the request for a system call. Returns the reply: 0, an errno, or SHORT, and the second number in *value. */
static int64_t request_system_call(const char *name, int fd, const char *path, int64_t *value)
{
    const char *slash = path == NULL ? NULL : strrchr(path, '/');
    const char *last = slash == NULL ? path : slash + 1;

    send_message("system", name, (long long) inode_of(fd), 0, last, last == NULL ? 0 : strlen(last));
    return wait_for_reply(value);
}

/* A failure to simulate: the errno, or 0 if the call must not fail; and true if the call is made before it fails. */
struct failure {
    int error;
    int is_executed;
};

static struct failure failure_of(const char *name, int fd, const char *path)
{
    int64_t value, error = request_system_call(name, fd, path, &value);

    return (struct failure) { error > 0 ? (int) error : 0, error > 0 && value == 1 };
}

/* Evaluates to the result of a call, or to `none` with errno set if the call has to fail. */
#define CALL_OR_FAIL(type, none, failure, ...)                                                                             \
    __extension__({                                                                                                        \
        type made = failure.error == 0 || failure.is_executed ? __VA_ARGS__ : none;                                        \
                                                                                                                           \
        errno = failure.error > 0 ? failure.error : errno;                                                                 \
        failure.error > 0 ? none : made;                                                                                   \
    })

/* Sends the note `end`, and returns the result. */
static int note_result(const char *name, int result, int fd, const char *path)
{
    send_message("end", name, result < 0 ? -errno : result, inode_of(fd), path, path == NULL ? 0 : strlen(path));
    return result;
}

/* ---- Calls of the machine ---- */

/* Sends the request for a call of the machine, and waits for the reply. */
static void report(const minisign_installation *installation, const char *name, long long number, const void *bytes, size_t len)
{
    int64_t value;

    send_message("call", name, number, minisign_install_due(installation), bytes, len);
    wait_for_reply(&value);
}

/* Sends the note `due`, and returns the error. */
static enum minisign_error note_due(const minisign_installation *installation, enum minisign_error error)
{
    send_message("due", "-", (long long) minisign_install_due(installation), error, NULL, 0);
    return error;
}

#define REPORTS(name, parameters, arguments, number, bytes, len)                                                           \
    enum minisign_error __real_minisign_install_##name parameters;                                                         \
    enum minisign_error __wrap_minisign_install_##name parameters;                                                         \
    enum minisign_error __wrap_minisign_install_##name parameters                                                          \
    {                                                                                                                      \
        report(installation, #name, number, bytes, len);                                                                   \
        return note_due(installation, __real_minisign_install_##name arguments);                                           \
    }

REPORTS(done, (minisign_installation *installation), (installation), 0, NULL, 0)
REPORTS(copied, (minisign_installation *installation, size_t len), (installation, len), (long long) len, NULL, 0)
REPORTS(failed, (minisign_installation *installation, enum minisign_error why), (installation, why), why, NULL, 0)
REPORTS(record, (minisign_installation *installation, const uint8_t *bytes, size_t len), (installation, bytes, len), 0, bytes, len)
REPORTS(no_record, (minisign_installation *installation), (installation), 0, NULL, 0)
REPORTS(piece, (minisign_installation *installation, const uint8_t *bytes, size_t len), (installation, bytes, len), 0, bytes, len)
REPORTS(no_target, (minisign_installation *installation), (installation), 0, NULL, 0)
REPORTS(answer, (minisign_installation *installation, enum minisign_answer answer), (installation, answer), answer, NULL, 0)

enum minisign_error __real_minisign_install_signature(
    minisign_installation *installation, const uint8_t *text, size_t len, const uint8_t *file, size_t file_len, int64_t now,
    uint8_t *message, size_t room, size_t *message_len);
enum minisign_error __wrap_minisign_install_signature(
    minisign_installation *installation, const uint8_t *text, size_t len, const uint8_t *file, size_t file_len, int64_t now,
    uint8_t *message, size_t room, size_t *message_len);
enum minisign_error __wrap_minisign_install_signature(
    minisign_installation *installation, const uint8_t *text, size_t len, const uint8_t *file, size_t file_len, int64_t now,
    uint8_t *message, size_t room, size_t *message_len)
{
    send_message("part", "name", 0, 0, file, file_len);
    report(installation, "signature", now, text, len);
    return note_due(installation, __real_minisign_install_signature(installation, text, len, file, file_len, now, message, room,
                                                                 message_len));
}

enum minisign_error __real_minisign_install_init(
    minisign_installation *installation, const minisign_public_key *key, const minisign_public_key *other,
    const minisign_install_options *options);
enum minisign_error __wrap_minisign_install_init(
    minisign_installation *installation, const minisign_public_key *key, const minisign_public_key *other,
    const minisign_install_options *options);
enum minisign_error __wrap_minisign_install_init(
    minisign_installation *installation, const minisign_public_key *key, const minisign_public_key *other,
    const minisign_install_options *options)
{
    enum minisign_error error = __real_minisign_install_init(installation, key, other, options);

    send_message("part", "key", 0, 0, key->key_id, sizeof key->key_id);
    send_message("part", "key", 0, 0, key->key, sizeof key->key);
    send_message("part", "other", 0, 0, other->key_id, sizeof other->key_id);
    send_message("part", "other", 0, 0, other->key, sizeof other->key);
    report(installation, "init", 0, options, sizeof *options);
    return note_due(installation, error);
}

/* ---- System calls ---- */

#define MODE_ARGUMENT(flags)                                                                                               \
    __extension__({                                                                                                        \
        va_list more;                                                                                                      \
        mode_t passed;                                                                                                     \
                                                                                                                           \
        va_start(more, flags);                                                                                             \
        passed = (flags) & O_CREAT ? va_arg(more, mode_t) : 0;                                                             \
        va_end(more);                                                                                                      \
        passed;                                                                                                            \
    })

#define OPENS(name, parameters, ...)                                                                                       \
    int __real_##name parameters;                                                                                          \
    int __wrap_##name parameters;                                                                                          \
    int __wrap_##name parameters                                                                                           \
    {                                                                                                                      \
        mode_t mode = MODE_ARGUMENT(flags);                                                                                \
        struct failure failure = failure_of(#name, -1, path);                                                              \
        int fd = CALL_OR_FAIL(int, -1, failure, __real_##name(__VA_ARGS__, mode));                                         \
                                                                                                                           \
        return note_result(#name, fd, fd, path);                                                                           \
    }

OPENS(open, (const char *path, int flags, ...), path, flags)
OPENS(openat, (int directory, const char *path, int flags, ...), directory, path, flags)

#define FAILS(type, none, name, fd, path, parameters, arguments)                                                           \
    type __real_##name parameters;                                                                                         \
    type __wrap_##name parameters;                                                                                         \
    type __wrap_##name parameters                                                                                          \
    {                                                                                                                      \
        struct failure failure = failure_of(#name, fd, path);                                                              \
                                                                                                                           \
        return CALL_OR_FAIL(type, none, failure, __real_##name arguments);                                                 \
    }

FAILS(int, -1, fstat, fd, NULL, (int fd, struct stat *status), (fd, status))
FAILS(int, -1, fstatat, -1, path, (int directory, const char *path, struct stat *status, int flags),
      (directory, path, status, flags))
FAILS(int, -1, stat, -1, path, (const char *path, struct stat *status), (path, status))
FAILS(int, -1, statx, -1, path, (int directory, const char *path, int flags, unsigned mask, struct statx *status),
      (directory, path, flags, mask, status))
FAILS(int, -1, fchmod, fd, NULL, (int fd, mode_t mode), (fd, mode))
FAILS(int, -1, fchown, fd, NULL, (int fd, uid_t owner, gid_t group), (fd, owner, group))
FAILS(int, -1, renameat, -1, to, (int from_directory, const char *from, int to_directory, const char *to),
      (from_directory, from, to_directory, to))
FAILS(int, -1, unlinkat, -1, path, (int directory, const char *path, int flags), (directory, path, flags))
FAILS(off_t, -1, lseek, fd, NULL, (int fd, off_t at, int from), (fd, at, from))
FAILS(ssize_t, -1, getrandom, -1, NULL, (void *bytes, size_t size, unsigned flags), (bytes, size, flags))
FAILS(ssize_t, -1, getxattr, -1, path, (const char *path, const char *name, void *bytes, size_t size), (path, name, bytes, size))
FAILS(ssize_t, -1, fgetxattr, fd, NULL, (int fd, const char *name, void *bytes, size_t size), (fd, name, bytes, size))
FAILS(int, -1, fsetxattr, fd, NULL, (int fd, const char *name, const void *bytes, size_t size, int flags),
      (fd, name, bytes, size, flags))
FAILS(int, -1, fremovexattr, fd, NULL, (int fd, const char *name), (fd, name))
FAILS(struct dirent *, NULL, readdir, -1, NULL, (DIR *entries), (entries))

/* Calls whose results are sent to recording.py. */
#define NOTES(name, fd, parameters, arguments)                                                                             \
    int __real_##name parameters;                                                                                          \
    int __wrap_##name parameters;                                                                                          \
    int __wrap_##name parameters                                                                                           \
    {                                                                                                                      \
        struct failure failure = failure_of(#name, fd, NULL);                                                              \
                                                                                                                           \
        return note_result(#name, CALL_OR_FAIL(int, -1, failure, __real_##name arguments), fd, NULL);                      \
    }

NOTES(fsync, fd, (int fd), (fd))
NOTES(flock, fd, (int fd, int operation), (fd, operation))

/* Wraps a call that can be made to handle only half of the bytes. */
#define HALVES(name, parameters, ...)                                                                                      \
    ssize_t __real_##name parameters;                                                                                      \
    ssize_t __wrap_##name parameters;                                                                                      \
    ssize_t __wrap_##name parameters                                                                                       \
    {                                                                                                                      \
        int64_t value, error = request_system_call(#name, fd, NULL, &value);                                               \
        struct failure failure = { error > 0 ? (int) error : 0, error > 0 && value == 1 };                                 \
                                                                                                                           \
        size = error == SHORT ? (size + 1) / 2 : size;                                                                     \
        return CALL_OR_FAIL(ssize_t, -1, failure, __real_##name(__VA_ARGS__));                                             \
    }

HALVES(read, (int fd, void *bytes, size_t size), fd, bytes, size)
HALVES(write, (int fd, const void *bytes, size_t size), fd, bytes, size)
HALVES(pread, (int fd, void *bytes, size_t size, off_t at), fd, bytes, size, at)

/* Closes the descriptor even if the call fails, as Linux does. */
int __real_close(int fd);
int __wrap_close(int fd);
int __wrap_close(int fd)
{
    struct failure failure = failure_of("close", fd, NULL);

    failure.is_executed = 1;
    return CALL_OR_FAIL(int, -1, failure, __real_close(fd));
}

/* The clock shows the time of the reply. */
int __real_clock_gettime(clockid_t clock, struct timespec *found);
int __wrap_clock_gettime(clockid_t clock, struct timespec *found);
int __wrap_clock_gettime(clockid_t clock, struct timespec *found)
{
    int64_t value, error;

    if (clock != CLOCK_REALTIME || recorder() < 0) {
        return __real_clock_gettime(clock, found);
    }
    error = request_system_call("clock_gettime", -1, NULL, &value);
    if (error > 0) {
        errno = (int) error;
        return -1;
    }
    *found = (struct timespec) { .tv_sec = (time_t) value };
    return 0;
}

/* Does not wait, because the test decides when the run continues. */
int __real_nanosleep(const struct timespec *pause, struct timespec *rest);
int __wrap_nanosleep(const struct timespec *pause, struct timespec *rest);
int __wrap_nanosleep(const struct timespec *pause, struct timespec *rest)
{
    struct failure failure = failure_of("nanosleep", -1, NULL);

    return recorder() < 0 ? __real_nanosleep(pause, rest) : CALL_OR_FAIL(int, -1, failure, 0);
}
