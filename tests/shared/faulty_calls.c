/* A library for LD_PRELOAD that reports, breaks and delays the system calls of a program. Environment variables control it.

   Reporting and changing calls:
     TRACE_TO=FD     For each call that opens, writes, reads back, locks, syncs, renames or removes a file, write a line
                     to this file descriptor: the name of the call and the last part of the file's path.
     LEAVE_OUT=STEP  Omit a step, or do it wrongly, but return success. STEP is `sync` (fsync of files), `directory` (fsync of
                     directories), `new` (O_EXCL), `mode` (create files that everybody may read), `permissions` (fchmod), `owner`
                     (fchown), `lock` (flock), `rename`, or `digit` (write a version record without its last byte).
     SLOW=MAX        Wait for a random time of at most MAX microseconds before each of these calls.

   Breaking the Nth call. Calls are counted only if BREAK_AT is set:
     BREAK_CALLS     The names of the calls that are counted, separated by spaces. By default, all calls that this library replaces
                     are counted, except the following, which are counted only if they are named: calls that only inspect files,
                     getrandom, chdir, lseek, pthread_create, `memory` (allocations), `sodium_init` and
                     `crypto_sign_detached`, which then makes a signature that is not valid.
                     A `write` is counted only if it is to a regular file that the program itself has opened.
     BREAK_AT=N      Break call number N, counted from 1. Unless BREAK_SIGNAL, BREAK_ERRNO or BREAK_SHORT is set, the program is
                     killed before the call.
     BREAK_SIGNAL    Send this signal instead of SIGKILL, and then wait for ever unless BREAK_CONTINUE is set.
     BREAK_ERRNO     Make the call fail with this errno.
     BREAK_SHORT     Make a write accept only half of its bytes, and the next write fail. Make a read return at most two bytes.
     BREAK_CONTINUE  After the signal, make the call; this is for signals such as SIGSTOP. After a short write, let the next write
                     succeed.
     BREAK_REST      Break all later calls too.
     BREAK_REPORT_TO=FD
                     When the program makes a call that is broken, write a byte to this file descriptor.

   Changing what the program sees:
     BREAK_UNNAMED   Make O_TMPFILE fail with EOPNOTSUPP, as on file systems that do not support it.
     ZERO_RANDOM     Make getentropy return zeros.
     RANDOM_BYTES=N  Make /dev/urandom contain N bytes, which count up from 0.
     SHOWN_TIME      The time that the clock shows, in seconds since 1970.

   If the macro ONLY_IN is defined as the name of a library, only calls that come from this library are changed. This does not
   apply to allocations, so `memory` must not be named then. */
#include "preload.h"

#include <dirent.h>
#include <pthread.h>
#include <signal.h>
#include <sys/file.h>
#include <sys/random.h>
#include <sys/xattr.h>
#include <time.h>

/* True if the current call comes from another library than ONLY_IN, so that it must not be changed. */
#ifdef ONLY_IN
static __thread int is_foreign;

static void note_caller(const void *caller)
{
    Dl_info library;

    is_foreign = dladdr(caller, &library) == 0 || strstr(library.dli_fname, ONLY_IN) == NULL;
}

#define NOTE_CALLER note_caller(__builtin_return_address(0))
#else
enum { is_foreign };
#define NOTE_CALLER (void)is_foreign
#endif

/* == Breaking calls == */

static long calls;

static int is_named(const char *name)
{
    const char *names = getenv("BREAK_CALLS");
    size_t length = strlen(name);
    const char *at;

    if (!names || !*names)
        return 1;
    for (at = names; (at = strstr(at, name)) != NULL; at += length)
        if ((at == names || at[-1] == ' ') && (at[length] == ' ' || at[length] == 0))
            return 1;
    return 0;
}

/* Counts a call. Returns true if the call must fail, and then sets errno. May send a signal instead. */
static int is_broken(const char *name)
{
    const char *at = getenv("BREAK_AT");
    const char *report_fd = getenv("BREAK_REPORT_TO");
    const char *number = getenv("BREAK_ERRNO");

    if (!at || is_foreign || !is_named(name))
        return 0;
    calls += 1;
    if (calls < atol(at) || (calls > atol(at) && !getenv("BREAK_REST")))
        return 0;
    if (report_fd && REAL(write)(atoi(report_fd), "x", 1) != 1)
        return 0;
    if (!number && !getenv("BREAK_SHORT")) {
        /* raise() signals the calling thread, so with SIGSTOP this thread stops before it makes the call. */
        raise(getenv("BREAK_SIGNAL") ? atoi(getenv("BREAK_SIGNAL")) : SIGKILL);
        if (getenv("BREAK_CONTINUE"))
            return 0;
        pause();
    }
    errno = number ? atoi(number) : EIO;
    return 1;
}

static int is_opened_file(int fd)
{
    struct stat status;

    return fd > 2 && REAL(fstat)(fd, &status) == 0 && S_ISREG(status.st_mode);
}

/* Like is_broken, for calls that are counted only if BREAK_CALLS names them. */
static int is_broken_if_named(const char *name)
{
    return getenv("BREAK_CALLS") && is_broken(name);
}

/* == Reporting and changing calls == */

/* Returns true if LEAVE_OUT names this step. */
static int names_step(const char *step)
{
    const char *left_out = getenv("LEAVE_OUT");

    return !is_foreign && left_out && strcmp(left_out, step) == 0;
}

/* Waits for a pseudorandom time of at most SLOW. The times differ between calls and between processes. */
static void wait_first(void)
{
    static unsigned long seed;
    const char *max_wait = getenv("SLOW");

    if (!max_wait || is_foreign)
        return;
    seed = (seed ? seed : (unsigned long)getpid()) * 6364136223846793005ul + 1442695040888963407ul;
    usleep((useconds_t)((seed >> 33) % (unsigned long)(atol(max_wait) + 1)));
}

static const char *last_component(const char *path)
{
    const char *slash = strrchr(path, '/');

    return slash ? slash + 1 : path;
}

/* Returns the last component of the path of a regular file, "." for a directory, and NULL for everything else. */
static const char *name_of(int fd, char *path, size_t size)
{
    char link[64];
    struct stat status;
    ssize_t length;

    if (REAL(fstat)(fd, &status) != 0 || !(S_ISREG(status.st_mode) || S_ISDIR(status.st_mode)))
        return NULL;
    snprintf(link, sizeof link, "/proc/self/fd/%d", fd);
    length = REAL(readlink)(link, path, size - 1);
    if (length < 0)
        return NULL;
    path[length] = 0;
    return S_ISDIR(status.st_mode) ? "." : last_component(path);
}

/* Writes a line about a call to TRACE_TO. `details` may be empty. */
static void report(const char *call, const char *name, const char *details)
{
    const char *fd = getenv("TRACE_TO");
    char line[600];
    int length = snprintf(line, sizeof line, "%s %s%s%s\n", call, name, *details ? " " : "", details);

    if (fd && !is_foreign && length > 0 && REAL(write)(atoi(fd), line, (size_t)length) < 0)
        abort();
}

/* == Calls that are reported and can be broken == */

/* Returns the read end of a pipe that contains `length` bytes, at most 256, which count up from 0. */
static int open_counting_bytes(size_t length)
{
    unsigned char bytes[256];
    int ends[2];

    for (size_t at = 0; at < sizeof bytes; at++)
        bytes[at] = (unsigned char)at;
    if (pipe2(ends, O_CLOEXEC) != 0 || REAL(write)(ends[1], bytes, length) != (ssize_t)length)
        return -1;
    close(ends[1]);
    return ends[0];
}

static int open_in(const char *call, int directory, const char *path, int flags, mode_t mode)
{
    char more[32] = "";
    int fd;

    if (getenv("RANDOM_BYTES") && strcmp(path, "/dev/urandom") == 0)
        return open_counting_bytes((size_t)atoi(getenv("RANDOM_BYTES")));
    wait_first();
    if ((flags & O_TMPFILE) == O_TMPFILE && getenv("BREAK_UNNAMED")) {
        errno = EOPNOTSUPP;
        return -1;
    }
    if (is_broken(call))
        return -1;
    if (names_step("new"))
        flags &= ~O_EXCL;
    if (names_step("mode") && flags & O_CREAT)
        mode |= 0044;
    fd = REAL(openat)(directory, path, flags, mode);
    if (fd < 0)
        return fd;
    if (flags & O_CREAT)
        snprintf(more, sizeof more, "%s %o", flags & O_EXCL ? "new" : "perhaps-new", (unsigned)mode);
    report(flags & O_CREAT ? "make" : "open", flags & O_DIRECTORY || strcmp(path, ".") == 0 ? "." : last_component(path), more);
    return fd;
}

#define OPENS(name, call, directory, mode, parameters)                                    \
    int name parameters                                                                   \
    {                                                                                     \
        NOTE_CALLER;                                                                      \
        return open_in(call, directory, path, flags, mode);                               \
    }

OPENS(open, "open", AT_FDCWD, MODE_ARGUMENT(flags), (const char *path, int flags, ...))
OPENS(openat, "openat", directory, MODE_ARGUMENT(flags), (int directory, const char *path, int flags, ...))
/* Programs that are compiled with _FORTIFY_SOURCE call these two. */
OPENS(__open_2, "open", AT_FDCWD, 0, (const char *path, int flags))
OPENS(__openat_2, "openat", directory, 0, (int directory, const char *path, int flags))

/* Returns true if the bytes are a version record: the label of a version field, a number, and two lines of hexadecimal digits. */
static int is_record(const char *bytes, size_t length)
{
    const char *labels[] = {"timestamp:", "version:"};
    size_t i;

    for (i = 0; i < 2; i++)
        if (length > 194 && length < 256 && memcmp(bytes, labels[i], strlen(labels[i])) == 0)
            return strspn(bytes + strlen(labels[i]), "0123456789abcdef\n") >= length - strlen(labels[i]);
    return 0;
}

/* Writes the bytes. If the call must be broken, writes half of them, or fails. */
static ssize_t write_or_break(int fd, const void *bytes, size_t length)
{
    static int fails_next;

    if (is_opened_file(fd) && (fails_next || is_broken("write"))) {
        if (getenv("BREAK_SHORT") && !fails_next && length > 1) {
            fails_next = !getenv("BREAK_CONTINUE");
            return REAL(write)(fd, bytes, length / 2);
        }
        errno = getenv("BREAK_ERRNO") ? atoi(getenv("BREAK_ERRNO")) : EIO;
        return -1;
    }
    return REAL(write)(fd, bytes, length);
}

ssize_t write(int fd, const void *bytes, size_t length)
{
    NOTE_CALLER;
    char path[4096];
    const char *name = fd > 2 ? name_of(fd, path, sizeof path) : NULL;
    int is_shortened = name && names_step("digit") && is_record(bytes, length);
    ssize_t n;

    if (name)
        wait_first();
    n = write_or_break(fd, bytes, is_shortened ? length - 1 : length);
    if (name && n >= 0)
        report("write", name, "");
    return is_shortened && n >= 0 ? (ssize_t)length : n;
}

int fsync(int fd)
{
    NOTE_CALLER;
    char path[4096];
    const char *name = name_of(fd, path, sizeof path);

    if (name && names_step(strcmp(name, ".") == 0 ? "directory" : "sync"))
        return 0;
    wait_first();
    if (name)
        report("sync", name, "");
    return is_broken("fsync") ? -1 : REAL(fsync)(fd);
}

/* A rename is reported only if it succeeds. A rename that LEAVE_OUT omits is not reported. */
#define RENAMES(name, parameters, arguments)                                              \
    int name parameters                                                                   \
    {                                                                                     \
        int result;                                                                       \
                                                                                          \
        NOTE_CALLER;                                                                      \
        wait_first();                                                                     \
        result = names_step("rename") ? 1 : is_broken(#name) ? -1 : REAL(name) arguments; \
        if (result == 0)                                                                  \
            report("rename", last_component(from), last_component(to));                   \
        return result < 0 ? result : 0;                                                   \
    }

RENAMES(rename, (const char *from, const char *to), (from, to))
RENAMES(renameat, (int from_directory, const char *from, int to_directory, const char *to),
        (from_directory, from, to_directory, to))

/* Reports a call on a file descriptor. */
static void report_on_fd(int fd, const char *call, const char *details)
{
    char path[4096];
    const char *name = name_of(fd, path, sizeof path);

    report(call, name ? name : "?", details);
}

/* Returns true if LEAVE_OUT names this step. Otherwise reports the call, which the caller then makes. */
static int is_left_out(int fd, const char *step, const char *call, const char *details)
{
    if (!names_step(step))
        report_on_fd(fd, call, details);
    return names_step(step);
}

int fchmod(int fd, mode_t mode)
{
    NOTE_CALLER;
    char more[16];

    snprintf(more, sizeof more, "%o", (unsigned)mode);
    return is_left_out(fd, "permissions", "permissions", more) ? 0 : is_broken("fchmod") ? -1 : REAL(fchmod)(fd, mode);
}

/* Defines a replacement for the function `name`, which returns `type`. It runs the statement `first`, and then fails with -1
   if the function `broken` returns true. Otherwise it calls the replaced function. */
#define BREAKS_AFTER(first, broken, type, name, parameters, arguments)                    \
    type name parameters                                                                  \
    {                                                                                     \
        NOTE_CALLER;                                                                      \
        first;                                                                            \
        return broken(#name) ? (type)-1 : REAL(name) arguments;                           \
    }

#define REPORTS(first, type, name, parameters, arguments) BREAKS_AFTER(first, is_broken, type, name, parameters, arguments)

REPORTS(wait_first(); report_on_fd(fd, "read-back", ""), ssize_t, pread, (int fd, void *bytes, size_t length, off_t at),
      (fd, bytes, length, at))
REPORTS(wait_first(); if (is_left_out(fd, "lock", "lock", "")) return 0, int, flock, (int fd, int operation),
        (fd, operation))
REPORTS(if (is_left_out(fd, "owner", "owner", "")) return 0, int, fchown, (int fd, uid_t owner, gid_t group),
        (fd, owner, group))
REPORTS(report("remove", last_component(path), ""), int, unlink, (const char *path), (path))
REPORTS(report("remove", last_component(path), ""), int, unlinkat, (int directory, const char *path, int flags),
        (directory, path, flags))

/* == Calls that can be broken, but are not reported == */

ssize_t read(int fd, void *bytes, size_t length)
{
    NOTE_CALLER;
    if (!is_broken("read"))
        return REAL(read)(fd, bytes, length);
    return getenv("BREAK_SHORT") ? REAL(read)(fd, bytes, length < 2 ? length : 2) : -1;
}

time_t time(time_t *result)
{
    NOTE_CALLER;
    /* time() returns one second less than clock_gettime(): since Linux 6.13 it may be behind the clock at the start of a second. */
    time_t shown = getenv("SHOWN_TIME") ? atol(getenv("SHOWN_TIME")) - 1 : REAL(time)(NULL);

    if (result)
        *result = shown;
    return shown;
}

int clock_gettime(clockid_t clock, struct timespec *result)
{
    if (clock != CLOCK_REALTIME || !getenv("SHOWN_TIME"))
        return REAL(clock_gettime)(clock, result);
    *result = (struct timespec){.tv_sec = atol(getenv("SHOWN_TIME"))};
    return 0;
}

/* Closes the file descriptor even if the call is broken: on Linux, close() does so even if it fails. */
int close(int fd)
{
    NOTE_CALLER;
    int broken = is_broken("close"), number = errno, result = REAL(close)(fd);

    if (broken)
        errno = number;
    return broken ? -1 : result;
}

int getentropy(void *bytes, size_t length)
{
    NOTE_CALLER;
    if (is_broken("getentropy"))
        return -1;
    return getenv("ZERO_RANDOM") ? (memset(bytes, 0, length), 0) : REAL(getentropy)(bytes, length);
}

/* Defines a replacement for an allocation function. ONLY_IN does not apply to it. */
#define ALLOCATES(name, parameters, arguments)                                              \
    void *name parameters                                                                 \
    {                                                                                     \
        static __typeof__(name) *real;                                                    \
                                                                                          \
        real = real ? real : REAL(name);                                                  \
        return is_broken_if_named("memory") ? NULL : real arguments;                      \
    }

ALLOCATES(malloc, (size_t size), (size))
ALLOCATES(realloc, (void *old, size_t size), (old, size))

/* Only programs that are linked with libsodium call this function and the next one. */
int sodium_init(void)
{
    NOTE_CALLER;
    return is_broken_if_named("sodium_init") ? -1 : REAL(sodium_init)();
}

int crypto_sign_detached(unsigned char *signature, unsigned long long *signature_length, const unsigned char *message,
                         unsigned long long length, const unsigned char *secret)
{
    NOTE_CALLER;
    int result = REAL(crypto_sign_detached)(signature, signature_length, message, length, secret);

    signature[0] ^= (unsigned char)is_broken_if_named("crypto_sign_detached");
    return result;
}

struct dirent *readdir(DIR *entries)
{
    NOTE_CALLER;
    return is_broken_if_named("readdir") ? NULL : REAL(readdir)(entries);
}

#define BREAKS(type, name, parameters, arguments) BREAKS_AFTER(, is_broken, type, name, parameters, arguments)
#define BREAKS_IF_NAMED(type, name, parameters, arguments) BREAKS_AFTER(, is_broken_if_named, type, name, parameters, arguments)

BREAKS(int, renameat2, (int from_directory, const char *from, int to_directory, const char *to, unsigned flags),
       (from_directory, from, to_directory, to, flags))
BREAKS(int, linkat, (int from_directory, const char *from, int to_directory, const char *to, int flags),
       (from_directory, from, to_directory, to, flags))
BREAKS(ssize_t, getdents64, (int fd, void *bytes, size_t length), (fd, bytes, length))
BREAKS(ssize_t, readlink, (const char *path, char *bytes, size_t length), (path, bytes, length))
BREAKS(int, statx, (int fd, const char *path, int flags, unsigned mask, struct statx *found),
       (fd, path, flags, mask, found))
BREAKS_IF_NAMED(int, chdir, (const char *path), (path))
BREAKS_IF_NAMED(off_t, lseek, (int fd, off_t at, int from), (fd, at, from))
BREAKS_IF_NAMED(int, pthread_create, (pthread_t *thread, const pthread_attr_t *attributes, void *(*run)(void *), void *given),
                (thread, attributes, run, given))
BREAKS_IF_NAMED(int, fstat, (int fd, struct stat *found), (fd, found))
BREAKS_IF_NAMED(int, fstatat, (int directory, const char *path, struct stat *found, int flags),
                (directory, path, found, flags))
BREAKS_IF_NAMED(ssize_t, getrandom, (void *bytes, size_t length, unsigned flags), (bytes, length, flags))
BREAKS_IF_NAMED(ssize_t, getxattr, (const char *path, const char *name, void *bytes, size_t length),
                (path, name, bytes, length))
BREAKS_IF_NAMED(ssize_t, fgetxattr, (int fd, const char *name, void *bytes, size_t length), (fd, name, bytes, length))
BREAKS_IF_NAMED(int, fsetxattr, (int fd, const char *name, const void *bytes, size_t length, int flags),
                (fd, name, bytes, length, flags))
BREAKS_IF_NAMED(int, fremovexattr, (int fd, const char *name), (fd, name))
