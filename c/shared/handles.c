/* SPDX-License-Identifier: MIT */
/* Inspects files without opening them (with O_PATH and /proc on Linux, with fstatat elsewhere), and opens only those that
 * are safe to open. */
#define _GNU_SOURCE

#include "handles.h"

#include <poll.h>

/* The magic numbers of procfs and of pipefs, the file system of anonymous pipes (linux/magic.h). */
#define PROC_MAGIC 0x9fa0
#define PIPE_MAGIC 0x50495045

/* The interval, in milliseconds, at which a pipe is checked for a reader. */
#define PIPE_POLL_MS 20

bool is_same_file(const struct stat *first, const struct stat *second)
{
    return first->st_dev == second->st_dev && first->st_ino == second->st_ino;
}

void close_if_open(int *fd)
{
    int saved_errno = errno;

    if (*fd >= 0) {
        close(*fd);
        *fd = -1;
    }
    errno = saved_errno;
}

/* ---- Calls that only Linux has, and what replaces them elsewhere ---- */

#if defined __linux__ && !defined POSIX_ONLY

#include <sys/statvfs.h>
#include <sys/vfs.h>

/* The flag of a mount with nosymfollow. Older C libraries do not define it. */
#ifndef ST_NOSYMFOLLOW
#define ST_NOSYMFOLLOW 8192
#endif

#define LOOKUP_FLAGS O_PATH

bool look_up(struct handle *handle, int directory, const char *path, bool follow_links)
{
    handle->fd = AGAIN(openat(directory, path, O_PATH | O_CLOEXEC | (follow_links ? 0 : O_NOFOLLOW)));
    if (handle->fd >= 0 && AGAIN(fstat(handle->fd, &handle->status)) != 0) {
        close_if_open(&handle->fd);
    }
    return handle->fd >= 0;
}

static bool is_on_file_system(int fd, unsigned long file_system)
{
    struct statfs file_system_status;

    return fstatfs(fd, &file_system_status) == 0 && (unsigned long) file_system_status.f_type == file_system;
}

bool has_nosymfollow(int directory)
{
    struct statvfs mount;

    return fstatvfs(directory, &mount) == 0 && (mount.f_flag & ST_NOSYMFOLLOW) != 0;
}

#else

#define LOOKUP_FLAGS O_RDONLY
#define is_on_file_system(fd, file_system) ((void) (fd), false)

bool look_up(struct handle *handle, int directory, const char *path, bool follow_links)
{
    handle->fd = -1;
    return AGAIN(fstatat(directory, path, &handle->status, follow_links ? 0 : AT_SYMLINK_NOFOLLOW)) == 0;
}

/* POSIX has no nosymfollow. */
bool has_nosymfollow(int directory)
{
    (void) directory;
    return false;
}

#endif

bool is_on_procfs(int directory)
{
    return is_on_file_system(directory, PROC_MAGIC);
}

bool is_anonymous_pipe(const struct handle *handle)
{
    return S_ISFIFO(handle->status.st_mode) && is_on_file_system(handle->fd, PIPE_MAGIC);
}

/* ---- Opening ---- */

int open_lookup_directory(int from, const char *name, bool follow_links)
{
    return openat(from, name, LOOKUP_FLAGS | O_DIRECTORY | O_CLOEXEC | (follow_links ? 0 : O_NOFOLLOW));
}

struct proc_path proc_path_of(int fd)
{
    struct proc_path path;

    snprintf(path.bytes, sizeof path.bytes, "/proc/self/fd/%d", fd);
    return path;
}

ssize_t read_handle_link(const struct handle *handle, int directory, const char *name, char *text, size_t size)
{
    return handle->fd < 0 ? readlinkat(directory, name, text, size) : readlinkat(handle->fd, "", text, size);
}

int open_by_path(const struct handle *handle, const char *path, int flags)
{
    struct stat opened;
    int fd;

    /* O_NONBLOCK, because the path may lead to another file by now, and opening that could block. ENXIO: a named pipe has no
     * reader, or it is a device or socket that cannot be opened. */
    while ((fd = open(path, flags | O_NONBLOCK)) < 0 && errno == ENXIO) {
        bool is_same = stat(path, &opened) == 0 && is_same_file(&opened, &handle->status);

        if (!is_same || !S_ISFIFO(opened.st_mode)) {
            errno = is_same ? ENXIO : EBUSY;
            return -1;
        }
        poll(NULL, 0, PIPE_POLL_MS);
    }
    if (fd >= 0 && (fstat(fd, &opened) != 0 || !is_same_file(&opened, &handle->status)
                    || fcntl(fd, F_SETFL, fcntl(fd, F_GETFL) & ~O_NONBLOCK) != 0)) {
        close_if_open(&fd);
        errno = EBUSY;
    }
    return fd;
}

int open_handle(const struct handle *handle, const char *path, int flags)
{
    int fd = handle->fd < 0 ? -1 : open(proc_path_of(handle->fd).bytes, flags);

    /* ENOENT: /proc is not mounted. */
    return handle->fd < 0 || (fd < 0 && errno == ENOENT) ? open_by_path(handle, path, flags) : fd;
}
