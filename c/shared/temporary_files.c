/* SPDX-License-Identifier: MIT */
/* Creates, links, renames and syncs temporary files, with calls of Linux or only with calls of POSIX. */
#define _GNU_SOURCE

#include "temporary_files.h"

#include <dirent.h>

#if defined __linux__ || defined __APPLE__
#include <sys/random.h>
#endif

#include "handles.h"

#define MAX_RANDOM_BYTES 256

#if defined __linux__ && !defined POSIX_ONLY

#include <sys/syscall.h>

/* Older C libraries do not declare renameat2. */
#ifndef RENAME_NOREPLACE
#define RENAME_NOREPLACE 1
#define RENAME_EXCHANGE 2
#define renameat2(from, name, to, second, flags) ((int) syscall(SYS_renameat2, from, name, to, second, flags))
#endif

static bool random_bytes(uint8_t *bytes, size_t len)
{
    return AGAIN(getrandom(bytes, len, 0)) == (ssize_t) len;
}

#else

#if defined __APPLE__ && !defined POSIX_ONLY
#define renameat2 renameatx_np
#define RENAME_NOREPLACE RENAME_EXCL
#define RENAME_EXCHANGE RENAME_SWAP
#else
#define renameat2(from, name, to, second, flags) ((void) (from), (void) (name), (void) (second), errno = ENOSYS, -1)
#endif
/* With O_TMPFILE as 0, open_unnamed tries to open a directory for reading and writing, which always fails. */
#undef O_TMPFILE
#define O_TMPFILE 0
#define sync_file_range(fd, from, bytes, flags) ((void) (fd), (void) (from), (void) (bytes))
#define random_bytes(bytes, len) (getentropy(bytes, len) == 0)

#endif

/* ---- Files without a name ---- */

/* Returns true if /proc has a path for this open file. Without one, an unnamed file cannot be linked. */
static bool can_link(int fd)
{
    struct stat opened, named;

    return fstat(fd, &opened) == 0 && stat(proc_path_of(fd).bytes, &named) == 0 && is_same_file(&opened, &named);
}

int open_unnamed(int directory, mode_t mode)
{
    int fd = openat(directory, ".", O_TMPFILE | O_RDWR | O_CLOEXEC, mode);

    if (fd >= 0 && !can_link(fd)) {
        close(fd);
        return -1;
    }
    return fd;
}

bool link_unnamed(int fd, int directory, const char *name)
{
    return linkat(AT_FDCWD, proc_path_of(fd).bytes, directory, name, AT_SYMLINK_FOLLOW) == 0;
}

/* ---- Random names ---- */

bool random_hex(char *digits, size_t len)
{
    uint8_t bytes[MAX_RANDOM_BYTES];

    if (len > sizeof bytes || !random_bytes(bytes, len)) {
        return false;
    }
    for (size_t i = 0; i < len; i++) {
        snprintf(digits + 2 * i, 3, "%02x", bytes[i]);
    }
    return true;
}

static bool is_random_name(const char *name, const char *prefix, size_t len)
{
    const char *digits = name + strlen(prefix);

    return strncmp(name, prefix, strlen(prefix)) == 0 && strlen(digits) == 2 * len
           && strspn(digits, "0123456789abcdef") == 2 * len;
}

bool for_each_random_name(int directory, const char *prefix, size_t len,
                          void (*visit)(int directory, const char *name))
{
    int fd = AGAIN(openat(directory, ".", O_RDONLY | O_DIRECTORY | O_CLOEXEC)), saved_errno;
    DIR *entries = fd < 0 ? NULL : fdopendir(fd);
    struct dirent *entry;

    if (entries == NULL) {
        close_if_open(&fd);
        return false;
    }
    do {
        errno = 0;
        entry = readdir(entries);
        saved_errno = errno;
        if (entry != NULL && is_random_name(entry->d_name, prefix, len)) {
            visit(directory, entry->d_name);
        }
    } while (entry != NULL || saved_errno == EINTR);
    closedir(entries);
    errno = saved_errno;
    return saved_errno == 0;
}

/* ---- Files with a name ---- */

int open_named(int directory, const char *name, mode_t mode)
{
    return AGAIN(openat(directory, name, O_RDWR | O_CREAT | O_EXCL | O_NOFOLLOW | O_CLOEXEC, mode));
}

bool rename_no_replace(int directory, const char *from, const char *to)
{
    struct stat status;

    if (renameat2(directory, from, directory, to, RENAME_NOREPLACE) == 0) {
        return true;
    }
    /* Linux and macOS have different errors for a file system without this operation. */
    if (errno != EINVAL && errno != ENOSYS && errno != ENOTSUP) {
        return false;
    }
    if (linkat(directory, from, directory, to, 0) == 0) {
        return unlinkat(directory, from, 0) == 0;
    }
    if (errno != EPERM && errno != ENOTSUP && errno != EOPNOTSUPP) {
        return false;
    }
    /* The file system has no hard links. If another process creates a file with this name after fstatat, it is
     * replaced. */
    if (fstatat(directory, to, &status, AT_SYMLINK_NOFOLLOW) == 0) {
        errno = EEXIST;
        return false;
    }
    return renameat(directory, from, directory, to) == 0;
}

bool exchange_names(int directory, const char *first, const char *second)
{
    return renameat2(directory, first, directory, second, RENAME_EXCHANGE) == 0;
}

#if defined __APPLE__ && !defined POSIX_ONLY

bool sync_to_disk(int fd)
{
    if (AGAIN(fcntl(fd, F_FULLFSYNC)) == 0) {
        return true;
    }
    /* With these errors, the file system does not support F_FULLFSYNC. After any other error, data may be lost. */
    return (errno == ENOTSUP || errno == EOPNOTSUPP || errno == EINVAL || errno == ENOTTY) && AGAIN(fsync(fd)) == 0;
}

#else

bool sync_to_disk(int fd)
{
    return AGAIN(fsync(fd)) == 0;
}

#endif

void start_writeback(int fd, uint64_t from, uint64_t bytes)
{
    sync_file_range(fd, (off_t) from, (off_t) bytes, SYNC_FILE_RANGE_WRITE);
}
