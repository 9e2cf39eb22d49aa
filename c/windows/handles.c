/* SPDX-License-Identifier: MIT */
/* Inspects files on Windows: replaces shared/handles.c, which needs POSIX. */
#include "native.h"

#include "shared/handles.h"

/*
 * Rejects a path with a colon. minisign-check looks up the names of a list, in the current directory, and a drive
 * letter would lead out of this directory. minisign also compares the contents of two files with this function. Paths
 * with a drive letter are then not compared, but Windows reports the same file number for all names of a file.
 */
bool look_up(struct handle *handle, int directory, const char *path, bool follow_links)
{
    handle->fd = -1;
    if (directory != AT_FDCWD || !follow_links) {
        errno = EINVAL;
        return false;
    }
    if (strchr(path, ':') != NULL) {
        errno = NAME_HAS_COLON;
        return false;
    }
    return stat(path, &handle->status) == 0;
}

int open_handle(const struct handle *handle, const char *path, int flags)
{
    struct stat status;
    int fd = open(path, flags);

    if (fd >= 0 && (fstat(fd, &status) != 0 || !is_same_file(&status, &handle->status))) {
        close(fd);
        errno = EBUSY;
        return -1;
    }
    return fd;
}

void close_if_open(int *fd)
{
    int saved_errno = errno;

    if (*fd >= 0) {
        close(*fd);
        *fd = -1;
    }
    errno = saved_errno;
}
