/* SPDX-License-Identifier: MIT */
/*
 * Inspects files without opening them, and later opens exactly the file that was inspected. A file should not be opened
 * just to inspect it: opening a named pipe for writing blocks until the pipe has a reader, and another user may have
 * put the pipe there to block the program.
 *
 * Linux has O_PATH for this, and /proc to open the inspected file later. Other systems, and builds with -DPOSIX_ONLY,
 * use lstat. Later they open the file by name, with O_NONBLOCK, and close it again if it is a different file by then.
 * The result is the same, with three differences: the reader of a pipe may see that the pipe was opened, directories
 * have to be readable, and the symbolic links in /proc/self/fd are resolved by their text like ordinary ones.
 */
#ifndef HANDLES_H
#define HANDLES_H

#include "system.h"

/* A file that was inspected. `fd` is an O_PATH descriptor, which the caller has to close, or -1 if the system has no
 * such descriptors. */
struct handle {
    int fd;
    struct stat status;
};

/* Returns true if the device and the inode number are the same. */
bool is_same_file(const struct stat *first, const struct stat *second);

/* Returns true if the mode, owner, number of hard links, size and times are the same. A FUSE file system may report
 * different inode numbers for two names of one file. There, equal attributes and equal content show that it is one
 * file. */
static inline bool has_same_attributes(const struct stat *first, const struct stat *second)
{
    return first->st_mode == second->st_mode && first->st_uid == second->st_uid && first->st_nlink == second->st_nlink
           && first->st_size == second->st_size && first->st_mtime == second->st_mtime
           && first->st_ctime == second->st_ctime;
}

/* Inspects the file at `path`, relative to `directory`. If the last component is a symbolic link, it is followed or, if
 * `follow_links` is false, inspected itself. On failure, returns false and sets errno. */
bool look_up(struct handle *handle, int directory, const char *path, bool follow_links);

/* Opens an inspected file by its path. If the file is a named pipe without a reader, waits for a reader as long as the
 * path leads to this pipe. On failure, returns -1 and sets errno: EBUSY if the path now leads to another file. */
int open_by_path(const struct handle *handle, const char *path, int flags);

/* Opens an inspected file by its descriptor if it has one, otherwise by its path as `open_by_path` does. */
int open_handle(const struct handle *handle, const char *path, int flags);

/* Reads the target of an inspected symbolic link, like readlinkat. */
ssize_t read_handle_link(const struct handle *handle, int directory, const char *name, char *text, size_t size);

/* Closes *fd unless it is negative, and sets it to -1. errno is unchanged. */
void close_if_open(int *fd);

/* Opens a directory in which names will be looked up. On failure, returns -1 and sets errno. */
int open_lookup_directory(int from, const char *name, bool follow_links);

/* Returns true if the directory is on a procfs file system. */
bool is_on_procfs(int directory);

/* Returns true for a pipe without a name, as pipe(2) creates it. */
bool is_anonymous_pipe(const struct handle *handle);

/* Returns true if the file system of the directory is mounted with nosymfollow, so that symbolic links are not
 * followed. */
bool has_nosymfollow(int directory);

struct proc_path {
    char bytes[32];
};

/* Returns the path of an open file in /proc/self/fd, which only Linux has. */
struct proc_path proc_path_of(int fd);

#endif
