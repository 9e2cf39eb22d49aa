/* SPDX-License-Identifier: MIT */
/* A library for LD_PRELOAD that makes file names equivalent as on a file system of macOS: characters in the last component of
 * a path are decomposed, and letters are converted to lower case. Therefore k.KEY and k.key are the same file, and so are an e
 * with an acute accent (U+00E9) and an e that is followed by the accent (U+0301). tests/c/macos.py runs minisign with this
 * library, and writes decompositions.h.
 *
 * If the variable OTHER_NUMBER contains a file name, the file system behaves like some file systems in user space: a file has
 * a different inode number when this name is used for it, and two names cannot be exchanged. */
#define _GNU_SOURCE

#include <ctype.h>
#include <dlfcn.h>
#include <errno.h>
#include <fcntl.h>
#include <limits.h>
#include <stdarg.h>
#include <stdbool.h>
#include <stdio.h>
#include <stdlib.h>
#include <string.h>
#include <sys/stat.h>
#include <unistd.h>

#define REAL(name) ((__typeof__(&name)) dlsym(RTLD_NEXT, #name))

enum { MAX_DESCRIPTORS = 1024 };

/* Characters and their decompositions, in UTF-8. */
static const char *const decompositions[][2] = {
#include "decompositions.h"
};

/* True for each file descriptor that was opened with the name in OTHER_NUMBER. */
static bool has_other_number[MAX_DESCRIPTORS];

struct path {
    char bytes[PATH_MAX];
};

static const char *last_part(const char *path)
{
    const char *slash = strrchr(path, '/');

    return slash == NULL ? path : slash + 1;
}

/* Returns the number of bytes of the first character. */
static size_t length_of_character(const char *text)
{
    size_t len = 1;

    while (((unsigned char) text[len] & 0xc0) == 0x80) {
        len++;
    }
    return len;
}

/* Returns the path with its last component decomposed and in lower case. */
static struct path folded(const char *path)
{
    struct path folded = { "" };
    size_t end = (size_t) (last_part(path) - path);

    snprintf(folded.bytes, sizeof folded.bytes, "%.*s", (int) end, path);
    for (const char *part = path + end; *part != 0 && end + 16 < sizeof folded.bytes;) {
        size_t len = length_of_character(part), i = 0, count = sizeof decompositions / sizeof *decompositions;

        while (i < count && (strlen(decompositions[i][0]) != len || memcmp(decompositions[i][0], part, len) != 0)) {
            i++;
        }
        end += (size_t) snprintf(folded.bytes + end, sizeof folded.bytes - end, "%.*s", i < count ? 16 : (int) len,
                                 i < count ? decompositions[i][1] : part);
        part += len;
    }
    for (char *at = folded.bytes + (last_part(folded.bytes) - folded.bytes); *at != 0; at++) {
        *at = (char) tolower((unsigned char) *at);
    }
    return folded;
}

/* ---- Inode numbers ---- */

/* Returns true if the path is the name in OTHER_NUMBER, or the path in /proc of a descriptor that was opened with this name. */
static bool is_name_with_other_number(const char *path)
{
    const char *name = getenv("OTHER_NUMBER");
    int fd = strncmp(path, "/proc/self/fd/", 14) == 0 ? atoi(path + 14) : -1;

    return name != NULL && (fd >= 0 && fd < MAX_DESCRIPTORS ? has_other_number[fd] : strcmp(last_part(path), name) == 0);
}

/* Records if a new descriptor was opened with the name in OTHER_NUMBER. Returns the descriptor. */
static int record_descriptor(const char *path, int fd)
{
    if (fd >= 0 && fd < MAX_DESCRIPTORS) {
        has_other_number[fd] = is_name_with_other_number(path);
    }
    return fd;
}

/* Changes the inode number of a file that was looked up by the name in OTHER_NUMBER. Returns `result`, the result of stat. */
static int change_inode_number(bool is_changed, int result, struct stat *status)
{
    if (result == 0 && is_changed && S_ISREG(status->st_mode)) {
        status->st_ino ^= (ino_t) 1 << 40;
    }
    return result;
}

/* ---- Calls ---- */

int openat(int directory, const char *path, int flags, ...)
{
    va_list arguments;
    mode_t mode;

    va_start(arguments, flags);
    mode = (flags & (O_CREAT | O_TMPFILE)) != 0 ? va_arg(arguments, mode_t) : 0;
    va_end(arguments);
    return record_descriptor(path, REAL(openat)(directory, folded(path).bytes, flags, mode));
}

int __openat_2(int directory, const char *path, int flags)
{
    return openat(directory, path, flags);
}

int open(const char *path, int flags, ...)
{
    va_list arguments;
    mode_t mode;

    va_start(arguments, flags);
    mode = (flags & (O_CREAT | O_TMPFILE)) != 0 ? va_arg(arguments, mode_t) : 0;
    va_end(arguments);
    return openat(AT_FDCWD, path, flags, mode);
}

int __open_2(const char *path, int flags)
{
    return openat(AT_FDCWD, path, flags);
}

int stat(const char *path, struct stat *status)
{
    return change_inode_number(is_name_with_other_number(path), REAL(stat)(folded(path).bytes, status), status);
}

int lstat(const char *path, struct stat *status)
{
    return change_inode_number(is_name_with_other_number(path), REAL(lstat)(folded(path).bytes, status), status);
}

int fstat(int fd, struct stat *status)
{
    return change_inode_number(fd >= 0 && fd < MAX_DESCRIPTORS && has_other_number[fd], REAL(fstat)(fd, status), status);
}

int fstatat(int directory, const char *path, struct stat *status, int flags)
{
    return change_inode_number(is_name_with_other_number(path), REAL(fstatat)(directory, folded(path).bytes, status, flags),
                               status);
}

int linkat(int from_directory, const char *from, int directory, const char *path, int flags)
{
    return REAL(linkat)(from_directory, folded(from).bytes, directory, folded(path).bytes, flags);
}

int renameat(int from_directory, const char *from, int directory, const char *path)
{
    return REAL(renameat)(from_directory, folded(from).bytes, directory, folded(path).bytes);
}

int renameat2(int from_directory, const char *from, int directory, const char *path, unsigned flags)
{
    if (getenv("OTHER_NUMBER") != NULL && (flags & RENAME_EXCHANGE) != 0) {
        errno = EINVAL;
        return -1;
    }
    return REAL(renameat2)(from_directory, folded(from).bytes, directory, folded(path).bytes, flags);
}

int unlinkat(int directory, const char *path, int flags)
{
    return REAL(unlinkat)(directory, folded(path).bytes, flags);
}
