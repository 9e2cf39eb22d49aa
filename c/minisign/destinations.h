/* SPDX-License-Identifier: MIT */
/*
 * Finds out in which directory, and under which name, a file is to be written. The directory is opened once. Files are
 * created, renamed and removed relative to the open directory, so that nobody can exchange the directory in between.
 */
#ifndef DESTINATIONS_H
#define DESTINATIONS_H

#include "shared/handles.h"

struct destination {
    /* The file's name as it was given, for messages. */
    const char *file;
    /* True if a secret is to be written. */
    bool is_secret;
    /* The directory, opened with O_PATH if the system has it, and the name in it, allocated with malloc. They are -1
     * and NULL if the file is written in place. */
    int directory;
    char *name;
    /* The existing file, if there is one. */
    bool has_existing;
    struct handle existing;
    /* The existing file, open for writing, or -1. `open_existing` opens it, unless `names_descriptor` is true: then
     * `find_destination` has duplicated the descriptor that `file` names. */
    int existing_fd;
    /* True if `file` is a path such as /dev/fd/N, and the file is written through that descriptor. */
    bool names_descriptor;
};

/*
 * Finds the destination of a file, and inspects the existing file there. The existing file is not opened, because
 * opening a named pipe blocks until it has a reader. Symbolic links are followed as the system follows them, even if
 * they lead to a missing file. A file counts as missing only if the system reports ENOENT.
 *
 * A file is written in place, instead of being replaced, if it is not a regular file, or if it was deleted and the path
 * leads to a descriptor that is still open. A regular file is also written in place, through an existing descriptor, if
 * `file` names a descriptor of the program (/dev/stdout, /dev/stderr, /dev/fd/N, /proc/self/fd/N) that has it open for
 * writing. If a secret is to be written, and others can access that file, this is an error.
 *
 * Untrusted users are all users except root and the user who runs the program. These rules protect against them, and do
 * not depend on system settings such as fs.protected_symlinks:
 *
 * - In a directory that others can write to, but where only owners can remove files (such as /tmp), no symbolic link of
 *   an untrusted user is followed, even as an inner component of the path, and no file or pipe of such a user is used.
 *   An exception is the owner of that directory, who is trusted unless a secret is written.
 * - In any directory, a secret is not written in place to a file of an untrusted user, unless the file is a standard
 *   stream of the program.
 *
 * If one of these rules forbids the file, or if the file cannot be inspected, prints an error and ends the program.
 */
struct destination find_destination(const char *file, bool is_secret);

/* Opens the existing file, if there is one, for writing. Ends the program if the file cannot be opened, so that a file
 * without write permission is neither written nor replaced. Also ends the program if the file is to be replaced, but
 * renaming would fail: its directory is sticky, and the user owns neither the file nor the directory. */
void open_existing(struct destination *destination);

/* Returns true if the file is written in place, instead of being replaced. */
bool is_written_in_place(const struct destination *destination);

/* Returns true if both destinations have the same directory and name, or the same existing file. */
bool is_same_destination(const struct destination *first, const struct destination *second);

/* Returns true if a secret may be written to this file: it belongs to the user or root, and nobody else can access
 * it. */
bool may_keep_secret(const struct stat *status);

/* Closes the existing file, if it is open. */
void close_existing(struct destination *destination);

/* Closes everything that is open, and frees the name. */
void release_destination(struct destination *destination);

#endif
