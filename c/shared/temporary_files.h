/* SPDX-License-Identifier: MIT */
/*
 * Creates, links, renames and syncs temporary files: a file is written completely, in the directory of its target,
 * before it gets its final name.
 *
 * These functions use calls that only Linux has. Other systems, some file systems (such as NFS), and builds with
 * -DPOSIX_ONLY do without these calls. There,
 *
 * - every file has a name from the start. It is a random name, and after a kill the file remains until the next run
 *   removes it;
 * - to rename a file without replacing another one, it is linked to its new name, and then the old name is removed. A
 *   kill in between leaves the file with both names;
 * - two names cannot be exchanged.
 */
#ifndef TEMPORARY_FILES_H
#define TEMPORARY_FILES_H

#include "system.h"

/* Writes `len` random bytes (at most 256) as hexadecimal digits, with a terminating zero. Returns false if the system
 * supplies no random bytes. */
bool random_hex(char *digits, size_t len);

/* Calls `visit` for each name in the directory that consists of this prefix and the hexadecimal digits of `len` bytes.
 * Returns false and sets errno if the directory cannot be read to its end. */
bool for_each_random_name(int directory, const char *prefix, size_t len,
                          void (*visit)(int directory, const char *name));

/* Creates a file for reading and writing. Fails if the name exists. On failure, returns -1 and sets errno. */
int open_named(int directory, const char *name, mode_t mode);

/* Creates a file without a name. It disappears if the program ends before `link_unnamed` gives it a name. On failure,
 * and always where files need a name, returns -1, and errno may not say why. */
int open_unnamed(int directory, mode_t mode);

/* Gives an unnamed file this name. Fails if the name exists. On failure, returns false and sets errno. */
bool link_unnamed(int fd, int directory, const char *name);

/* Renames a file. Fails with EEXIST if the new name exists. On failure, returns false and sets errno. */
bool rename_no_replace(int directory, const char *from, const char *to);

/* Exchanges two names in one step. On failure, changes nothing, returns false and sets errno. Async-signal-safe. */
bool exchange_names(int directory, const char *first, const char *second);

/* Writes an open file or directory to the disk: with fsync, but on macOS with F_FULLFSYNC, because fsync leaves the
 * data in the disk's cache there. On failure, returns false and sets errno. */
bool sync_to_disk(int fd);

/* Asks the system to start writing `bytes` bytes from the offset `from` to the disk, or if `bytes` is 0 everything from
 * there on. Then fsync takes less time. Does nothing on systems other than Linux. */
void start_writeback(int fd, uint64_t from, uint64_t bytes);

#endif
