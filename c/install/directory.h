/* SPDX-License-Identifier: MIT */
/*
 * Makes the system calls of an installation. For each operation that the state machine of minisign_install.h asks for,
 * there is one function. The directory of the target is opened once, and names are looked up in it. Symbolic links in
 * the last component are not followed. Calls that a signal interrupts are retried. The first error is remembered.
 */
#ifndef DIRECTORY_H
#define DIRECTORY_H

#include "shared/system.h"
#include "minisign_install.h"

/* A file or directory: its path for messages, and its name relative to the open directory. */
struct named_file {
    const char *path;
    const char *name;
};

/* A temporary file of this run, or the installed file. */
struct work_file {
    /* The path that messages show. For a temporary file, this is a pattern. */
    const struct named_file *file;
    /* The random name of a temporary file, and whether the file has this name now. */
    char *name;
    bool has_name;
    /* -1 if the file is not open. */
    int fd;
    /* The number of bytes that were read back. For the first `writeback_begun` of them, the system was asked to start
     * writing them to the disk. */
    uint64_t read;
    uint64_t writeback_begun;
};

/* The version record as it was read. */
struct record {
    bool exists;
    uint8_t text[MINISIGN_RECORD_TEXT_BYTES];
    size_t len;
};

/* The first error of a run. */
struct failure {
    bool is_set;
    /* The file that could not be used. */
    const char *path;
    /* The cause in words. If it is NULL, `error_number` (an errno) is the cause. */
    const char *cause;
    int error_number;
    /* NULL if there is no hint. */
    const char *hint;
};

struct directory {
    struct failure failure;
    struct named_file self;
    struct named_file target;
    struct named_file lock;
    struct named_file record;
    /* Stands for all temporary files in messages: a name that ends with a star instead of the random digits. */
    struct named_file temporary;
    /* The temporary files that will replace the target and the record; and the installed file while it is read. */
    struct work_file new_file;
    struct work_file new_record;
    struct work_file installed;
    /* The mode of the new file, if the options have one. */
    bool has_mode;
    mode_t mode;
    /* The buffer for a `failure.cause` that is made at run time. */
    char cause_text[80];
    /* The descriptors of the directory and of the lock file, or -1. */
    int fd;
    int lock_fd;
    /* The memory of all names and paths, from malloc. */
    char *names;
};

/* Initializes `directory` for this target. The string `target` must remain valid. On failure, returns false and sets
 * errno: EINVAL if the path does not end with a file name, or ENOMEM. */
bool init_directory(struct directory *directory, const char *target);

/* Closes everything that is open, which releases the lock, and frees the names. */
void close_directory(struct directory *directory);

/* The following functions return MINISIGN_OK or the reason of the failure. */

/* Opens the directory, if it is not open yet. */
enum minisign_error open_directory(struct directory *directory);

/* Fails if the target or the lock file exists but is not a regular file. */
enum minisign_error require_regular_files(struct directory *directory);

/* Fails if no file can be renamed to the target, because something is mounted there, or the target exists but is not a
 * regular file. */
enum minisign_error require_replaceable_target(struct directory *directory);

/* Locks the target, if it is not locked yet. Returns MINISIGN_TARGET_IN_USE if another run holds the lock. If the lock
 * file is created, it gets the owner who may install the next update, as far as the system allows it. The owner of an
 * existing file is never changed. */
enum minisign_error lock_target(struct directory *directory);

/* Closes the installed file, if it is open. */
void close_target(struct directory *directory);

/* Removes the temporary files that killed runs left, as far as possible. */
enum minisign_error remove_leftovers(struct directory *directory);

enum minisign_error read_record(struct directory *directory, struct record *record);

/* If root makes this run, and root owns the record although another user should own it (as after an earlier run by
 * root), replaces the record with a new file that has the same text and belongs to this user. The owner of the old file
 * is not changed. */
enum minisign_error renew_record(struct directory *directory, const struct record *record);

/* Opens the installed file for reading. Its descriptor is -1 if there is none. */
enum minisign_error open_target(struct directory *directory);

/* Creates a temporary file with a random name and mode 0600. */
enum minisign_error create_temporary_file(struct directory *directory, struct work_file *work_file);

/* Creates a file without a name, with mode 0600. The lock need not be held. */
enum minisign_error create_unnamed_file(struct directory *directory, struct work_file *work_file);

/* Appends these bytes to a temporary file. */
enum minisign_error append_to_file(struct directory *directory, const struct work_file *work_file, const uint8_t *bytes,
                                   size_t len);

/* Reads the next bytes of a temporary file or of the installed file. *len is 0 at the end of the file. */
enum minisign_error read_next_piece(struct directory *directory, struct work_file *work_file, uint8_t *bytes,
                                    size_t size, size_t *len);

/* Sets the permissions of the new file: the mode of the options or, without one, the permissions of the installed
 * file. */
enum minisign_error set_permissions(struct directory *directory);

/* Syncs a temporary file or the installed file. */
enum minisign_error sync_file(struct directory *directory, const struct work_file *work_file);

/* Makes a new record readable by all users, gives it to the owner who may install the next update, as far as the system
 * allows it, and syncs it. */
enum minisign_error sync_record(struct directory *directory, const struct work_file *work_file);

/* Renames a temporary file to the record or to the target. */
enum minisign_error rename_file(struct directory *directory, struct work_file *work_file, const struct named_file *to);

/* Syncs the directory, so that a crash does not undo a rename. */
enum minisign_error sync_directory(struct directory *directory);

/* Removes the temporary files of this run that still have their temporary names. */
enum minisign_error remove_temporary_files(struct directory *directory);

#endif
