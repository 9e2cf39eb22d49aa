/* SPDX-License-Identifier: MIT */
/* Makes the system calls of an installation, relative to the open directory of the target. */
#define _GNU_SOURCE

#include "directory.h"

#include <limits.h>

#include "shared/handles.h"
#include "shared/permissions.h"
#include "shared/streams.h"
#include "shared/temporary_files.h"

/* The mode of new files. The lock file keeps it, because whoever can open the lock file can hold the lock for ever. */
#define OWNER_ONLY_MODE 0600
/* The mode of the version record. All users may read it, so that they can use --check. */
#define READABLE_MODE 0644

/* The maximum number of attempts to open a file that other processes keep replacing. */
#define MAX_OPEN_TRIES 100

/* The number of random bytes in the name of a temporary file. The name has two hexadecimal digits for each byte. */
#define RANDOM_NAME_BYTES 16

/* Whenever this many bytes were read back, the system is asked to start writing them to the disk, so that fsync takes
 * less time. */
#define WRITEBACK_BYTES (8 << 20)

/* `names` of struct directory holds this many strings: the path of the directory; the paths of the lock file, of the
 * record and of temporary files; and the names of the new file and of the new record. */
#define NAME_COUNT 6
/* The maximum number of bytes by which such a string, with its final 0 byte, is longer than the path of the target. */
#define MAX_ADDED_BYTES 64

/* A symbolic link in the last component is not followed, and opening a named pipe does not wait. */
#define SAFE_OPEN_FLAGS (O_NOFOLLOW | O_NONBLOCK | O_CLOEXEC)

/* ---- Names ---- */

bool init_directory(struct directory *directory, const char *target)
{
    static const char *const suffixes[] = { "lock", "number", "stage-*" };
    struct named_file *const derived_files[] = { &directory->lock, &directory->record, &directory->temporary };
    const char *slash = strrchr(target, '/');
    const char *name = slash == NULL ? target : slash + 1, *prefix = slash == NULL ? "." : target;
    int length = slash == NULL || slash == target ? 1 : (int) (slash - target);
    size_t size = strlen(target) + MAX_ADDED_BYTES;
    char *names, *new_file_name, *new_record_name;

    if (*name == 0 || strcmp(name, ".") == 0 || strcmp(name, "..") == 0) {
        errno = EINVAL;
        return false;
    }
    names = malloc(NAME_COUNT * size);
    if (names == NULL) {
        return false;
    }
    *directory = (struct directory) { .target = { target, name }, .fd = -1, .lock_fd = -1, .names = names };
    snprintf(names, size, "%.*s", length, prefix);
    directory->self = (struct named_file) { names, "." };
    for (size_t i = 0; i < sizeof derived_files / sizeof derived_files[0]; i++) {
        names += size;
        snprintf(names, size, "%.*s/.%s.%s", length, prefix, name, suffixes[i]);
        *derived_files[i] = (struct named_file) { names, names + length + 1 };
    }
    /* The names of the two temporary files begin as a copy of the pattern. A random part replaces its star. */
    new_file_name = strcpy(names + size, directory->temporary.name);
    new_record_name = strcpy(names + 2 * size, directory->temporary.name);
    directory->new_file = (struct work_file) { .file = &directory->temporary, .name = new_file_name, .fd = -1 };
    directory->new_record = (struct work_file) { .file = &directory->temporary, .name = new_record_name, .fd = -1 };
    directory->installed = (struct work_file) { .file = &directory->target, .fd = -1 };
    return true;
}

void close_directory(struct directory *directory)
{
    close_if_open(&directory->new_file.fd);
    close_if_open(&directory->new_record.fd);
    close_target(directory);
    close_if_open(&directory->lock_fd);
    close_if_open(&directory->fd);
    free(directory->names);
}

/* ---- Errors ---- */

/* Remembers the error, unless there was an earlier one. If `cause` is NULL, errno is the cause. */
static void remember_failure(struct directory *directory, const struct named_file *file, const char *cause,
                             const char *hint)
{
    if (!directory->failure.is_set) {
        directory->failure = (struct failure) { true, file->path, cause, errno, hint };
    }
}

/* Remembers a failure with its cause and hint, and returns `error`. */
static enum minisign_error fail_with_cause(struct directory *directory, const struct named_file *file,
                                           const char *cause, const char *hint, enum minisign_error error)
{
    remember_failure(directory, file, cause, hint);
    return error;
}

/* Remembers a failure whose cause is errno, and returns `error`. */
static enum minisign_error fail_with_errno(struct directory *directory, const struct named_file *file,
                                           enum minisign_error error)
{
    return fail_with_cause(directory, file, NULL, NULL, error);
}

/* Returns MINISIGN_OK if `is_written`. Otherwise remembers errno and returns MINISIGN_WRITING_FAILED. */
static enum minisign_error fail_unless_written(struct directory *directory, const struct named_file *file,
                                               bool is_written)
{
    return is_written ? MINISIGN_OK : fail_with_errno(directory, file, MINISIGN_WRITING_FAILED);
}

static enum minisign_error unlink_temporary_file(struct directory *directory, const struct work_file *work_file)
{
    /* ENOENT: another run, which holds the lock, has removed the file as a leftover. (A temporary file can be created
     * without the lock.) */
    return fail_unless_written(directory, &directory->temporary,
                               AGAIN(unlinkat(directory->fd, work_file->name, 0)) == 0 || errno == ENOENT);
}

/* ---- Existing files ---- */

/* The result of inspecting a name. UNUSABLE: the failure was remembered. */
enum presence { PRESENT, ABSENT, UNUSABLE };

/* Inspects the file with this name, without following a link. A file that is not regular is unusable. */
static enum presence inspect_name(struct directory *directory, const struct named_file *file, struct stat *status)
{
    const char *cause = NULL, *hint = NULL;

    if (AGAIN(fstatat(directory->fd, file->name, status, AT_SYMLINK_NOFOLLOW)) == 0) {
        if (S_ISREG(status->st_mode)) {
            return PRESENT;
        }
        errno = EINVAL;
        cause = S_ISLNK(status->st_mode)   ? "this is a symbolic link, which is not followed"
                : S_ISDIR(status->st_mode) ? "this is a directory"
                                           : "this is not a regular file";
        hint = file != &directory->target || !(S_ISLNK(status->st_mode) || S_ISDIR(status->st_mode))
                   ? "remove it or move it away"
               : S_ISLNK(status->st_mode) ? "use the path that it points to"
                                          : "give the path of a file in it";
    } else if (errno == ENOENT) {
        return ABSENT;
    }
    remember_failure(directory, file, cause, hint);
    return UNUSABLE;
}

/* Returns true if a file or directory is mounted at this name, so that no file can be renamed to it. */
static bool is_mounted_at(int directory, const char *name)
{
#if defined STATX_ATTR_MOUNT_ROOT && !defined POSIX_ONLY
    struct statx status;

    return AGAIN(statx(directory, name, AT_SYMLINK_NOFOLLOW, 0, &status)) == 0
           && (status.stx_attributes & STATX_ATTR_MOUNT_ROOT) != 0;
#else
    (void) directory;
    (void) name;
    return false;
#endif
}

/* Inspects the target. It is also unusable if another file is mounted there. */
static enum presence inspect_target(struct directory *directory, struct stat *status)
{
    const struct named_file *target = &directory->target;
    enum presence presence = inspect_name(directory, target, status);

    if (presence == PRESENT && is_mounted_at(directory->fd, target->name)) {
        errno = EBUSY;
        remember_failure(directory, target, "another file is mounted here",
                         "unmount it, or give the path of another file");
        return UNUSABLE;
    }
    return presence;
}

enum minisign_error require_regular_files(struct directory *directory)
{
    struct stat status;
    bool is_usable = inspect_name(directory, &directory->target, &status) != UNUSABLE
                     && inspect_name(directory, &directory->lock, &status) != UNUSABLE;

    return is_usable ? MINISIGN_OK : MINISIGN_READING_FAILED;
}

enum minisign_error require_replaceable_target(struct directory *directory)
{
    struct stat status;

    return inspect_target(directory, &status) == UNUSABLE ? MINISIGN_WRITING_FAILED : MINISIGN_OK;
}

/* Calls fstat for an open file. On failure, remembers the error and returns false. */
static bool stat_open_file(struct directory *directory, const struct named_file *file, int fd, struct stat *status)
{
    if (AGAIN(fstat(fd, status)) != 0) {
        remember_failure(directory, file, NULL, NULL);
        return false;
    }
    return true;
}

/* Returns PRESENT if the name still refers to this open file, and ABSENT if it refers to another file or to none. */
static enum presence compare_with_open_file(struct directory *directory, const struct named_file *file, int fd)
{
    struct stat named, opened;
    enum presence presence;

    if (!stat_open_file(directory, file, fd, &opened)) {
        return UNUSABLE;
    }
    presence = inspect_name(directory, file, &named);
    return presence == PRESENT && !is_same_file(&named, &opened) ? ABSENT : presence;
}

/*
 * Finds the owner and group that the lock file or the record, `existing`, should have. They are those of the first file
 * in this list that exists and does not belong to root: the file itself, and the installed file. If there is none, they
 * are those of the directory. So a run by root neither takes these files away from a user nor locks out the user who
 * usually installs.
 */
static bool find_designated_owner(struct directory *directory, const struct named_file *existing, struct stat *owner)
{
    const struct named_file *const candidates[] = { existing, &directory->target };

    for (size_t i = 0; i < sizeof candidates / sizeof candidates[0]; i++) {
        enum presence presence = inspect_name(directory, candidates[i], owner);

        if (presence == UNUSABLE || (presence == PRESENT && owner->st_uid != 0)) {
            return presence == PRESENT;
        }
    }
    return stat_open_file(directory, &directory->self, directory->fd, owner);
}

/*
 * Gives a new lock file or record, open as `fd`, to the designated owner, if the system allows it. `existing` is the
 * name of the file that it replaces, and `file` the name that messages show. This run must have created the open file:
 * an existing one could be another user's file, to which somebody who can write to the directory gave this name.
 */
static bool give_to_designated_owner(struct directory *directory, const struct named_file *existing,
                                     const struct named_file *file, int fd)
{
    struct stat owner, status;
    bool is_given;

    if (!find_designated_owner(directory, existing, &owner) || !stat_open_file(directory, file, fd, &status)) {
        return false;
    }
    if ((status.st_uid != owner.st_uid || status.st_gid != owner.st_gid)
        && !give_owner(fd, owner.st_uid, owner.st_gid, &is_given)) {
        remember_failure(directory, file, NULL, NULL);
        return false;
    }
    return true;
}

/* ---- Opening ---- */

static enum minisign_error fail_after_retries(struct directory *directory, const struct named_file *file)
{
    errno = EBUSY;
    return fail_with_cause(directory, file, "other processes keep replacing this file", "run the command again",
                           MINISIGN_READING_FAILED);
}

/* Opens an existing file. If another process replaces the file in between, tries again until the name refers to the
 * open file. *fd is -1 if the file does not exist. */
static enum minisign_error open_checked(struct directory *directory, const struct named_file *file, int flags, int *fd)
{
    for (int i = 0; i < MAX_OPEN_TRIES; i++) {
        struct stat named;
        enum presence presence = inspect_name(directory, file, &named);
        *fd = -1;
        if (presence != PRESENT) {
            return presence == ABSENT ? MINISIGN_OK : MINISIGN_READING_FAILED;
        }
        *fd = AGAIN(openat(directory->fd, file->name, flags | SAFE_OPEN_FLAGS));
        /* ENOENT or ELOOP: another process has removed the file, or has put a symbolic link there. */
        if (*fd < 0 && errno != ENOENT && errno != ELOOP) {
            return errno == EACCES && file != &directory->target
                       ? fail_with_cause(directory, file, "only the owner of this file can open it",
                                         "use chown to change its owner to that of the installed file",
                                         MINISIGN_READING_FAILED)
                       : fail_with_errno(directory, file, MINISIGN_READING_FAILED);
        }
        presence = *fd < 0 ? ABSENT : compare_with_open_file(directory, file, *fd);
        if (presence == PRESENT) {
            return MINISIGN_OK;
        }
        close_if_open(fd);
        if (presence == UNUSABLE) {
            return MINISIGN_READING_FAILED;
        }
    }
    return fail_after_retries(directory, file);
}

/* ---- The lock ---- */

enum minisign_error open_directory(struct directory *directory)
{
    if (directory->fd < 0) {
        directory->fd = AGAIN(open(directory->self.path, O_RDONLY | O_DIRECTORY | O_CLOEXEC));
    }
    return directory->fd >= 0 ? MINISIGN_OK
           : errno == ENOENT  ? fail_with_cause(directory, &directory->self, "this directory does not exist",
                                                "create it first", MINISIGN_READING_FAILED)
                              : fail_with_errno(directory, &directory->self, MINISIGN_READING_FAILED);
}

/* Opens or creates the lock file. *fd is -1 if another process created the file in between. Otherwise *is_created says
 * whether this process created it. */
static enum minisign_error open_lock(struct directory *directory, int *fd, bool *is_created)
{
    enum minisign_error error = open_checked(directory, &directory->lock, O_RDWR, fd);

    *is_created = error == MINISIGN_OK && *fd < 0;
    if (*is_created) {
        *fd = AGAIN(
            openat(directory->fd, directory->lock.name, O_RDWR | O_CREAT | O_EXCL | SAFE_OPEN_FLAGS, OWNER_ONLY_MODE));
        if (*fd < 0 && errno != EEXIST) {
            error = fail_with_errno(directory, &directory->lock, MINISIGN_READING_FAILED);
        }
    }
    return error;
}

/* Locks the open lock file. If its name no longer refers to it, because it was removed or replaced meanwhile, closes it
 * and returns MINISIGN_OK without the lock. */
static enum minisign_error lock_file(struct directory *directory, int fd, bool is_created)
{
    enum minisign_error error = MINISIGN_OK;
    enum presence presence = ABSENT;

    if (AGAIN(flock(fd, LOCK_EX | LOCK_NB)) == 0) {
        presence = compare_with_open_file(directory, &directory->lock, fd);
    } else if (errno == EWOULDBLOCK) {
        error = MINISIGN_TARGET_IN_USE;
    } else {
        error = fail_with_errno(directory, &directory->lock, MINISIGN_READING_FAILED);
    }
    if (presence == UNUSABLE
        || (presence == PRESENT && is_created
            && !give_to_designated_owner(directory, &directory->lock, &directory->lock, fd))) {
        error = MINISIGN_READING_FAILED;
    }
    if (presence == PRESENT && error == MINISIGN_OK) {
        directory->lock_fd = fd;
    } else {
        close(fd);
    }
    return error;
}

/* Opens or creates the lock file and locks it. Tries again if other processes remove or replace it meanwhile. */
static enum minisign_error open_and_lock(struct directory *directory)
{
    for (int i = 0; i < MAX_OPEN_TRIES; i++) {
        bool is_created;
        int fd;
        enum minisign_error error = open_lock(directory, &fd, &is_created);

        if (error == MINISIGN_OK && fd >= 0) {
            error = lock_file(directory, fd, is_created);
        }
        if (error != MINISIGN_OK || directory->lock_fd >= 0) {
            return error;
        }
    }
    return fail_after_retries(directory, &directory->lock);
}

/* Returns true if the name of the lock file still refers to the file that is locked. Otherwise remembers the
 * failure. */
static bool still_holds_lock(struct directory *directory)
{
    enum presence presence = compare_with_open_file(directory, &directory->lock, directory->lock_fd);

    if (presence == ABSENT) {
        errno = ENOENT;
        remember_failure(directory, &directory->lock, "another process removed or replaced this lock file",
                         "run the command again");
    }
    return presence == PRESENT;
}

/* Creates a new file to replace the lock file or the record, if this process runs as root, and `file` does not belong to
 * the designated owner (for example because an earlier run by root created it). The owner of an existing file is never
 * changed. */
static enum minisign_error begin_renewal(struct directory *directory, const struct named_file *file, bool is_lock,
                                         struct work_file *replacement)
{
    struct stat owner, status;
    enum presence presence = inspect_name(directory, file, &status);

    if (presence == UNUSABLE || !find_designated_owner(directory, file, &owner)) {
        return MINISIGN_READING_FAILED;
    }
    /* A lock file that is not empty is not from this program, so it is not replaced. */
    return presence == ABSENT || status.st_uid == owner.st_uid || (is_lock && status.st_size > 0) || geteuid() != 0
               ? MINISIGN_OK
               : create_temporary_file(directory, replacement);
}

/* Replaces the lock file if root owns it although another user should. The new lock file is locked before it is
 * renamed, so that this run always holds the lock. If the new file cannot be used, it is removed and the old lock file
 * is kept. This is not an error. */
static enum minisign_error renew_lock(struct directory *directory)
{
    /* The name of the new record is not in use yet, so the new lock file gets it first. */
    struct work_file replacement = directory->new_record;
    enum minisign_error error = begin_renewal(directory, &directory->lock, true, &replacement);

    if (error != MINISIGN_OK || replacement.fd < 0) {
        return error;
    }
    if (give_to_designated_owner(directory, &directory->lock, &directory->lock, replacement.fd)
        && AGAIN(flock(replacement.fd, LOCK_EX | LOCK_NB)) == 0
        && AGAIN(renameat(directory->fd, replacement.name, directory->fd, directory->lock.name)) == 0) {
        close(directory->lock_fd);
        directory->lock_fd = replacement.fd;
        return MINISIGN_OK;
    }
    close(replacement.fd);
    return unlink_temporary_file(directory, &replacement);
}

enum minisign_error lock_target(struct directory *directory)
{
    enum minisign_error error = open_directory(directory);

    if (directory->lock_fd >= 0) {
        return still_holds_lock(directory) ? MINISIGN_OK : MINISIGN_READING_FAILED;
    }
    error = error == MINISIGN_OK ? require_regular_files(directory) : error;
    error = error == MINISIGN_OK ? open_and_lock(directory) : error;
    return error == MINISIGN_OK ? renew_lock(directory) : error;
}

/* ---- Leftovers and the record ---- */

/* Removes a file. Ignores errors, for example if this is the name of a directory. */
static void remove_name(int directory, const char *name)
{
    (void) AGAIN(unlinkat(directory, name, 0));
}

enum minisign_error remove_leftovers(struct directory *directory)
{
    /* The start of all temporary names: `temporary.name` without its star. */
    char prefix[NAME_MAX + 1];

    if (!still_holds_lock(directory)) {
        return MINISIGN_WRITING_FAILED;
    }
    snprintf(prefix, sizeof prefix, "%.*s", (int) strlen(directory->temporary.name) - 1, directory->temporary.name);
    return fail_unless_written(directory, &directory->self,
                               for_each_random_name(directory->fd, prefix, RANDOM_NAME_BYTES, remove_name));
}

enum minisign_error read_record(struct directory *directory, struct record *record)
{
    uint8_t bytes[MINISIGN_RECORD_TEXT_BYTES + 1];
    ssize_t count;
    int fd;
    enum minisign_error error = open_checked(directory, &directory->record, O_RDONLY, &fd);

    if (fd < 0) {
        return error;
    }
    count = read_whole(fd, bytes, sizeof bytes);
    close_if_open(&fd);
    if (count < 0 || count == sizeof bytes) {
        errno = count < 0 ? errno : EFBIG;
        return count < 0 ? fail_with_errno(directory, &directory->record, MINISIGN_READING_FAILED)
                         : fail_with_cause(directory, &directory->record, "this file is too long for a version record",
                                           "remove it and use --first to install anyway", MINISIGN_READING_FAILED);
    }
    *record = (struct record) { .exists = true, .len = (size_t) count };
    memcpy(record->text, bytes, record->len);
    return MINISIGN_OK;
}

enum minisign_error renew_record(struct directory *directory, const struct record *record)
{
    struct work_file replacement = directory->new_record;
    enum minisign_error error = begin_renewal(directory, &directory->record, false, &replacement);

    if (error != MINISIGN_OK || replacement.fd < 0) {
        return error;
    }
    error = append_to_file(directory, &replacement, record->text, record->len);
    error = error == MINISIGN_OK ? sync_record(directory, &replacement) : error;
    error = error == MINISIGN_OK ? rename_file(directory, &replacement, &directory->record) : error;
    close(replacement.fd);
    if (error != MINISIGN_OK) {
        (void) unlink_temporary_file(directory, &replacement);
        return error;
    }
    return sync_directory(directory);
}

/* ---- The target ---- */

enum minisign_error open_target(struct directory *directory)
{
    directory->installed = (struct work_file) { .file = &directory->target, .fd = -1 };
    return open_checked(directory, &directory->target, O_RDONLY, &directory->installed.fd);
}

void close_target(struct directory *directory)
{
    close_if_open(&directory->installed.fd);
}

/* ---- Temporary files ---- */

/* Creates a file with a new random name. */
static enum minisign_error create_with_random_name(struct directory *directory, struct work_file *work_file)
{
    if (!random_hex(work_file->name + strlen(directory->temporary.name) - 1, RANDOM_NAME_BYTES)) {
        return MINISIGN_RANDOM_SOURCE_FAILED;
    }
    work_file->fd = open_named(directory->fd, work_file->name, OWNER_ONLY_MODE);
    work_file->has_name = work_file->fd >= 0;
    return fail_unless_written(directory, &directory->temporary, work_file->has_name);
}

enum minisign_error create_temporary_file(struct directory *directory, struct work_file *work_file)
{
    return still_holds_lock(directory) ? create_with_random_name(directory, work_file) : MINISIGN_WRITING_FAILED;
}

enum minisign_error create_unnamed_file(struct directory *directory, struct work_file *work_file)
{
    enum minisign_error error = open_directory(directory);

    if (error != MINISIGN_OK) {
        return error;
    }
    *work_file = directory->new_file;
    error = create_with_random_name(directory, work_file);
    return error == MINISIGN_OK ? unlink_temporary_file(directory, work_file) : error;
}

enum minisign_error append_to_file(struct directory *directory, const struct work_file *work_file, const uint8_t *bytes,
                                   size_t len)
{
    return fail_unless_written(directory, &directory->temporary, write_whole(work_file->fd, bytes, len));
}

enum minisign_error read_next_piece(struct directory *directory, struct work_file *work_file, uint8_t *bytes,
                                    size_t size, size_t *len)
{
    ssize_t count = AGAIN(pread(work_file->fd, bytes, size, (off_t) work_file->read));

    if (count < 0) {
        return fail_with_errno(directory, work_file->file, MINISIGN_READING_FAILED);
    }
    work_file->read += (uint64_t) count;
    if (work_file->read - work_file->writeback_begun >= WRITEBACK_BYTES) {
        start_writeback(work_file->fd, work_file->writeback_begun, work_file->read - work_file->writeback_begun);
        work_file->writeback_begun = work_file->read;
    }
    *len = (size_t) count;
    return MINISIGN_OK;
}

/* Sets the permissions of the new file to the mode of the options or, without one, to the permissions of the existing
 * file. `existing` is NULL if there is no such file. */
static enum minisign_error set_new_file_permissions(struct directory *directory, struct permissions *existing)
{
    mode_t mode = directory->has_mode ? directory->mode : existing != NULL ? existing->mode : OWNER_ONLY_MODE;
    bool is_denied;

    if (existing != NULL && directory->has_mode) {
        replace_mode(existing, mode);
    }
    if (existing != NULL ? give_permissions(directory->new_file.fd, existing)
                         : give_mode(directory->new_file.fd, mode)) {
        return MINISIGN_OK;
    }
    is_denied = errno == EPERM || errno == EACCES;
    snprintf(directory->cause_text, sizeof directory->cause_text,
             "the system does not allow the mode %03o for this file", (unsigned) mode);
    return fail_with_cause(directory, &directory->temporary, is_denied ? directory->cause_text : NULL,
                           is_denied ? "use --mode to choose another mode" : NULL, MINISIGN_WRITING_FAILED);
}

enum minisign_error set_permissions(struct directory *directory)
{
    for (int i = 0; i < MAX_OPEN_TRIES; i++) {
        struct permissions existing;
        struct stat status;

        switch (inspect_target(directory, &status)) {
        case UNUSABLE: return MINISIGN_WRITING_FAILED;
        case ABSENT: return set_new_file_permissions(directory, NULL);
        case PRESENT: break;
        }
        if (read_permissions(&existing, directory->fd, directory->target.name)) {
            return set_new_file_permissions(directory, &existing);
        }
        if (errno != ENOENT && errno != ELOOP) {
            return fail_with_errno(directory, &directory->target, MINISIGN_WRITING_FAILED);
        }
    }
    return fail_after_retries(directory, &directory->target);
}

enum minisign_error sync_file(struct directory *directory, const struct work_file *work_file)
{
    return fail_unless_written(directory, work_file->file, sync_to_disk(work_file->fd));
}

enum minisign_error sync_record(struct directory *directory, const struct work_file *work_file)
{
    if (!give_mode(work_file->fd, READABLE_MODE)) {
        return fail_with_errno(directory, &directory->temporary, MINISIGN_WRITING_FAILED);
    }
    return give_to_designated_owner(directory, &directory->record, &directory->temporary, work_file->fd)
               ? sync_file(directory, work_file)
               : MINISIGN_WRITING_FAILED;
}

/* ---- Renaming and removing ---- */

enum minisign_error rename_file(struct directory *directory, struct work_file *work_file, const struct named_file *to)
{
    if (!still_holds_lock(directory)) {
        return MINISIGN_WRITING_FAILED;
    }
    work_file->has_name = AGAIN(renameat(directory->fd, work_file->name, directory->fd, to->name)) != 0;
    return fail_unless_written(directory, to, !work_file->has_name);
}

enum minisign_error sync_directory(struct directory *directory)
{
    /* EINVAL: the file system cannot sync directories. */
    return fail_unless_written(directory, &directory->self, sync_to_disk(directory->fd) || errno == EINVAL);
}

enum minisign_error remove_temporary_files(struct directory *directory)
{
    struct work_file *const temporary_files[] = { &directory->new_record, &directory->new_file };
    enum minisign_error error = MINISIGN_OK;

    for (size_t i = 0; i < sizeof temporary_files / sizeof temporary_files[0]; i++) {
        if (temporary_files[i]->has_name && unlink_temporary_file(directory, temporary_files[i]) != MINISIGN_OK) {
            error = MINISIGN_WRITING_FAILED;
        }
    }
    return error;
}
