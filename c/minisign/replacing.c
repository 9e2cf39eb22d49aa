/* SPDX-License-Identifier: MIT */
/* Replaces files in one step: writes the new content to a temporary file, and renames it to its destination, which is a
 * directory and a name (destinations.h). */
#include "replacing.h"

#include <sodium.h>

#include "cleanup.h"
#include "destinations.h"
#include "files.h"
#include "leftovers.h"
#include "shared/permissions.h"
#include "shared/streams.h"
#include "shared/temporary_files.h"

/* The maximum number of tries to create a temporary file, if other runs delete it before it is locked. */
#define MAX_TRIES 100
/* Before a file of at least this size is read, the queued files are put in place, because the reading takes time. */
#define SMALL_BYTES (1 << 20)
/* The number of files that can be queued depends on the number of free descriptors. Each queued file holds two. Of the
 * descriptors below COUNTED_DESCRIPTORS, ten are left for everything else. */
#define QUEUED_DESCRIPTORS 2
#define SPARE_DESCRIPTORS 10
#define COUNTED_DESCRIPTORS 256

struct replacement {
    /* The destination of the file. `destination.file` is NULL if this entry of `replacements` is free. */
    struct destination destination;
    /* The temporary file, which is open and locked until it is renamed. -1 if the content was written in place. */
    int fd;
    /* The name of the temporary file. `is_named` is set before the file gets the name, so that a signal handler never
     * misses a file that has to be removed. */
    char name[TEMPORARY_NAME_BYTES];
    volatile sig_atomic_t is_named;
    bool is_key;
    /* True if an existing file may be replaced. */
    bool may_replace;
    /* True if the file is synced, or need not be synced. */
    bool is_synced;
    /* True if the file is complete, and will be synced and put in place together with others. */
    bool is_queued;
    /* The other file of a key pair. If the partner is not put in place, this file is removed again from its place: by
     * exchanging the names again if `is_exchanged`, otherwise by unlinking it. */
    struct replacement *volatile partner;
    volatile sig_atomic_t is_exchanged;
};

/* The maximum number of queued files. Syncing all of them takes little more time than syncing one. There is one more
 * entry for the file that is being written. A key pair needs two entries, but is never written while files are
 * queued. */
enum { MAX_QUEUED = 32, MAX_REPLACEMENTS = MAX_QUEUED + 1 };
static struct replacement replacements[MAX_REPLACEMENTS];
static int queued_count;

/* ---- Names ---- */

/* Gives an unnamed temporary file a random name. */
static bool name_temporary_file(struct replacement *replacement)
{
    replacement->is_named = random_temporary_name(replacement->name);
    if (replacement->is_named
        && !link_unnamed(replacement->fd, replacement->destination.directory, replacement->name)) {
        replacement->is_named = 0;
    }
    return replacement->is_named;
}

/* Returns true if the name of a destination refers to the new file. Async-signal-safe. */
static bool is_new_file_at(const struct replacement *replacement, const struct destination *destination)
{
    struct stat opened, named;

    return fstat(replacement->fd, &opened) == 0
           && fstatat(destination->directory, destination->name, &named, AT_SYMLINK_NOFOLLOW) == 0
           && is_same_file(&opened, &named);
}

/* Reads the start of the file at a destination, up to the size of the buffer. Returns the number of bytes, or -1. */
static ssize_t read_destination(const struct destination *destination, uint8_t bytes[TEXT_BUFFER_BYTES])
{
    int fd = AGAIN(openat(destination->directory, destination->name, O_RDONLY | O_NOFOLLOW | O_NONBLOCK | O_CLOEXEC));
    ssize_t len = fd < 0 ? -1 : read_whole(fd, bytes, TEXT_BUFFER_BYTES);

    if (fd >= 0) {
        close(fd);
    }
    return len;
}

/* Returns true if there are files at both destinations, and they have the same content. */
static bool have_same_content(const struct destination *first, const struct destination *second)
{
    uint8_t first_bytes[TEXT_BUFFER_BYTES], second_bytes[TEXT_BUFFER_BYTES];
    ssize_t len = read_destination(first, first_bytes);
    bool are_same = len > 0 && read_destination(second, second_bytes) == len
                    && memcmp(first_bytes, second_bytes, (size_t) len) == 0;

    sodium_memzero(first_bytes, sizeof first_bytes);
    sodium_memzero(second_bytes, sizeof second_bytes);
    return are_same;
}

/* Returns true if the new file was put in place, or its content was written in place. Async-signal-safe. */
static bool is_placed(const struct replacement *replacement)
{
    return replacement->fd < 0 || is_new_file_at(replacement, &replacement->destination);
}

/* ---- Removal at exit ---- */

/* Removes a file of a key pair from its place again if the other file is not in place. Async-signal-safe. */
static void undo_replacement(struct replacement *replacement)
{
    const struct destination *destination = &replacement->destination;

    if (replacement->partner == NULL || replacement->fd < 0 || is_placed(replacement->partner)
        || !is_placed(replacement)) {
        return;
    }
    if (replacement->is_exchanged) {
        /* If the exchange fails, the temporary name still refers to the replaced file, which must not be removed. */
        replacement->is_named = exchange_names(destination->directory, replacement->name, destination->name);
    } else {
        unlinkat(destination->directory, destination->name, 0);
    }
}

/* Removes all temporary files. Async-signal-safe. */
static void delete_temporary_files(void)
{
    for (struct replacement *replacement = replacements; replacement < replacements + MAX_REPLACEMENTS; replacement++) {
        undo_replacement(replacement);
        if (replacement->is_named) {
            unlinkat(replacement->destination.directory, replacement->name, 0);
        }
    }
}

static void finish_queued_replacements(void);

/* Registers the functions that run when the program ends. Only the first call has an effect. Also ignores SIGXFSZ, so
 * that a write beyond the file size limit returns an error and does not kill the program. */
static void register_cleanup(void)
{
    static bool is_registered;

    if (!is_registered) {
        is_registered = true;
        clean_at_end(delete_temporary_files);
        signal(SIGXFSZ, SIG_IGN);
        if (atexit(finish_queued_replacements) != 0) {
            fail_with_hint(NULL, "the clean-up at exit could not be registered", NULL);
        }
    }
}

static struct replacement *find_free_replacement(void)
{
    for (struct replacement *replacement = replacements; replacement < replacements + MAX_REPLACEMENTS; replacement++) {
        if (replacement->destination.file == NULL) {
            replacement->fd = -1;
            return replacement;
        }
    }
    fail_with_hint(NULL, "too many files are written at the same time", NULL);
}

/* Closes the descriptors of a replacement and removes its temporary name, so that the entry is free again. If the name
 * cannot be removed, the entry is kept, so that the end of the program tries again. */
static void release_replacement(struct replacement *replacement)
{
    replacement->partner = NULL;
    if (replacement->is_named && unlinkat(replacement->destination.directory, replacement->name, 0) != 0
        && errno != ENOENT) {
        return;
    }
    close_if_open(&replacement->fd);
    release_destination(&replacement->destination);
    *replacement = (struct replacement) { .fd = -1 };
}

/* ---- Writing ---- */

/* Creates and locks a temporary file. It has no name if the file system supports that (O_TMPFILE). Otherwise it has a
 * random name, and another run may remove it before it is locked: then the function tries again. */
static bool open_temporary_file(struct replacement *replacement, mode_t mode)
{
    replacement->fd = open_unnamed(replacement->destination.directory, mode);
    if (replacement->fd >= 0) {
        return lock_temporary_file(replacement->fd);
    }
    for (int i = 0; i < MAX_TRIES && random_temporary_name(replacement->name); i++) {
        struct stat created;

        replacement->is_named = 1;
        replacement->fd = open_named(replacement->destination.directory, replacement->name, mode);
        if (replacement->fd >= 0 && lock_temporary_file(replacement->fd) && fstat(replacement->fd, &created) == 0
            && created.st_nlink > 0) {
            return true;
        }
        replacement->is_named = 0;
        if (replacement->fd < 0) {
            return false;
        }
        unlinkat(replacement->destination.directory, replacement->name, 0);
        close_if_open(&replacement->fd);
        errno = EBUSY;
    }
    return false;
}

/* Copies the owner, mode and access list of the existing file to the temporary file. If `owner_only`, copies only the
 * owner's permissions. */
static void copy_permissions(const struct replacement *replacement, bool owner_only)
{
    static struct permissions existing;

    check_errno(read_permissions_fd(&existing, replacement->destination.existing_fd), replacement->destination.file);
    if (owner_only) {
        replace_mode(&existing, existing.mode & S_IRWXU);
    }
    check_errno(give_permissions(replacement->fd, &existing), replacement->destination.file);
}

/* Writes to the existing file. Truncates a regular file first, unless it was named as a descriptor, such as
 * /dev/fd/3. */
static void write_in_place(struct destination *destination, const uint8_t *bytes, size_t len)
{
    int fd = destination->existing_fd;
    bool must_truncate = S_ISREG(destination->existing.status.st_mode) && !destination->names_descriptor;

    check_errno((!must_truncate || ftruncate(fd, 0) == 0) && write_whole(fd, bytes, len), destination->file);
    destination->existing_fd = -1;
    check_errno(close(fd) == 0, destination->file);
}

static bool is_secret(enum file_kind kind)
{
    return kind == NEW_SECRET_KEY || kind == CHANGED_SECRET_KEY || kind == UNSEALED_SECRET_KEY;
}

void reject_untrusted_file(const char *file, enum file_kind kind)
{
    struct stat status;
    struct destination destination;

    if (stat(file, &status) == 0 || errno == EACCES) {
        destination = find_destination(file, is_secret(kind));
        release_destination(&destination);
    }
}

/* Returns a replacement that does not have a temporary file yet. Opens the existing file, if there is one. Returns NULL
 * if a file exists and must not be replaced. */
static struct replacement *begin_replacement(const char *file, enum file_kind kind, bool may_replace)
{
    struct replacement *replacement = find_free_replacement();

    register_cleanup();
    replacement->destination = find_destination(file, is_secret(kind));
    replacement->may_replace = may_replace;
    if (replacement->destination.has_existing && !may_replace) {
        release_replacement(replacement);
        return NULL;
    }
    open_existing(&replacement->destination);
    return replacement;
}

/* Writes the content to a temporary file, or in place. */
static void write_replacement(struct replacement *replacement, enum file_kind kind, const uint8_t *bytes, size_t len)
{
    mode_t mode;
    int fd;

    if (is_written_in_place(&replacement->destination)) {
        write_in_place(&replacement->destination, bytes, len);
        return;
    }
    replacement->is_key = kind != SIGNATURE;
    replacement->is_synced = !replacement->is_key && !replacement->destination.has_existing;
    mode = is_secret(kind) || replacement->destination.has_existing ? 0600 : 0666;
    remove_unlocked_files(replacement->destination.directory);
    check_errno(open_temporary_file(replacement, mode), replacement->destination.file);
    check_errno(!is_secret(kind) || remove_inherited_list(replacement->fd), replacement->destination.file);
    if (replacement->destination.has_existing && kind != NEW_SECRET_KEY) {
        copy_permissions(replacement, kind == UNSEALED_SECRET_KEY || (is_secret(kind) && !has_access_lists));
    }
    check_errno(write_whole(replacement->fd, bytes, len), replacement->destination.file);
    if (replacement->is_synced) {
        /* Some file systems report a failed write only when the file is closed. */
        fd = dup(replacement->fd);
        check_errno(fd < 0 || close(fd) == 0, replacement->destination.file);
    } else {
        /* Starts writing to the disk now, so that fsync takes less time. */
        start_writeback(replacement->fd, 0, 0);
    }
}

struct replacement *prepare_replacement(const char *file, enum file_kind kind, bool may_replace, const uint8_t *bytes,
                                        size_t len)
{
    struct replacement *replacement = begin_replacement(file, kind, may_replace);

    if (replacement != NULL) {
        write_replacement(replacement, kind, bytes, len);
    }
    return replacement;
}

bool have_same_destination(const struct replacement *first, const struct replacement *second)
{
    const struct destination *destination = &first->destination, *second_destination = &second->destination;

    return is_same_destination(destination, second_destination)
           || (first->fd >= 0 && second->fd >= 0 && destination->has_existing && second_destination->has_existing
               && has_same_attributes(&destination->existing.status, &second_destination->existing.status)
               && have_same_content(destination, second_destination));
}

/* Syncs all temporary files that need it. */
static void sync_temporary_files(void)
{
    for (struct replacement *replacement = replacements; replacement < replacements + MAX_REPLACEMENTS; replacement++) {
        if (replacement->destination.file != NULL && replacement->fd >= 0 && !replacement->is_synced) {
            bool is_queued = replacement->is_queued;

            /* If syncing fails, the program ends, and finish_queued_replacements must not put this file in place. */
            replacement->is_queued = false;
            check_errno(sync_to_disk(replacement->fd), replacement->destination.file);
            replacement->is_synced = true;
            replacement->is_queued = is_queued;
        }
    }
}

/* ---- Putting in place ---- */

/* The result of putting a file in place: success, a file exists that must not be replaced, or an error (in errno). */
enum placement { PLACED, NAME_TAKEN, NOT_PLACED };

/* Copies the new content to the existing file, which cannot be replaced by renaming because it is a mount point. Fails
 * if the content is secret and other users can access the existing file. */
static bool overwrite(struct replacement *replacement)
{
    uint8_t bytes[TEXT_BUFFER_BYTES];
    bool is_written;
    ssize_t len;
    int fd;

    if (replacement->destination.is_secret && !may_keep_secret(&replacement->destination.existing.status)) {
        errno = EBUSY;
        return false;
    }
    if (replacement->destination.existing_fd < 0) {
        replacement->destination.existing_fd =
            open_by_path(&replacement->destination.existing, replacement->destination.file, O_WRONLY | O_CLOEXEC);
    }
    fd = replacement->destination.existing_fd;
    len = fd >= 0 && lseek(replacement->fd, 0, SEEK_SET) == 0 ? read_whole(replacement->fd, bytes, sizeof bytes) : -1;
    is_written = len >= 0 && ftruncate(fd, 0) == 0 && write_whole(fd, bytes, (size_t) len) && sync_to_disk(fd);
    sodium_memzero(bytes, sizeof bytes);
    return is_written;
}

/* Puts a temporary file that has a name in place. */
static enum placement rename_replacement(struct replacement *replacement)
{
    const struct destination *destination = &replacement->destination;

    if (replacement->may_replace
            ? renameat(destination->directory, replacement->name, destination->directory, destination->name) == 0
            : rename_no_replace(destination->directory, replacement->name, destination->name)) {
        replacement->is_named = 0;
        return PLACED;
    }
    if (!replacement->may_replace && errno == EEXIST) {
        return NAME_TAKEN;
    }
    return errno == EBUSY && replacement->destination.has_existing && overwrite(replacement) ? PLACED : NOT_PLACED;
}

/* Puts a temporary file in place. An unnamed file is linked or, if it replaces an existing file, named and renamed. */
static enum placement place_replacement(struct replacement *replacement)
{
    if (replacement->fd < 0) {
        return PLACED;
    }
    if (!replacement->is_named && !replacement->destination.has_existing) {
        if (link_unnamed(replacement->fd, replacement->destination.directory, replacement->destination.name)) {
            return PLACED;
        }
        if (errno != EEXIST || !replacement->may_replace) {
            return errno == EEXIST ? NAME_TAKEN : NOT_PLACED;
        }
    }
    return replacement->is_named || name_temporary_file(replacement) ? rename_replacement(replacement) : NOT_PLACED;
}

/* Returns true if the file was put in place. Ends the program after an error. */
static bool was_placed(const struct replacement *replacement, enum placement placement)
{
    check_errno(placement != NOT_PLACED, replacement->destination.file);
    return placement == PLACED;
}

/* Syncs the new name of a file: syncs its directory, if the system supports that. */
static void sync_new_name(const struct replacement *replacement)
{
    int fd;

    if (replacement->fd < 0) {
        return;
    }
    /* Syncs the file too, because linking an unnamed file has changed its link count. */
    check_errno(sync_to_disk(replacement->fd), replacement->destination.file);
    fd = openat(replacement->destination.directory, ".", O_RDONLY | O_DIRECTORY | O_CLOEXEC);
    check_errno(fd < 0 || sync_to_disk(fd) || errno == EINVAL, replacement->destination.file);
    close_if_open(&fd);
}

bool put_in_place(struct replacement *replacement)
{
    bool is_in_place;

    if (replacement->fd >= 0 && !replacement->is_synced) {
        sync_temporary_files();
    }
    is_in_place = was_placed(replacement, place_replacement(replacement));
    if (is_in_place && replacement->is_key) {
        sync_new_name(replacement);
    }
    release_replacement(replacement);
    return is_in_place;
}

void replace_key(const char *file, enum file_kind kind, uid_t owner, const uint8_t *bytes, size_t len)
{
    struct replacement *replacement = begin_replacement(file, kind, true);

    if (replacement->destination.has_existing && replacement->destination.existing.status.st_uid != owner) {
        fail_with_hint(file, "another user replaced this file after the key was read",
                       "check who can write to its directory, then try again");
    }
    write_replacement(replacement, kind, bytes, len);
    put_in_place(replacement);
}

/* ---- Pairs ---- */

/* Exchanges the names of the temporary file and the existing file. The existing file has the temporary name until the
 * other file of the pair is in place, and is locked so that no run removes it as a leftover. Returns false if the file
 * system cannot exchange names. */
static bool exchange_with_existing(struct replacement *replacement)
{
    const struct destination *destination = &replacement->destination;

    if (!replacement->is_named && !name_temporary_file(replacement)) {
        return false;
    }
    lock_temporary_file(destination->existing_fd);
    replacement->is_exchanged = 1;
    replacement->is_exchanged = exchange_names(destination->directory, replacement->name, destination->name);
    return replacement->is_exchanged;
}

/* Puts the first file of a pair in place. If the program ends before the partner is in place, the first file is removed
 * again. */
static enum placement place_with_partner(struct replacement *replacement, struct replacement *partner)
{
    replacement->partner = partner;
    if (replacement->fd < 0 || (replacement->destination.has_existing && exchange_with_existing(replacement))) {
        return PLACED;
    }
    replacement->partner = replacement->destination.has_existing ? NULL : partner;
    return place_replacement(replacement);
}

const char *put_both_in_place(struct replacement *first, struct replacement *second)
{
    const char *existing = NULL;

    sync_temporary_files();
    if (!was_placed(first, place_with_partner(first, second))) {
        existing = first->destination.file;
    } else {
        sync_new_name(first);
        /* On some file systems, two names such as k.key and k.KEY refer to the same file. Then the second file would
         * replace the first. FUSE may report different inode numbers for the two names, so the contents are compared
         * too. Equal contents show that it is the same file, because the first file is a new public key. */
        if (first->fd >= 0 && second->fd >= 0
            && (is_new_file_at(first, &second->destination)
                || have_same_content(&first->destination, &second->destination))) {
            undo_replacement(first);
            fail_with_hint(second->destination.file,
                           "on this file system, this is the same file as the other key file",
                           "use -s FILE and -p FILE to name two different files");
        }
        if (was_placed(second, place_replacement(second))) {
            first->partner = NULL;
            sync_new_name(second);
        } else {
            existing = second->destination.file;
            undo_replacement(first);
        }
    }
    release_replacement(first);
    release_replacement(second);
    return existing;
}

/* ---- Queued files ---- */

/* Puts the queued files in place when the program ends, because they are complete. */
static void finish_queued_replacements(void)
{
    for (struct replacement *replacement = replacements; replacement < replacements + MAX_REPLACEMENTS; replacement++) {
        if (replacement->is_queued
            && ((!replacement->is_synced && !sync_to_disk(replacement->fd))
                || place_replacement(replacement) != PLACED)) {
            print_errno(replacement->destination.file);
        }
    }
}

/* Returns the maximum number of files to queue. It depends on the number of free descriptors, which are counted only
 * once. */
static int max_queued(void)
{
    static int max;
    long limit = sysconf(_SC_OPEN_MAX);
    int free_descriptors = 0;

    if (max == 0) {
        for (int fd = 0; fd < COUNTED_DESCRIPTORS && (limit < 0 || fd < limit); fd++) {
            free_descriptors += fcntl(fd, F_GETFD) < 0;
        }
        max = (free_descriptors - SPARE_DESCRIPTORS) / QUEUED_DESCRIPTORS;
        max = max < 1 ? 1 : max > MAX_QUEUED ? MAX_QUEUED : max;
    }
    return max;
}

void queue_replacement(const char *file, enum file_kind kind, const uint8_t *bytes, size_t len)
{
    struct replacement *replacement = prepare_replacement(file, kind, true, bytes, len);

    if (replacement->fd < 0 || replacement->is_synced) {
        put_in_place(replacement);
        return;
    }
    close_existing(&replacement->destination);
    replacement->is_queued = true;
    queued_count++;
    if (queued_count >= max_queued()) {
        finish_replacements();
    }
}

void finish_replacements(void)
{
    sync_temporary_files();
    for (struct replacement *replacement = replacements; replacement < replacements + MAX_REPLACEMENTS; replacement++) {
        if (replacement->is_queued) {
            replacement->is_queued = false;
            put_in_place(replacement);
        }
    }
    queued_count = 0;
}

void finish_replacements_before(const char *file)
{
    struct stat status;
    bool is_small;

    if (queued_count == 0) {
        return;
    }
    is_small = stat(file, &status) == 0 && S_ISREG(status.st_mode) && status.st_size < SMALL_BYTES;
    for (struct replacement *replacement = replacements; replacement < replacements + MAX_REPLACEMENTS && is_small;
         replacement++) {
        is_small = !replacement->is_queued || !is_same_file(&replacement->destination.existing.status, &status);
    }
    if (!is_small) {
        finish_replacements();
    }
}
