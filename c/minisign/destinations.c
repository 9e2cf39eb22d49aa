/* SPDX-License-Identifier: MIT */
/* Finds the directory and the name under which a file is to be written. */
#include "destinations.h"

#include "files.h"
#include "shared/streams.h"

/* The maximum number of symbolic links in a path, as in Linux. */
#define MAX_LINKS 40
/* The size of the buffer for the target of a symbolic link. */
#define TARGET_BYTES 4096
/* The maximum number of attempts to look up a path while other processes change it. */
#define MAX_TRIES 100

#define DIRECTORY_HINT "use a directory that only you can write to"

bool is_written_in_place(const struct destination *destination)
{
    return destination->name == NULL;
}

void close_existing(struct destination *destination)
{
    close_if_open(&destination->existing.fd);
    close_if_open(&destination->existing_fd);
}

static void release_name(struct destination *destination)
{
    close_if_open(&destination->directory);
    free(destination->name);
    destination->name = NULL;
}

void release_destination(struct destination *destination)
{
    close_existing(destination);
    release_name(destination);
}

/* ---- Files of other users ---- */

/* Returns true if a file belongs to neither the user nor root. */
static bool is_untrusted(const struct stat *file)
{
    return file->st_uid != geteuid() && file->st_uid != 0;
}

/* Returns true if an untrusted user may have put this file there: the directory is sticky, so that only owners can
 * remove files, and is writable for these classes of users. The owner of the directory is trusted unless a secret is
 * written. */
static bool is_planted(const struct destination *destination, const struct stat *file, const struct stat *parent,
                       mode_t writers)
{
    return (parent->st_mode & S_ISVTX) != 0 && (parent->st_mode & writers) != 0 && is_untrusted(file)
           && (destination->is_secret || file->st_uid != parent->st_uid);
}

/* Returns true if a standard stream of the program is this file. */
static bool is_standard_stream(const struct stat *file)
{
    struct stat stream;

    for (int fd = STDIN_FILENO; fd <= STDERR_FILENO; fd++) {
        if (fstat(fd, &stream) == 0 && is_same_file(&stream, file)) {
            return true;
        }
    }
    return false;
}

/* Ends the program if an untrusted user may have put the existing file or pipe there. With the settings
 * protected_regular and protected_fifos, Linux also rejects such files, when they are opened with O_CREAT. */
static void reject_planted_file(const struct destination *destination)
{
    struct stat parent;

    check_errno(fstat(destination->directory, &parent) == 0, destination->file);
    if (is_planted(destination, &destination->existing.status, &parent, S_IWOTH | S_IWGRP)) {
        fail_with_hint(destination->file, "this file belongs to another user, and others can write to its directory",
                       DIRECTORY_HINT);
    }
}

/* ---- Symbolic links ---- */

/* Returns true if a symbolic link may be followed. On failure, returns false and sets errno. Ends the program if an
 * untrusted user may have put the link there. With the setting protected_symlinks, Linux does not follow such links
 * either. */
static bool may_follow(const struct destination *destination, const struct stat *link)
{
    struct stat parent;

    if (fstat(destination->directory, &parent) != 0) {
        return false;
    }
    if (has_nosymfollow(destination->directory)) {
        errno = ELOOP;
        return false;
    }
    if (is_planted(destination, link, &parent, S_IWOTH)) {
        fail_with_hint(destination->file,
                       "this path goes through another user's symbolic link in a directory that others can write to",
                       DIRECTORY_HINT);
    }
    return true;
}

/* The kind of a directory entry. UNKNOWN_ENTRY: an error occurred, which is in errno. */
enum entry_kind { LINK, NOT_A_LINK, UNKNOWN_ENTRY };

/* Returns the kind of an entry. If it is a symbolic link, reads its target. A missing entry is not a link. */
static enum entry_kind read_link(const struct destination *destination, const char *name, char target[TARGET_BYTES])
{
    enum entry_kind kind = UNKNOWN_ENTRY;
    struct handle link;
    ssize_t len;

    if (!look_up(&link, destination->directory, name, false)) {
        return errno == ENOENT ? NOT_A_LINK : UNKNOWN_ENTRY;
    }
    if (!S_ISLNK(link.status.st_mode)) {
        kind = NOT_A_LINK;
    } else if (may_follow(destination, &link.status)) {
        len = read_handle_link(&link, destination->directory, name, target, TARGET_BYTES);
        if (len == TARGET_BYTES) {
            errno = ENAMETOOLONG;
        } else if (len >= 0) {
            target[len] = 0;
            kind = LINK;
        }
    }
    close_if_open(&link.fd);
    return kind;
}

/* Opens a directory as `destination->directory`. The name is relative to the directory that was entered before, or to
 * the current directory at first. If `kernel_follows`, the kernel follows a link of this name, as it must in /proc,
 * where the text of a link is not its target. */
static bool enter_directory(struct destination *destination, const char *name, bool kernel_follows)
{
    int directory = open_lookup_directory(destination->directory < 0 ? AT_FDCWD : destination->directory, name,
                                          kernel_follows);

    if (directory < 0) {
        return false;
    }
    close_if_open(&destination->directory);
    destination->directory = directory;
    return true;
}

/* Resolves the path component by component, and follows each symbolic link. Sets `directory` and `name` of the
 * destination. *path was allocated with malloc, and may be reallocated. On failure, returns false and sets errno. */
static bool resolve_path(struct destination *destination, char **path)
{
    static char target[TARGET_BYTES];
    char *rest = *path;

    if (!enter_directory(destination, *rest == '/' ? "/" : ".", false)) {
        return false;
    }
    for (int links = 0; links <= MAX_LINKS;) {
        char *name = strsep(&rest, "/"), *longer;
        bool kernel_follows = rest != NULL && is_on_procfs(destination->directory);
        enum entry_kind kind = *name == 0 || kernel_follows ? NOT_A_LINK : read_link(destination, name, target);

        if (*name == 0 && rest != NULL) {
            continue;
        }
        if (kind == NOT_A_LINK && rest == NULL) {
            destination->name = join(name, "", "");
            return true;
        }
        if (kind == LINK) {
            longer = rest == NULL ? join(target, "", "") : join(target, "/", rest);
            free(*path);
            *path = rest = longer;
            links++;
        }
        if (kind == UNKNOWN_ENTRY || (kind == NOT_A_LINK && !enter_directory(destination, name, kernel_follows))
            || (kind == LINK && *rest == '/' && !enter_directory(destination, "/", false))) {
            return false;
        }
    }
    errno = ELOOP;
    return false;
}

/* Finds the directory and the name that the path leads to. On failure, returns false and sets errno. */
static bool follow_links(struct destination *destination)
{
    char *path = join(destination->file, "", "");
    bool is_resolved = resolve_path(destination, &path);
    int saved_errno = errno;

    free(path);
    errno = saved_errno;
    if (is_resolved && *destination->name == 0) {
        errno = ENOENT;
        return false;
    }
    return is_resolved;
}

/* ---- Descriptors ---- */

/* Returns the descriptor that a path in /dev or /proc names, or -1 if it names none. */
static int descriptor_of(const char *file)
{
    static const char *const streams[] = { "/dev/stdin", "/dev/stdout", "/dev/stderr" };
    static const char *const prefixes[] = { "/dev/fd/", "/proc/self/fd/" };

    for (int fd = STDIN_FILENO; fd <= STDERR_FILENO; fd++) {
        if (strcmp(file, streams[fd]) == 0) {
            return fd;
        }
    }
    for (size_t i = 0; i < sizeof prefixes / sizeof prefixes[0]; i++) {
        size_t len = strlen(prefixes[i]);

        if (strncmp(file, prefixes[i], len) == 0 && strlen(file + len) < 10 && file[len] != 0
            && strspn(file + len, "0123456789") == strlen(file + len)) {
            return atoi(file + len);
        }
    }
    return -1;
}

bool may_keep_secret(const struct stat *status)
{
    return !is_untrusted(status) && (status->st_mode & (S_IRWXG | S_IRWXO)) == 0;
}

/* If the path names a descriptor that has a regular file open for writing, duplicates the descriptor and returns
 * true. */
static bool use_descriptor(struct destination *destination)
{
    int fd = descriptor_of(destination->file), flags;

    if (fd < 0) {
        return false;
    }
    if (was_closed_at_start(fd)) {
        fail_with_hint(destination->file, "this standard stream is closed",
                       "redirect it to a file, or use the path of a file");
    }
    flags = fcntl(fd, F_GETFL);
    if (flags < 0 || (flags & O_ACCMODE) == O_RDONLY || fstat(fd, &destination->existing.status) != 0
        || !S_ISREG(destination->existing.status.st_mode)) {
        return false;
    }
    if (destination->is_secret && !may_keep_secret(&destination->existing.status)) {
        fail_with_hint(destination->file, "other users can access this file, so no secret key was written to it",
                       "use a file that only you can access (chmod 600)");
    }
    destination->existing_fd = fcntl(fd, F_DUPFD_CLOEXEC, 0);
    check_errno(destination->existing_fd >= 0, destination->file);
    destination->has_existing = destination->names_descriptor = true;
    return true;
}

/* ---- Destinations ---- */

/* Returns true for an existing file that must have a name: a regular file that was not deleted, or a named pipe. */
static bool must_have_name(const struct handle *existing)
{
    mode_t mode = existing->status.st_mode;

    return existing->status.st_nlink > 0 && (S_ISREG(mode) || (S_ISFIFO(mode) && !is_anonymous_pipe(existing)));
}

/* Returns true if the name that follow_links found refers to the file that the kernel found at the path or, if the
 * kernel found none, to no file. */
static bool leads_to_existing(const struct destination *destination)
{
    struct stat named;

    if (fstatat(destination->directory, destination->name, &named, AT_SYMLINK_NOFOLLOW) != 0) {
        return !destination->has_existing && errno == ENOENT;
    }
    return destination->has_existing && is_same_file(&named, &destination->existing.status);
}

/* Returns this destination as one that is written in place. Ends the program if a secret would be written to another
 * user's file. */
static struct destination in_place_destination(struct destination destination)
{
    const struct stat *status = &destination.existing.status;

    release_name(&destination);
    if (destination.is_secret && is_untrusted(status) && !S_ISDIR(status->st_mode) && !is_standard_stream(status)) {
        fail_with_hint(destination.file, "this file belongs to another user, so no secret key was written to it",
                       "use a file of your own");
    }
    return destination;
}

/* Ends the program because the path cannot be resolved. errno is the reason. The reason EACCES may mean that the system
 * does not follow another user's symbolic link. Then follow_links prints the message about the link instead. */
static _Noreturn void fail_unresolvable(struct destination *destination)
{
    int saved_errno = errno;

    if (saved_errno == EACCES) {
        follow_links(destination);
    }
    errno = saved_errno;
    fail_errno(destination->file);
}

struct destination find_destination(const char *file, bool is_secret)
{
    for (int i = 0; i < MAX_TRIES; i++) {
        struct destination destination = {
            .file = file, .is_secret = is_secret, .directory = -1, .existing.fd = -1, .existing_fd = -1
        };
        bool is_resolved, is_pipe;

        if (use_descriptor(&destination)) {
            return in_place_destination(destination);
        }
        destination.has_existing = look_up(&destination.existing, AT_FDCWD, file, true);
        if (!destination.has_existing && errno != ENOENT) {
            fail_unresolvable(&destination);
        }
        if (destination.has_existing && !must_have_name(&destination.existing)) {
            return in_place_destination(destination);
        }
        is_pipe = destination.has_existing && S_ISFIFO(destination.existing.status.st_mode);
        is_resolved = follow_links(&destination);
        if (is_resolved && leads_to_existing(&destination)) {
            if (destination.has_existing) {
                reject_planted_file(&destination);
            }
            return is_pipe ? in_place_destination(destination) : destination;
        }
        if (is_pipe && (is_standard_stream(&destination.existing.status) || descriptor_of(file) >= 0)) {
            /* The pipe has no name, or a name that only the process knows that has started this program. */
            return in_place_destination(destination);
        }
        check_errno(is_resolved, file);
        release_destination(&destination);
    }
    errno = EBUSY;
    fail_errno(file);
}

/* Ends the program if the directory is sticky, and the user owns neither the directory nor the existing file, because
 * renaming would fail. */
static void require_replaceable(const struct destination *destination)
{
    struct stat parent;
    uid_t user = geteuid();

    check_errno(fstat(destination->directory, &parent) == 0, destination->file);
    if ((parent.st_mode & S_ISVTX) != 0 && user != 0 && user != destination->existing.status.st_uid
        && user != parent.st_uid) {
        errno = EPERM;
        fail_errno(destination->file);
    }
}

void open_existing(struct destination *destination)
{
    for (int i = 0; destination->has_existing && destination->existing_fd < 0; i++) {
        destination->existing_fd = open_handle(&destination->existing, destination->file,
                                               O_WRONLY | O_NOCTTY | O_CLOEXEC);
        if (destination->existing_fd < 0 && errno == EBUSY && i < MAX_TRIES) {
            /* Another process has replaced the file after it was inspected. */
            release_destination(destination);
            *destination = find_destination(destination->file, destination->is_secret);
        } else if (destination->existing_fd < 0) {
            fail_errno(destination->file);
        }
    }
    if (!destination->has_existing || destination->names_descriptor) {
        return;
    }
    check_errno(fstat(destination->existing_fd, &destination->existing.status) == 0, destination->file);
    close_if_open(&destination->existing.fd);
    if (!is_written_in_place(destination)) {
        require_replaceable(destination);
    }
}

bool is_same_destination(const struct destination *first, const struct destination *second)
{
    struct stat parent, second_parent;

    if (first->name == NULL || second->name == NULL) {
        return false;
    }
    if (first->has_existing && second->has_existing) {
        return is_same_file(&first->existing.status, &second->existing.status);
    }
    return strcmp(first->name, second->name) == 0 && fstat(first->directory, &parent) == 0
           && fstat(second->directory, &second_parent) == 0 && is_same_file(&parent, &second_parent);
}
