/* SPDX-License-Identifier: MIT */
/* Copies the permissions of an existing file to the file that replaces it. */
#include "permissions.h"

#include "handles.h"

#define ALL_BITS (S_IRWXU | S_IRWXG | S_IRWXO)

/* ---- Access control lists ---- */

#if defined __linux__ && !defined POSIX_ONLY

#include <sys/xattr.h>

const bool has_access_lists = true;
enum { NO_LIST_ERRNO = ENODATA };

#else

const bool has_access_lists = false;
enum { NO_LIST_ERRNO = EOPNOTSUPP };

#define fgetxattr(fd, name, list, size) ((void) (fd), errno = NO_LIST_ERRNO, -1)
#define getxattr(path, name, list, size) (errno = NO_LIST_ERRNO, -1)
#define fsetxattr(fd, name, list, len, flags) ((void) (fd), (void) (list), errno = NO_LIST_ERRNO, -1)
#define fremovexattr(fd, name) ((void) (fd), errno = NO_LIST_ERRNO, -1)

#endif

#define ACCESS_LIST "system.posix_acl_access"

/* The value of the extended attribute (linux/posix_acl_xattr.h): a version, then entries. Each entry has a tag,
 * permission bits, and a user or group ID, in 2, 2 and 4 bytes, little-endian. */
#define VERSION_BYTES 4
#define ENTRY_BYTES 8

/* The tags of the entries whose permission bits are only in the list. The other tags are those of the owner, of others
 * and of the mask, whose bits are also in the mode. */
enum { NAMED_USER = 0x02, OWNING_GROUP = 0x04, NAMED_GROUP = 0x08 };

/* Returns true if the file has no list, or its file system has no lists. */
static bool is_missing_list(int error)
{
    return error == NO_LIST_ERRNO || error == EOPNOTSUPP;
}

/* Reads the list of a file into `permissions`. The descriptor may be one with O_PATH. On failure, returns false and
 * sets errno. */
static bool read_list(struct permissions *permissions, int fd)
{
    ssize_t len = AGAIN(fgetxattr(fd, ACCESS_LIST, permissions->list, sizeof permissions->list));

    if (len < 0 && errno == EBADF) {
        len = AGAIN(getxattr(proc_path_of(fd).bytes, ACCESS_LIST, permissions->list, sizeof permissions->list));
        permissions->is_list_known = !(len < 0 && errno == ENOENT);
    }
    permissions->list_length = len < 0 ? 0 : (size_t) len;
    return len >= 0 || is_missing_list(errno) || !permissions->is_list_known;
}

/* Returns the permissions that the group, the others, and each user and group in the list all have. (If there is a
 * list, the group's bits of the mode are its mask.) */
static mode_t common_permissions(const struct permissions *permissions)
{
    mode_t common = permissions->mode & (permissions->mode >> 3) & S_IRWXO;

    for (size_t at = VERSION_BYTES; at + ENTRY_BYTES <= permissions->list_length; at += ENTRY_BYTES) {
        const uint8_t *entry = permissions->list + at;
        int tag = entry[0] | entry[1] << 8;

        if (tag == NAMED_USER || tag == OWNING_GROUP || tag == NAMED_GROUP) {
            common &= entry[2];
        }
    }
    return common;
}

/* ---- The existing file ---- */

void replace_mode(struct permissions *permissions, mode_t mode)
{
    permissions->mode = mode & ALL_BITS;
    permissions->is_list_known = true;
    permissions->list_length = 0;
}

/* Copies owner, group and mode. Fails with EINVAL if this is not a regular file. */
static bool copy_status(struct permissions *permissions, const struct stat *status)
{
    if (!S_ISREG(status->st_mode)) {
        errno = EINVAL;
        return false;
    }
    permissions->owner = status->st_uid;
    permissions->group = status->st_gid;
    replace_mode(permissions, status->st_mode);
    return true;
}

bool read_permissions_fd(struct permissions *permissions, int fd)
{
    struct stat status;

    return AGAIN(fstat(fd, &status)) == 0 && copy_status(permissions, &status) && read_list(permissions, fd);
}

bool read_permissions(struct permissions *permissions, int directory, const char *name)
{
    struct handle handle = { .fd = AGAIN(openat(directory, name, O_RDONLY | O_NONBLOCK | O_NOFOLLOW | O_CLOEXEC)) };
    bool is_read = false;

    if (handle.fd >= 0) {
        is_read = read_permissions_fd(permissions, handle.fd);
    } else if (errno == EACCES && look_up(&handle, directory, name, false)) {
        is_read = copy_status(permissions, &handle.status) && (handle.fd < 0 || read_list(permissions, handle.fd));
    }
    close_if_open(&handle.fd);
    return is_read;
}

/* ---- The new file ---- */

bool give_owner(int fd, uid_t owner, gid_t group, bool *is_given)
{
    *is_given = AGAIN(fchown(fd, owner, group)) == 0;
    /* EINVAL: the user namespace has no such owner. */
    return *is_given || errno == EPERM || errno == EINVAL;
}

/* Sets the owner and the group as far as the system allows it. *has_group says whether the file has the group now. */
static bool give_owner_and_group(int fd, const struct stat *status, const struct permissions *permissions,
                                 bool *has_group)
{
    *has_group = status->st_uid == permissions->owner && status->st_gid == permissions->group;
    return *has_group || (give_owner(fd, permissions->owner, permissions->group, has_group)
                          && (*has_group || give_owner(fd, (uid_t) -1, permissions->group, has_group)));
}

bool give_mode(int fd, mode_t mode)
{
    return (AGAIN(fremovexattr(fd, ACCESS_LIST)) == 0 || is_missing_list(errno)) && AGAIN(fchmod(fd, mode)) == 0;
}

bool give_permissions(int fd, const struct permissions *permissions)
{
    mode_t common = (permissions->mode & S_IRWXU) | common_permissions(permissions);
    struct stat status;
    bool has_group;

    if (AGAIN(fstat(fd, &status)) != 0 || !give_owner_and_group(fd, &status, permissions, &has_group)) {
        return false;
    }
    if (!has_group || !permissions->is_list_known) {
        return give_mode(fd, common);
    }
    /* Setting a list also sets the mode, whose bits are in the list. */
    if (permissions->list_length > 0) {
        return AGAIN(fsetxattr(fd, ACCESS_LIST, permissions->list, permissions->list_length, 0)) == 0
               || give_mode(fd, common);
    }
    return give_mode(fd, permissions->mode);
}

#if defined __APPLE__ && !defined POSIX_ONLY

#include <sys/acl.h>

bool remove_inherited_list(int fd)
{
    acl_t empty = acl_init(1);
    bool is_closed = empty != NULL && (acl_set_fd(fd, empty) == 0 || is_missing_list(errno) || errno == ENOTSUP);
    int error = errno;

    acl_free(empty);
    errno = error;
    return is_closed;
}

#else

bool remove_inherited_list(int fd)
{
    (void) fd;
    return true;
}

#endif
