/* SPDX-License-Identifier: MIT */
/*
 * Copies the permissions of an existing file to the file that replaces it: owner, group, the nine permission bits, and
 * the access control list. All functions retry calls that a signal interrupts. On failure they return false and set
 * errno.
 *
 * "List" means an access control list here. Linux keeps it in an extended attribute. POSIX has no lists, so on other
 * systems, and in builds with -DPOSIX_ONLY, they are not supported: no list is copied, and a list that a new file
 * inherits from its directory is unchanged.
 */
#ifndef PERMISSIONS_H
#define PERMISSIONS_H

#include "system.h"

/* The maximum length of the value of an extended attribute on Linux. */
#define MAX_LIST_BYTES 65536

/* True if lists are supported. If they are not, an unknown list may let more users read a file than the mode says. */
extern const bool has_access_lists;

struct permissions {
    uid_t owner;
    gid_t group;
    /* The nine permission bits. If the file has a list, the group's bits are the mask of the list. */
    mode_t mode;
    /* The value of the extended attribute. Its length is 0 if the file has no list. If the list could not be read,
     * `is_list_known` is false. */
    bool is_list_known;
    size_t list_length;
    uint8_t list[MAX_LIST_BYTES];
};

/* Reads the permissions of a regular file by its name in a directory. Symbolic links are not followed. */
bool read_permissions(struct permissions *permissions, int directory, const char *name);

/* Reads the permissions of an open file. */
bool read_permissions_fd(struct permissions *permissions, int fd);

/* Replaces the mode and removes the list in `permissions`. */
void replace_mode(struct permissions *permissions, mode_t mode);

/*
 * Sets the permissions of a new, open file to those of an existing one, and removes a list that the new file inherited
 * from its directory. If the system does not allow setting the owner or the group, that is not an error. Any other
 * failure is one.
 *
 * If the group cannot be set, or the list cannot be read or copied, the group of the new file gets no permissions. The
 * class "others" then gets only the permissions that the group, the others, and each user and group in the list all had
 * on the existing file.
 */
bool give_permissions(int fd, const struct permissions *permissions);

/* Sets owner and group. If the system does not allow that, returns true and sets *is_given to false. Any other failure
 * returns false. */
bool give_owner(int fd, uid_t owner, gid_t group, bool *is_given);

/* On macOS, removes the list that a new file inherited from its directory, because it may let others read a file of
 * mode 0600. Does nothing on other systems: there, an inherited list allows no more than the group's bits of the mode.
 * On failure, returns false and sets errno. */
bool remove_inherited_list(int fd);

/* Sets the mode of a new file, and removes the list that it inherited. */
bool give_mode(int fd, mode_t mode);

#endif
