/* SPDX-License-Identifier: MIT */
/* Reads and sets the owners and access lists of files. */
#ifndef WINDOWS_ACCESS_H
#define WINDOWS_ACCESS_H

#include "native.h"

/* The attributes of a new file or directory that only this user and the system may access. */
struct own_access {
    SECURITY_ATTRIBUTES attributes;
    PSECURITY_DESCRIPTOR descriptor;
};

/* Fills the attributes. If `is_directory`, files in the new directory inherit its access list. On failure, returns
 * false and sets errno. */
bool begin_own_access(struct own_access *own, bool is_directory);

/* Frees the attributes. errno is unchanged. */
void end_own_access(struct own_access *own);

/* Returns a digest of the security identifier of a file's owner, or 0 if the owner is unknown. */
uid_t owner_of(HANDLE handle);

/* Gives a file the access list of another file. On failure, returns false and sets errno. */
bool copy_access(HANDLE from, HANDLE to);

/* Gives a file an access list with only this user and the system. On failure, returns false and sets errno. */
bool give_own_access(HANDLE to);

#endif
