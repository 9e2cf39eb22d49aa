/* SPDX-License-Identifier: MIT */
/* Names and locks temporary files, which are in the directory of their target, and removes the temporary files that
 * killed runs left. */
#ifndef LEFTOVERS_H
#define LEFTOVERS_H

#include "shared/system.h"

/* The name of a temporary file: this prefix, and random bytes as hexadecimal digits. */
#define TEMPORARY_PREFIX ".minisign-"
#define TEMPORARY_RANDOM_BYTES 8
#define TEMPORARY_NAME_BYTES (sizeof TEMPORARY_PREFIX + 2 * TEMPORARY_RANDOM_BYTES)

/* Generates the name of a temporary file. On failure, returns false and sets errno. */
bool random_temporary_name(char name[TEMPORARY_NAME_BYTES]);

/* Locks a temporary file, until it is closed, so that no other run removes it. Returns false if another run holds the
 * lock: then that run is about to remove the file. On a file system without locks, the file is not locked, but no run
 * removes it either. */
bool lock_temporary_file(int fd);

/* Removes the temporary files in a directory that no run has locked, as far as possible. Further calls for the same
 * directory do nothing. */
void remove_unlocked_files(int directory);

#endif
