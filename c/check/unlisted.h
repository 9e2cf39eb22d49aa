/* SPDX-License-Identifier: MIT */
/* Finds files that are not in the list, for --nothing-else. */
#ifndef CHECK_UNLISTED_H
#define CHECK_UNLISTED_H

#include "listing.h"

/* Prints and records each regular file in the current directory that is not in the list, except the list itself and its
 * signature file. Symbolic links are followed. */
void find_unlisted(const struct listing *listing);

#endif
