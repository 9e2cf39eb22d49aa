/* SPDX-License-Identifier: MIT */
/* Copies a verified file to standard output. */
#ifndef CHECK_COPYING_H
#define CHECK_COPYING_H

#include "checking.h"

/* Checks the file that is to be copied, which is the only one. Prints the result on standard error, and records it. */
void check_before_copy(struct files *files);

/* Copies the file that `check_before_copy` has verified to standard output. Reads the file again, and writes a piece
 * only if it is the same as in the first reading. Otherwise ends the program with status OTHER_CONTENT. */
void copy_checked_file(const struct files *files);

#endif
