/* SPDX-License-Identifier: MIT */
/* Prints the message of minisign-install that no other program has. A message that cannot be written does not change
 * the exit status. */
#ifndef INSTALL_MESSAGES_H
#define INSTALL_MESSAGES_H

/* Prints `error: FILE: TEXT (os error NUMBER)` for this value of errno. */
void print_system_error(const char *file, int error_number);

#endif
