/* SPDX-License-Identifier: MIT */
/*
 * Functions that differ between systems: for starting a program (arguments, standard streams, core dumps), and for
 * paths.
 * platform.c is for POSIX, and windows/platform.c for Windows. These two files also define the functions of streams.h
 * for closed standard streams.
 */
#ifndef PLATFORM_H
#define PLATFORM_H

#include "system.h"

/* Converts the arguments to UTF-8, and prepares the standard streams for UTF-8. Returns false if an argument is not
 * Unicode. Does nothing on POSIX. */
bool arguments_to_utf8(int *argc, char ***argv);

/* Keeps the memory of the process, which contains secrets, out of files that the system writes after a crash. */
void forbid_core_dumps(void);

/* Returns the user's home directory, or NULL if it is unknown. */
const char *home_directory(void);

/* Returns a pointer to the last directory separator in a path, or NULL if there is none. On Windows, the colon after a
 * drive letter is not a separator. */
char *last_separator(const char *path);

#endif
