/* SPDX-License-Identifier: MIT */
/* Declares the functions of this directory that take or return types of Windows. */
#ifndef WINDOWS_NATIVE_H
#define WINDOWS_NATIVE_H

#include "shared/system.h"

#include <wchar.h>

/* Windows 7 and later. */
#ifndef _WIN32_WINNT
#define _WIN32_WINNT 0x0601
#endif
#include <windows.h>

/* Returns the errno that corresponds to an error code of Windows. */
int errno_of(DWORD error);

/* Convert between UTF-8 and UTF-16. The result is allocated with malloc. On failure, they return NULL and set errno. */
wchar_t *to_wide(const char *text);
char *to_utf8(const wchar_t *text);

/* Returns the full path of a file, allocated with malloc, in the form that may be longer than 260 characters. On
 * failure, returns NULL and sets errno. Rejects names that Windows does not take for the name of a file: names with a
 * colon, which name a stream of a file; names of devices, except NUL; and names that end with a dot or a space, which
 * Windows drops. */
wchar_t *wide_path(const char *file);

/* Returns the part of a path after the last separator. */
wchar_t *last_part_of(wchar_t *path);

/* Opens a file or directory to inspect it, even if other processes have it open. Links are followed. */
HANDLE open_to_inspect(const wchar_t *path, DWORD access);

/* Gets the status of an open file. On failure, returns false and sets errno. */
bool status_of_handle(HANDLE handle, struct stat *status);

/* While a thread is between these two calls, no console event such as Ctrl-C ends the program. `clean_at_end` must have
 * been called before. */
void block_termination(void);
void allow_termination(void);

#endif
