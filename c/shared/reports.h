/* SPDX-License-Identifier: MIT */
/*
 * Prints the errors and hints of the programs on standard error: `error: FILE: what happened`, then `hint: what to do`.
 * Each line is written by one call, so that the lines of concurrent processes do not mix.
 */
#ifndef REPORTS_H
#define REPORTS_H

#include "system.h"

/* Prints an error. `file` is NULL if the error is not about a file. */
void print_error(const char *file, const char *message);

/* Prints what the user can do about the error, or nothing if `hint` is NULL. */
void print_hint(const char *hint);

#endif
