/* SPDX-License-Identifier: MIT */
/* Defines the exit statuses of minisign-check, and chooses the status of a run, in which several may apply. */
#ifndef CHECK_OUTCOMES_H
#define CHECK_OUTCOMES_H

#include "shared/system.h"

/* The exit statuses. */
enum outcome {
    ALL_MATCH = 0,
    /* A file could not be used, or an allocation failed. */
    UNUSABLE_FILE = 1,
    WRONG_USAGE = 2,
    LIST_REJECTED = 3,
    OTHER_CONTENT = 4,
    /* A name is not listed, or is listed twice. */
    NOT_ONE_ENTRY = 5,
    MISSING_FILE = 6,
    UNLISTED_FILE = 7
};

/* Records an outcome of the run. Recording ALL_MATCH changes nothing. */
void record_outcome(enum outcome outcome);

/* Returns the exit status of the run: the first of 3, 4, 5, 6, 7 and 1, in this order, that was recorded, otherwise
 * 0. */
enum outcome final_outcome(void);

/* Prints an error and a hint, and ends the program with this outcome. `file` is NULL if the error is not about a file.
 * `hint` is NULL if there is none. */
_Noreturn void exit_with_error(enum outcome outcome, const char *file, const char *message, const char *hint);

/* Prints the text of errno for this file, and ends the program with status UNUSABLE_FILE. */
_Noreturn void exit_with_errno(const char *file);

/* Allocates count * size bytes with malloc and sets them to zeros. Ends the program if there is not enough memory. */
void *allocate(size_t count, size_t size);

#endif
