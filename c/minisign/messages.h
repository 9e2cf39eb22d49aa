/* SPDX-License-Identifier: MIT */
/* Prints the messages of this program, worded as in the original Minisign where it has the same message. Also defines
 * Minisign's exit statuses. */
#ifndef MINISIGN_MESSAGES_H
#define MINISIGN_MESSAGES_H

#include "shared/system.h"
#include "minisign.h"
#include "shared/diagnosis.h"

/* Minisign's exit statuses. STATUS_REJECTED is for a signature that is not valid, and for a file that exists and must
 * not be overwritten. STATUS_ERROR is for all other failures. */
enum { STATUS_OK = 0, STATUS_REJECTED = 1, STATUS_ERROR = 2 };

/* The hint for a password or a comment that is not UTF-8. */
#define UTF8_HINT "use a UTF-8 terminal, or only ASCII characters"

/* Prints a message that the original Minisign has too, and ends the program with STATUS_ERROR. */
_Noreturn void fail_as_minisign(const char *line);

/* Prints the name of a file and the text of errno. */
void print_errno(const char *file);

/* Prints the name of a file and the text of errno, and ends the program with STATUS_ERROR. */
_Noreturn void fail_errno(const char *file);

/* Calls `fail_errno` unless `ok`, the result of a system call, is true. */
void check_errno(bool ok, const char *file);

/* Prints an error and a hint, each on its own line and in this program's own format, and ends the program with
 * STATUS_ERROR. `file` and `hint` may be NULL. */
_Noreturn void fail_with_hint(const char *file, const char *message, const char *hint);

/* Ends the program if a comment contains a line break. `comment` may be NULL. */
void require_one_line(const char *comment);

/* Prints an error that the library returned: Minisign's message for it, or if Minisign has no such error, the name of
 * the file and the error in this program's words. */
void print_library_error(const char *file, enum minisign_error error);

/* If the library returned an error, prints it and ends the program with STATUS_ERROR. */
void require_success(enum minisign_error error);

/* Returns the hint for a file that is missing or not of the expected kind: the option with which to name another
 * file. */
const char *hint_for(enum text_kind expected);

/* Returns a key ID as the number that Minisign prints in hexadecimal: its bytes are little-endian. */
uint64_t key_id_number(const uint8_t id[8]);

#endif
