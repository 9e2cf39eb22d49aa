/* SPDX-License-Identifier: MIT */
/* Asks the user for passwords. */
#ifndef TERMINAL_H
#define TERMINAL_H

#include "shared/system.h"

/* The maximum length of a password in bytes, as in Minisign. */
#define PASSWORD_BYTES 1023

/* A password, without a line end. */
struct password {
    uint8_t bytes[PASSWORD_BYTES];
    size_t len;
};

/*
 * Prints the prompt on standard error, and reads a line from standard input. If standard input is a terminal, it does
 * not echo the password, and its echo is turned on again afterwards, even if a signal ends or stops the program. Ends
 * the program if there is no line, or if the password is too long.
 */
void ask_password(struct password *password, const char *prompt);

#endif
