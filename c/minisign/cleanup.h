/* SPDX-License-Identifier: MIT */
/* Runs functions that clear secrets and remove temporary files when the program ends, even if a signal ends it. */
#ifndef CLEANUP_H
#define CLEANUP_H

#include "shared/system.h"

/* Registers a function to be called when the program ends. It must be async-signal-safe: it may only make system calls
 * and write memory. */
void clean_at_end(void (*cleaner)(void));

/* Returns true if the default action of a signal is to end the program. */
bool ends_program(int signo);

/* Returns true for the signals that report an error in the program itself, such as SIGSEGV. */
bool is_crash(int signo);

#endif
