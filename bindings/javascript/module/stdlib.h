/* SPDX-License-Identifier: MIT */
/* Declares the functions of <stdlib.h> that dist/calls.c and c/library/portable/allocation.c use. memory.c defines them. */
#ifndef STDLIB_H
#define STDLIB_H

#include <stddef.h>

void *malloc(size_t len);
void free(void *block);
_Noreturn void abort(void);

#endif
