/* SPDX-License-Identifier: MIT */
/* Declares the functions of <string.h> that dist/calls.c uses. The compiler replaces them by WebAssembly instructions. */
#ifndef STRING_H
#define STRING_H

#include <stddef.h>

void *memcpy(void *to, const void *from, size_t len);
void *memmove(void *to, const void *from, size_t len);
void *memset(void *to, int value, size_t len);

#endif
