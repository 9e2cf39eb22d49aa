/* SPDX-License-Identifier: MIT */
/* Declares the functions with which the proved calls allocate memory. */
#ifndef ALLOCATION_H
#define ALLOCATION_H

#include <stddef.h>
#include <stdint.h>

/* The result of an allocation: is_granted is 1 on success, and 0 if there is not enough memory. Then block must not be
 * used, but is not NULL either. */
struct grant {
    uint64_t is_granted;
    void *block;
};

struct grant rattle_alloc(size_t len, size_t alignment);
struct grant rattle_realloc(void *block, size_t old_len, size_t len, size_t alignment);
void rattle_dealloc(void *block);

#endif
