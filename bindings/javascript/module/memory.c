/*
 * Allocates memory in the WebAssembly module for signing, which is part of the package for JavaScript.
 * tools/signing_module.py compiles this file together with dist/calls.c. After each call, the caller resets the content of
 * the memory to what it was before the first call, or discards the instance. So malloc can return one block after the
 * other, and free does nothing.
 *
 * SPDX-License-Identifier: MIT
 */
#include <stdint.h>
#include <stdlib.h>

#define PAGE_BYTES 65536
#define ALIGNMENT 16
/* The initial size of the memory, which tools/signing_module.py sets by --initial-memory. Blocks begin at this address. */
#define INITIAL_BYTES 1048576

/* The address of the next block. */
static uintptr_t next = INITIAL_BYTES;

/* Adds this many pages to the memory. Returns 0 if the engine does not allow it. */
static int grow(size_t pages)
{
    return __builtin_wasm_memory_grow(0, pages) != SIZE_MAX;
}

void *malloc(size_t len)
{
    /* The memory may have grown in an earlier call. */
    const uintptr_t end = __builtin_wasm_memory_size(0) * PAGE_BYTES;
    void *block;

    if (len > PTRDIFF_MAX - ALIGNMENT) {
        return NULL;
    }
    len = (len + ALIGNMENT - 1) / ALIGNMENT * ALIGNMENT;
    if (len > end - next && !grow((len - (end - next) + PAGE_BYTES - 1) / PAGE_BYTES)) {
        return NULL;
    }
    block = (void *) next;
    next += len;
    return block;
}

void free(void *block)
{
    (void) block;
}

void abort(void)
{
    __builtin_trap();
}
