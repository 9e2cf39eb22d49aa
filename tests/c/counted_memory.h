/* Counts the allocations of a program, and makes some of them fail. The program must be linked with -Wl,--wrap=malloc
 * -Wl,--wrap=realloc -Wl,--wrap=free. All variables are volatile, because compilers assume that malloc and free do not
 * change variables of this file. */
#ifndef COUNTED_MEMORY_H
#define COUNTED_MEMORY_H

#include <stdint.h>
#include <stdlib.h>
#include <string.h>

/* The numbers of the first and of the last request that fail, or 0 if none fails. Requests are counted from 1. */
static volatile long first_failing_request, last_failing_request;
/* Requests for more bytes than this fail. */
static volatile size_t max_request = SIZE_MAX;
/* The number of requests, and the number of blocks that are currently allocated. */
static volatile long requests, allocated_blocks;

/* BEFORE_FREE is called with each block before it is freed. New blocks are filled with zeros if BEFORE_FREE checks that blocks
 * were cleared, and otherwise with other bytes. */
#ifndef BEFORE_FREE
#define BEFORE_FREE(block, len)
#define FILL_BYTE 0xa5
#else
#define FILL_BYTE 0
#endif

/* The size of the header in front of each block: its length, and its inverted length. 16 bytes, so that blocks are aligned
 * like those of malloc. */
#define HEADER_BYTES 16

void *__real_malloc(size_t size);
void __real_free(void *block);

void *__wrap_malloc(size_t size)
{
    const size_t header[2] = { size, ~size };
    char *allocation;

    requests++;
    if (size > max_request || (first_failing_request <= requests && requests <= last_failing_request)) {
        return NULL;
    }
    allocation = __real_malloc(size + HEADER_BYTES);
    allocated_blocks++;
    memset(allocation, FILL_BYTE, size + HEADER_BYTES);
    memcpy(allocation, header, sizeof header);
    return allocation + HEADER_BYTES;
}

/* The library never calls realloc: it allocates a new block instead. */
void *__wrap_realloc(void *block, size_t size)
{
    (void) block, (void) size;
    abort();
}

void __wrap_free(void *block)
{
    size_t header[2];

    if (block != NULL) {
        allocated_blocks--;
        memcpy(header, (char *) block - HEADER_BYTES, sizeof header);
        if (header[1] != ~header[0]) {
            abort();
        }
        BEFORE_FREE(block, header[0]);
        __real_free((char *) block - HEADER_BYTES);
    }
}

#endif
