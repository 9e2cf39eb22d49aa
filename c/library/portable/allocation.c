/*
 * Allocates memory for dist/calls.c. Uses the functions of c/library/allocation.c if that file is built. With
 * -DMINISIGN_MALLOC_ALONE, it uses only malloc and free, and also clears a block before it is freed, because the block
 * may have contained a secret.
 *
 * SPDX-License-Identifier: MIT
 */
#include "machine.h"

#include "allocation.h"

#ifdef MINISIGN_MALLOC_ALONE

/* The alignment of each block, unless a call asks for more. */
#define UNIT 64

/* In front of each block: the pointer that malloc returned, and the length of the block. */
struct heading {
    void *allocation;
    size_t len;
};

/* The block of a failed allocation, which must not be NULL. */
static u8 no_block;

static struct heading heading_of(const u8 *block)
{
    struct heading heading;

    memcpy(&heading, block - sizeof heading, sizeof heading);
    return heading;
}

/* Writes zeros that the compiler must not optimize away. */
static void write_zeros(u8 *block, size_t len)
{
#if defined(__GNUC__) && !defined(__TINYC__)
    memset(block, 0, len);
    __asm__ __volatile__("" : : "r"(block) : "memory");
#else
    for (volatile u8 *at = block; len > 0; len--) {
        *at++ = 0;
    }
#endif
}

struct grant rattle_alloc(size_t len, size_t alignment)
{
    const size_t unit = alignment > UNIT ? alignment : UNIT, extra = unit + sizeof(struct heading);
    struct grant grant = { 0, &no_block };
    struct heading heading = { NULL, len };
    u8 *block;

    heading.allocation = len <= PTRDIFF_MAX && extra <= PTRDIFF_MAX - len ? malloc(len + extra) : NULL;
    if (heading.allocation != NULL) {
        block = (u8 *) heading.allocation + sizeof heading;
        block += (unit - (uintptr_t) block % unit) % unit;
        memcpy(block - sizeof heading, &heading, sizeof heading);
        grant.is_granted = 1;
        grant.block = block;
    }
    return grant;
}

struct grant rattle_realloc(void *block, size_t old_len, size_t len, size_t alignment)
{
    const struct grant grown = rattle_alloc(len, alignment);

    if (grown.is_granted) {
        memcpy(grown.block, block, old_len < len ? old_len : len);
        rattle_dealloc(block);
    }
    return grown;
}

void rattle_dealloc(void *block)
{
    const struct heading heading = heading_of(block);

    write_zeros(block, heading.len);
    free(heading.allocation);
}

#endif

/* Converts a length. If it exceeds 32-bit pointers, it becomes a length that cannot be allocated. */
static size_t to_size(u64 length)
{
    return length > SIZE_MAX ? SIZE_MAX : (size_t) length;
}

static void store_grant(u64 to, struct grant grant)
{
    store64(to, grant.is_granted);
    store64(to + 8, address(grant.block));
}

void machine_rattle_alloc(u64 grant, u64 len, u64 alignment)
{
    store_grant(grant, rattle_alloc(to_size(len), to_size(alignment)));
}

void machine_rattle_realloc(u64 grant, u64 block, u64 old_len, u64 len, u64 alignment)
{
    store_grant(grant, rattle_realloc(at(block), to_size(old_len), to_size(len), to_size(alignment)));
}

void machine_rattle_dealloc(u64 block)
{
    rattle_dealloc(at(block));
}
