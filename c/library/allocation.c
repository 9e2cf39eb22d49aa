/*
 * Allocates memory for the proved calls, with malloc and free.
 *
 * A block may have contained a secret, so it is cleared before it is freed. The call that frees a block does not pass
 * its length. So the length is stored in front of the block, together with the pointer that malloc returned. To grow a
 * block, a new block is allocated, and the old block is copied and then cleared.
 *
 * Large blocks hold the rows of scrypt, which writes every page, from the first to the last. Normally each page would
 * cause a page fault. Therefore the system is asked for huge pages, and to populate the pages before they are written.
 * In a virtual machine huge pages can be slow, because the machine may have lent them to its host, and waits for each
 * of them. If a part of the block takes longer with huge pages than with small pages, the rest of the block gets small
 * pages.
 *
 * The first part of a long block gets small pages, to measure their time. A thread populates the other parts while
 * scrypt is already running. The thread does not access the contents of the block, blocks all signals, and ends before
 * the block is freed. If no thread can be created, or with -DMINISIGN_NO_THREADS, all parts are populated before the
 * call returns.
 *
 * To clear a large block, the system is asked to take back its pages, which then read as zeros. If it does not take
 * them back, zeros are written.
 *
 * SPDX-License-Identifier: MIT
 */
#define _DEFAULT_SOURCE

#include <errno.h>
#include <pthread.h>
#include <signal.h>
#include <stdatomic.h>
#include <stddef.h>
#include <stdint.h>
#include <stdlib.h>
#include <string.h>
#include <sys/mman.h>
#include <time.h>
#include <unistd.h>

#include "allocation.h"

#define LARGE_BYTES ((size_t) 4 << 20)
#define HUGE_PAGE_BYTES ((size_t) 2 << 20)
/* The size of a part of a large block. The parts are populated, and the time is measured, one after the other. */
#define PART_BYTES ((size_t) 16 << 20)

/* The heading in front of each block: the pointer that malloc returned, and the length of the block. */
struct heading {
    void *allocation;
    size_t len;
};

/* The state of populating the pages of a large block. It is in front of the block's heading. */
struct pages {
    char *block;
    /* The number of bytes to populate, which are whole pages. */
    size_t len;
    /* The time that a part of small pages takes, in nanoseconds. */
    int64_t small_pages_time;
    /* The thread that populates the pages after the first part, and whether it was created. */
    pthread_t thread;
    int has_thread;
    /* Set to 1 when the block is freed. */
    atomic_int must_stop;
};

/* The address that a failed allocation returns: it must not be NULL. */
static char no_block;

_Static_assert(sizeof(struct heading) == 16, "malloc aligns to 16 bytes");

static struct heading *heading_of(void *block)
{
    return (struct heading *) block - 1;
}

/* The size of everything that is in front of a large block, rounded up to a multiple of 16 bytes. */
#define LARGE_FRONT_BYTES ((sizeof(struct pages) + sizeof(struct heading) + 15) / 16 * 16)

static struct pages *pages_of(void *block)
{
    return (struct pages *) ((char *) block - LARGE_FRONT_BYTES);
}

/* Rounds an address up to a multiple of a power of two. */
static uintptr_t aligned(uintptr_t address, size_t alignment)
{
    return (address + alignment - 1) & ~(uintptr_t) (alignment - 1);
}

/* Returns the number of bytes of a large block that are whole pages. (A large block begins at the start of a page.) */
static size_t whole_pages(size_t len)
{
    size_t page = (size_t) sysconf(_SC_PAGESIZE);

    return len / page * page;
}

#if defined(MADV_HUGEPAGE) && defined(MADV_POPULATE_WRITE)

/* Populates a part of a block. `advice` chooses the kind of pages: MADV_HUGEPAGE or MADV_NOHUGEPAGE. Returns the
 * processor time that this took, in nanoseconds. */
static int64_t populate_part(char *part, size_t len, int advice)
{
    struct timespec start = { 0, 0 }, end = { 0, 0 };

    clock_gettime(CLOCK_THREAD_CPUTIME_ID, &start);
    madvise(part, len, advice);
    madvise(part, len, MADV_POPULATE_WRITE);
    clock_gettime(CLOCK_THREAD_CPUTIME_ID, &end);
    return (end.tv_sec - start.tv_sec) * (int64_t) 1000000000 + end.tv_nsec - start.tv_nsec;
}

/* Populates a large block after its first part, until `must_stop` is set. Uses huge pages until a part takes too
 * long. */
static void populate_rest(struct pages *pages)
{
    int64_t limit = pages->small_pages_time + pages->small_pages_time / 4;
    int advice = MADV_HUGEPAGE;

    for (size_t at = PART_BYTES, part; at < pages->len && !atomic_load(&pages->must_stop); at += part) {
        part = pages->len - at < PART_BYTES ? pages->len - at : PART_BYTES;
        advice = populate_part(pages->block + at, part, advice) > limit ? MADV_NOHUGEPAGE : advice;
    }
}

#ifndef MINISIGN_NO_THREADS

static void *populate_in_thread(void *pages)
{
    populate_rest(pages);
    return NULL;
}

/* Creates a thread that blocks all signals. Returns 0 on failure. */
static int create_thread(struct pages *pages)
{
    sigset_t all, old_mask;
    int has_thread;

    sigfillset(&all);
    if (pthread_sigmask(SIG_SETMASK, &all, &old_mask) != 0) {
        return 0;
    }
    has_thread = pthread_create(&pages->thread, NULL, populate_in_thread, pages) == 0;
    pthread_sigmask(SIG_SETMASK, &old_mask, NULL);
    return has_thread;
}

static void join_thread(struct pages *pages)
{
    if (pages->has_thread) {
        atomic_store(&pages->must_stop, 1);
        pthread_join(pages->thread, NULL);
    }
}

#else

#define create_thread(pages) ((void) (pages), 0)
#define join_thread(pages) ((void) (pages))

#endif

/* Populates the pages of a large block, or creates a thread that does it. */
static void populate(struct pages *pages)
{
    int saved_errno = errno;

    if (pages->len <= PART_BYTES) {
        populate_part(pages->block, pages->len, MADV_HUGEPAGE);
    } else {
        pages->small_pages_time = populate_part(pages->block, PART_BYTES, MADV_NOHUGEPAGE);
        pages->has_thread = create_thread(pages);
        if (!pages->has_thread) {
            populate_rest(pages);
        }
    }
    errno = saved_errno;
}

#else

#define populate(pages) ((void) (pages))
#define join_thread(pages) ((void) (pages))

#endif

/* Writes zeros that the compiler must not optimize away. */
static void write_zeros(char *block, size_t len)
{
    memset(block, 0, len);
    __asm__ __volatile__("" : : "r"(block) : "memory");
}

/* Asks the system to take back the pages of a large block. Returns the number of bytes, from the start of the block,
 * that are zeros then. It is 0 if the memory of this malloc cannot be taken back. */
static size_t take_back(char *block, size_t len)
{
    size_t whole = whole_pages(len);
    int saved_errno = errno, is_cleared;

    /* These bytes are zeros afterwards only if the pages were really taken back. */
    block[0] = block[whole - 1] = 1;
    is_cleared = madvise(block, whole, MADV_DONTNEED) == 0 && block[0] == 0 && block[whole - 1] == 0;
    errno = saved_errno;
    return is_cleared ? whole : 0;
}

static void clear(char *block, size_t len)
{
    size_t zeros = len >= LARGE_BYTES ? take_back(block, len) : 0;

    write_zeros(block + zeros, len - zeros);
}

struct grant rattle_alloc(size_t len, size_t alignment)
{
    int is_large = len >= LARGE_BYTES;
    size_t unit = is_large ? HUGE_PAGE_BYTES : sizeof(struct heading);
    size_t front_bytes = is_large ? LARGE_FRONT_BYTES : sizeof(struct heading);
    char *allocation, *block;

    unit = alignment > unit ? alignment : unit;
    /* malloc aligns a size that is a multiple of 16 to 16 bytes, so there is room for the front and the aligned
     * block. */
    allocation = len <= PTRDIFF_MAX - 2 * unit - front_bytes
                     ? malloc(aligned(len, sizeof(struct heading)) + unit + front_bytes)
                     : NULL;
    if (allocation == NULL) {
        return (struct grant) { 0, &no_block };
    }
    block = allocation + (aligned((uintptr_t) allocation + front_bytes, unit) - (uintptr_t) allocation);
    *heading_of(block) = (struct heading) { allocation, len };
    if (is_large) {
        *pages_of(block) = (struct pages) { .block = block, .len = whole_pages(len) };
        populate(pages_of(block));
    }
    return (struct grant) { 1, block };
}

struct grant rattle_realloc(void *block, size_t old_len, size_t len, size_t alignment)
{
    struct grant grown = rattle_alloc(len, alignment);

    if (grown.is_granted) {
        memcpy(grown.block, block, old_len < len ? old_len : len);
        rattle_dealloc(block);
    }
    return grown;
}

void rattle_dealloc(void *block)
{
    struct heading heading = *heading_of(block);

    if (heading.len >= LARGE_BYTES) {
        join_thread(pages_of(block));
    }
    clear(block, heading.len);
    free(heading.allocation);
}
