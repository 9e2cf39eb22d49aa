/*
 * Checks the allocation functions in c/library/allocation.c, with which the proved functions allocate memory:
 *
 *   - a block has the requested length and alignment;
 *   - a block is cleared before it is freed; if its content was moved to a larger block, the old block is cleared too;
 *   - a failed allocation leaves the old block unchanged;
 *   - only large blocks are mapped in advance with madvise, and the functions work if madvise fails.
 *
 * Also checks that creating a key, opening it and signing with it frees and clears all memory.
 *
 * Linked with -Wl,--wrap=malloc -Wl,--wrap=realloc -Wl,--wrap=free -Wl,--wrap=madvise. With -DMINISIGN_MALLOC_ALONE, the
 * functions in c/library/portable/allocation.c are checked instead, which call only malloc and free.
 */
#ifdef MINISIGN_MALLOC_ALONE
#include "../../c/library/portable/allocation.c"

#define LARGE_BYTES ((size_t) 4 << 20)
#define LARGE_FRONT_BYTES sizeof(struct heading)
#define EXPECTED_MADVISE_CALLS(len) 0
#else
#include "../../c/library/allocation.c"

#define EXPECTED_MADVISE_CALLS(len) ((len) >= LARGE_BYTES ? 2 : 0)
#endif

/* LARGE_ROWS: a size in bytes of the table of scrypt, so that decrypting a key allocates a large block. NEXT_ALIGNMENT:
 * the factor from one tested alignment to the next. With -DIS_EMULATED, the table has the size of the smallest large
 * block, and fewer alignments are tested, because emulators are slow. */
#define LARGE_ROWS (IS_EMULATED ? LARGE_BYTES : (size_t) 16 << 20)
#define NEXT_ALIGNMENT (IS_EMULATED ? 64 : 4)

#include <errno.h>
#include <time.h>

#include "texts_for_tests.h"

/* Returns true if a block that malloc returned consists of zeros, except for what the allocation functions store in front
 * of the bytes that they return: a `struct heading`, or LARGE_FRONT_BYTES for a large block. */
static int is_cleared(const char *block, size_t len)
{
    size_t first = 0, heading_bytes = len >= LARGE_BYTES ? LARGE_FRONT_BYTES : sizeof(struct heading);

    if (is_zeros(block, len)) {
        return 1;
    }
    while (block[first] == 0) {
        first++;
    }
    first = first / sizeof(struct heading) * sizeof(struct heading);
    return first + heading_bytes >= len || is_zeros(block + first + heading_bytes, len - first - heading_bytes);
}

/* The number of blocks that were freed without having been cleared, and the number of all freed blocks. */
static volatile unsigned uncleared_count, freed_count;

#define BEFORE_FREE(block, len) (freed_count++, uncleared_count += !is_cleared(block, len))
#include "counted_memory.h"

/* The range and the advice of each call of madvise, and the number of calls. (They are volatile for the reason given in
 * counted_memory.h.) */
static volatile struct { char *from; size_t len; int advice; } madvise_calls[64];
static volatile unsigned madvise_count;
/* The behaviour of madvise: it works, it fails, it does nothing but returns 0, or it is slow for huge pages. */
static volatile enum { WORKS, FAILS, DOES_NOTHING, IS_SLOW } madvise_mode;

/* Checks a condition. On failure, prints `subject` and the block. `subject` names the step or the property that is
 * checked, or what is wrong. */
static void check_for_block(int condition, const char *subject, size_t len, size_t alignment)
{
    check(condition, "%s: %zu bytes, aligned to %zu", subject, len, alignment);
}

#ifndef MINISIGN_MALLOC_ALONE

int __real_madvise(void *from, size_t len, int advice);

int __wrap_madvise(void *from, size_t len, int advice)
{
    madvise_calls[madvise_count % 64].from = from;
    madvise_calls[madvise_count % 64].len = len;
    madvise_calls[madvise_count++ % 64].advice = advice;
    if (madvise_mode == IS_SLOW && advice == MADV_HUGEPAGE) {
        clock_t until = clock() + CLOCKS_PER_SEC / 20;

        while (clock() < until) {
        }
    }
    /* Even if madvise succeeds, so that the allocation functions must restore errno. */
    errno = EINVAL;
    return madvise_mode == FAILS ? -1 : madvise_mode == DOES_NOTHING ? 0 : __real_madvise(from, len, advice);
}

#endif

/* Returns true if this number of blocks is allocated, and all freed blocks were cleared. */
static int only_blocks_allocated(long blocks)
{
    return allocated_blocks == blocks && uncleared_count == 0;
}

/* A pattern without zeros that repeats after PERIOD bytes. Adjacent bytes differ. */
enum { PERIOD = 251 };

static void fill_with_pattern(char *block, size_t len)
{
    for (size_t at = 0; at < len && at < PERIOD; at++) {
        block[at] = (char) (1 + at * 31 % PERIOD);
    }
    for (size_t at = PERIOD; at < len; at += PERIOD) {
        memcpy(block + at, block, len - at < PERIOD ? len - at : PERIOD);
    }
}

static int has_pattern(const char *block, size_t len)
{
    char pattern[PERIOD];

    fill_with_pattern(pattern, PERIOD);
    return len <= PERIOD ? memcmp(block, pattern, len) == 0
                         : memcmp(block, pattern, PERIOD) == 0 && memcmp(block, block + PERIOD, len - PERIOD) == 0;
}

/* The size of the largest pages of the tested systems. Only whole pages are mapped in advance, so less than this may be
 * left unmapped at the end of a block. */
enum { MAX_PAGE_BYTES = 65536 };

/* Allocates a block, fills it, and resizes it, with failing allocations in between. If the block is large, it has only
 * one part (PART_BYTES), which must be mapped as huge pages. */
static void check_block(size_t len, size_t alignment, size_t new_len)
{
    struct grant block, resized;
    size_t copied_len = len < new_len ? len : new_len;

    madvise_count = 0;
    errno = 77;
    block = rattle_alloc(len, alignment);
    check_for_block(block.is_granted == 1 && (uintptr_t) block.block % alignment == 0, "allocating", len, alignment);
    check_for_block(errno == 77, "errno was changed", len, alignment);
    check_for_block(madvise_count == EXPECTED_MADVISE_CALLS(len), "the number of madvise calls", len, alignment);
#ifndef MINISIGN_MALLOC_ALONE
    for (unsigned at = 0; at < madvise_count; at++) {
        check_for_block(madvise_calls[at].advice == (at == 0 ? MADV_HUGEPAGE : MADV_POPULATE_WRITE)
                            && madvise_calls[at].from == block.block && madvise_calls[at].len <= len
                            && madvise_calls[at].len + MAX_PAGE_BYTES > len,
                        "the arguments of madvise", len, alignment);
    }
#endif
    fill_with_pattern(block.block, len);
    resized = rattle_realloc(block.block, len, new_len, alignment);
    check_for_block(resized.is_granted == 1 && (uintptr_t) resized.block % alignment == 0 && has_pattern(resized.block, copied_len),
                    "resizing", new_len, alignment);
    check_for_block(only_blocks_allocated(1), "the old block was not freed or cleared", len, alignment);
    fill_with_pattern(resized.block, new_len);
    max_request = 0;
    block = rattle_realloc(resized.block, new_len, new_len + 1, alignment);
    check_for_block(block.is_granted == 0 && block.block != NULL, "resizing without memory", new_len, alignment);
    block = rattle_alloc(len, alignment);
    check_for_block(block.is_granted == 0 && block.block != NULL, "allocating without memory", len, alignment);
    max_request = SIZE_MAX;
    check_for_block(only_blocks_allocated(1) && has_pattern(resized.block, new_len), "the block after a failed resize", new_len,
                    alignment);
    errno = 77;
    rattle_dealloc(resized.block);
    check_for_block(only_blocks_allocated(0), "the freed block", new_len, alignment);
    check_for_block(errno == 77, "errno was changed by freeing", new_len, alignment);
}

#ifndef MINISIGN_MALLOC_ALONE

/* Waits until a thread has mapped all pages of a block. */
static void wait_for_pages(void *block)
{
    struct pages *pages = pages_of(block);

    if (pages->has_thread) {
        pthread_join(pages->thread, NULL);
        pages->has_thread = 0;
    }
}

/* Allocates a block that is mapped in four parts, with two calls of madvise each: one chooses the kind of pages, one
 * maps them. The whole block must be mapped, from the beginning to the end, except for an incomplete page at the end.
 * The first of several parts must use small pages, to measure their time, and the second huge pages. If the second part
 * was slow, the others must use small pages. */
static void check_parts(void)
{
    size_t len = 3 * PART_BYTES + 12345, at = 0;
    struct grant grant;

    madvise_count = 0;
    grant = rattle_alloc(len, 1);
    wait_for_pages(grant.block);
    check_for_block(grant.is_granted == 1 && madvise_count == 8, "the madvise calls for several parts", len, 1);
    for (unsigned part = 0; part < madvise_count / 2; part++) {
        const unsigned choosing = 2 * part, mapping = 2 * part + 1;
        const int advice = part == 1 ? MADV_HUGEPAGE : MADV_NOHUGEPAGE;

        check_for_block(madvise_calls[choosing].from == (char *) grant.block + at
                            && madvise_calls[mapping].from == madvise_calls[choosing].from
                            && madvise_calls[choosing].len == madvise_calls[mapping].len
                            && madvise_calls[mapping].advice == MADV_POPULATE_WRITE,
                        "a part", len, 1);
        check_for_block(madvise_mode != IS_SLOW || madvise_calls[choosing].advice == advice, "a slow part", len, 1);
        check_for_block(part > 1 || madvise_calls[choosing].advice == advice, "the first parts", len, 1);
        at += madvise_calls[choosing].len;
    }
    check_for_block(at <= len && at + MAX_PAGE_BYTES > len, "the length of all parts", len, 1);
    fill_with_pattern(grant.block, len);
    rattle_dealloc(grant.block);
    check_for_block(only_blocks_allocated(0), "the freed block of several parts", len, 1);
    /* A block that is freed while its pages are still being mapped. */
    grant = rattle_alloc(len, 1);
    fill_with_pattern(grant.block, PART_BYTES);
    rattle_dealloc(grant.block);
    check_for_block(only_blocks_allocated(0), "the block that was freed early", len, 1);
    at = madvise_count;
    usleep(20000);
    check_for_block(madvise_count == at, "the thread did not end with its block", len, 1);
}

#endif

static void check_blocks(void)
{
    static const size_t lens[] = { 0, 1, 15, 16, 17, 1000, LARGE_BYTES - 1, LARGE_BYTES, LARGE_BYTES + 123457 };

    for (size_t i = 0; i < LENGTH(lens); i++) {
        for (size_t alignment = 1; alignment <= 4096; alignment *= NEXT_ALIGNMENT) {
            check_block(lens[i], alignment, lens[i] + 100);
            check_block(lens[i], alignment, lens[i] / 2);
        }
    }
#ifndef MINISIGN_MALLOC_ALONE
    madvise_mode = FAILS;
    check_block(LARGE_BYTES, 8, 2 * LARGE_BYTES + 12345);
    madvise_mode = DOES_NOTHING;
    check_block(LARGE_BYTES, 8, 2 * LARGE_BYTES + 12345);
    madvise_mode = IS_SLOW;
    check_parts();
    madvise_mode = WORKS;
    check_parts();
#endif
}

/* Impossible lengths are rejected without calling malloc. */
static void check_lengths(void)
{
    static const size_t lens[] = { SIZE_MAX, SIZE_MAX - 15, SIZE_MAX / 2 + 1, SIZE_MAX / 2, SIZE_MAX / 2 - 16 };

    for (size_t i = 0; i < LENGTH(lens); i++) {
        const long before = requests;
        struct grant grant = rattle_alloc(lens[i], 1);

        check_for_block(grant.is_granted == 0 && requests == before, "an impossible length", lens[i], 1);
    }
}

/* Writes, reads, opens and signs with a key. It is encrypted with scrypt, which uses `memory` bytes. */
static void check_key_calls(size_t memory)
{
    static const char password[] = "a long password";
    static uint8_t secret_key[64], text[4096], signed_text[4096], no_signature[64];
    minisign_unopened_key unopened;
    minisign_secret_key key, opened;
    size_t len = 0;
    enum minisign_error error;

    memset(secret_key, 0x5a, sizeof secret_key);
    freed_count = uncleared_count = 0;
    make_secret_key(bytes_of("12345678"), secret_key, &key);
    error = seal(&key, password, memory, 1, text, sizeof text, &len);
    check_for_block(error == MINISIGN_OK && freed_count > 0 && only_blocks_allocated(0), "making a key", memory, 1);
    freed_count = 0;
    error = minisign_read_secret_key(text, len, &unopened);
    check_for_block(error == MINISIGN_OK && freed_count == 0 && only_blocks_allocated(0), "reading the key", memory, 1);
    error = minisign_open_sealed_key(&unopened, bytes_of(password), strlen(password), MINISIGN_KEEP_EVERY_ROW, MINISIGN_USUAL_ROWS,
                                     &opened);
    check_for_block(error == MINISIGN_OK && freed_count > 0 && only_blocks_allocated(0), "opening the key", memory, 1);
    check_for_block(memcmp(&opened, &key, sizeof key) == 0, "another key was opened", memory, 1);
    freed_count = 0;
    error = make_signature_file(&opened, no_signature, no_signature, bytes_of("c"), 1, bytes_of("c"), 1, signed_text,
                                sizeof signed_text, &len);
    check_for_block(error == MINISIGN_OK && freed_count > 0 && only_blocks_allocated(0), "signing", memory, 1);
}

int main(void)
{
    check_blocks();
    check_lengths();
    check_key_calls(1 << 20);
    check_key_calls(LARGE_ROWS);
    return print_summary();
}
