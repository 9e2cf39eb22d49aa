/* SPDX-License-Identifier: MIT */
/*
 * Computes tags of the pieces of data that is read twice. In the first reading, the data is hashed with BLAKE2b, to
 * verify its signature. In the second reading, it is enough to check that the data is still the same. Comparing tags
 * does this in less than a tenth of the time.
 *
 * The tags are computed with NH, the universal hash function of UMAC (Black, Halevi, Krawczyk, Krovetz and Rogaway,
 * "UMAC: Fast and Secure Message Authentication", 1999), with words of 64 bits. Under a random key, two different
 * messages of the same length have the same hash with a probability of at most 2 to the -64. NH needs a key as long as
 * the message. To keep the keys short, NH is computed for each block of a piece and then, under a second key, for the
 * hashes of the blocks.
 */
#include "piece_tags.h"

#include <sodium.h>

#define BLOCK_BYTES 4096
#define BLOCKS (MAX_TAGGED_BYTES / BLOCK_BYTES)

/* A 128-bit hash. */
struct hash {
    uint64_t low;
    uint64_t high;
};

static struct {
    uint64_t for_blocks[BLOCK_BYTES / sizeof(uint64_t)];
    uint64_t for_hashes[BLOCKS * sizeof(struct hash) / sizeof(uint64_t)];
} keys;

void generate_tag_key(void)
{
    randombytes_buf(&keys, sizeof keys);
}

/* Adds a * b to *sum, modulo 2 to the 128. */
static inline void add_product(struct hash *sum, uint64_t a, uint64_t b)
{
#ifdef __SIZEOF_INT128__
    __extension__ typedef unsigned __int128 wide;
    const wide added = ((wide) sum->high << 64 | sum->low) + (wide) a * b;

    sum->low = (uint64_t) added;
    sum->high = (uint64_t) (added >> 64);
#else
    const uint64_t half = UINT64_C(0xffffffff), low = (a & half) * (b & half);
    const uint64_t first = (a >> 32) * (b & half) + (low >> 32);
    const uint64_t second = (a & half) * (b >> 32) + (first & half);
    const uint64_t product = second << 32 | (low & half);

    sum->low += product;
    sum->high += (a >> 32) * (b >> 32) + (first >> 32) + (second >> 32) + (sum->low < product);
#endif
}

/* Computes NH: the sum of the products of pairs of words, after a word of the key was added to each. The last pair is
 * padded with zeros. */
static struct hash nh(const uint64_t *key, const uint8_t *bytes, size_t len)
{
    struct hash sum = { 0, 0 };
    uint64_t pair[2];
    size_t at;

#pragma GCC unroll 8
    for (at = 0; at < len / sizeof pair; at++) {
        memcpy(pair, bytes + at * sizeof pair, sizeof pair);
        add_product(&sum, pair[0] + key[2 * at], pair[1] + key[2 * at + 1]);
    }
    if (len % sizeof pair > 0) {
        memset(pair, 0, sizeof pair);
        memcpy(pair, bytes + at * sizeof pair, len % sizeof pair);
        add_product(&sum, pair[0] + key[2 * at], pair[1] + key[2 * at + 1]);
    }
    return sum;
}

struct tag tag_of(const uint8_t *piece, size_t len)
{
    struct hash hashes[BLOCKS], hash;
    size_t blocks = 0;

    for (size_t at = 0; at < len; at += BLOCK_BYTES) {
        hashes[blocks++] = nh(keys.for_blocks, piece + at, len - at < BLOCK_BYTES ? len - at : BLOCK_BYTES);
    }
    hash = nh(keys.for_hashes, (const uint8_t *) hashes, blocks * sizeof *hashes);
    return (struct tag) { hash.low, hash.high };
}

bool is_same_tag(struct tag a, struct tag b)
{
    return a.low == b.low && a.high == b.high;
}
