/* SPDX-License-Identifier: MIT */
/*
 * Computes tags of the pieces of data that is read twice, to notice a change between the two readings. If the two
 * readings of a piece differ, their tags are equal with a probability of at most 2 to the -63. This is true even if an
 * attacker chose the data, because the key of the tags is random, and neither the key nor a tag leaves the process.
 */
#ifndef PIECE_TAGS_H
#define PIECE_TAGS_H

#include "system.h"

/* The maximum size of a piece. */
#define MAX_TAGGED_BYTES 131072

struct tag {
    uint64_t low, high;
};

/* Generates the key. Must be called once, before all other functions of this file. */
void generate_tag_key(void);

/* Returns the tag of a piece. */
struct tag tag_of(const uint8_t *piece, size_t len);

/* Compares the tags of two pieces, which must have the same length. */
bool is_same_tag(struct tag first, struct tag second);

#endif
