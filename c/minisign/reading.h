/* SPDX-License-Identifier: MIT */
/* Hashes data while reading it, and copies it to the output after verification. */
#ifndef READING_H
#define READING_H

#include "files.h"
#include "shared/piece_tags.h"

/* Data in memory, allocated with malloc. */
struct contents {
    uint8_t *bytes;
    size_t len;
};

/* A data file. */
struct data {
    const char *file;
    int fd;
    /* The content of the file, if it is kept in memory. */
    struct contents contents;
    /* If the file will be read again: its size, and a tag of each piece. */
    uint64_t size;
    struct tag *tags;
    size_t tag_count;
};

/* The parts of the data that are kept besides its digest. */
enum reading_mode {
    DIGEST_ONLY,
    /* All bytes, for a legacy signature. */
    KEEP_BYTES,
    /* A tag of each piece, with which a second reading of the file is checked while it is copied. If the data cannot be
     * read twice, as from a pipe, all bytes are kept instead. */
    COPY_LATER
};

struct data open_data(const char *file);

/* Feeds the data to the hash state, from the current offset of the file to its end. */
void feed_data(struct data *data, minisign_state *state, enum reading_mode mode);

/* Writes the data that `feed_data` has read to standard output. Data that is not in memory is read again, and a piece
 * is written only if it has the same tag as in the first reading. Returns false if the file has changed. */
bool copy_data(const struct data *data);

void close_data(struct data *data);

#endif
