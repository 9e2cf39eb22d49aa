/* SPDX-License-Identifier: MIT */
/*
 * Reads and verifies the list, and looks up its entries. The library parses the key, the signature and the list, and
 * decides whether the list is verified. libsodium makes the Ed25519 checks.
 */
#ifndef CHECK_LISTING_H
#define CHECK_LISTING_H

#include "options.h"
#include "minisign_list.h"

/* An entry of the list, and its name as a string, without a leading "./". */
struct named_entry {
    minisign_list_entry entry;
    const char *name;
};

/* A verified list. */
struct listing {
    /* The path of the list, for messages. */
    const char *file;
    /* The status of the list file and of the signature file, by which --nothing-else recognizes them. */
    struct stat status;
    struct stat signature_status;
    /* The content of the list file. */
    const uint8_t *text;
    size_t len;
    /* The handle of the verified list, for the calls of the library that read `text`. */
    minisign_list verified;
    /* The hash function of a digest of 128 digits on a line that does not name one. */
    enum minisign_hash long_digest;
    /* All entries, in the order of their lines. */
    struct named_entry *entries;
    size_t count;
    /* The entries that a file can match, sorted by name. */
    const struct named_entry **by_name;
    size_t name_count;
};

/* Reads the key, the list and its signature, verifies the list, and reads its entries. Prints the trusted comment on
 * standard error. If one of them is rejected, ends the program with an error. */
struct listing load_listing(const struct check_options *options);

/* Returns the number of entries that a file with this name can match: 0, 1, or 2 for two or more. */
size_t count_matching_entries(const struct listing *listing, const char *name);

/* Finds the entry for a name, which must be listed exactly once. Returns the result of minisign_list_find, which also
 * sets *line: the number of the line to blame for an error, or 0. */
enum minisign_error find_entry(const struct listing *listing, const char *name, minisign_list_entry *entry,
                               uint64_t *line);

#endif
