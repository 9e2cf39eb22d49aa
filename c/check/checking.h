/* SPDX-License-Identifier: MIT */
/* Compares files with their entries in the list, and prints the results. */
#ifndef CHECK_CHECKING_H
#define CHECK_CHECKING_H

#include "listing.h"

/* A file to check, and the result of the check. */
struct checked_file {
    /* The name as the command line gives it; or, if all files of the list are checked, the name in the list without a
     * leading "./". */
    const char *name;
    /* The position among the FILE arguments. Orders files that have the same line. */
    size_t position;
    /* The number of the line in the list, or UINT64_MAX if there is none. */
    uint64_t line;
    minisign_list_entry entry;
    /* ALL_MATCH before the check. Any other value is the result: it is set early if there is no entry to compare
     * with. */
    int outcome;
    /* The reason for another outcome than ALL_MATCH: the text `reason` unless it is NULL, otherwise the errno
     * `system_error` unless it is 0, otherwise the error of the library. */
    const char *reason;
    int system_error;
    enum minisign_error error;
};

/* The files to check, in the order of their lines in the list. */
struct files {
    struct checked_file *checked;
    size_t count;
    /* True for --listed: a missing file is not reported. */
    bool skips_missing;
    /* The stream to which results are printed. */
    FILE *output;
};

/* Returns the files that the command line names or, if it names none, all files of the list. */
struct files files_to_check(const struct listing *listing, const struct check_options *options);

/* Checks the files, relative to the current directory, and prints and records the results. */
void check_files(struct files *files);

/* Opens a file and compares its digest with that of its entry. Calls `on_piece`, unless it is NULL, for each piece that
 * was read. Returns the descriptor of the file if the digests are equal, otherwise -1. Stores the result in
 * `checked`. */
int compare_file(struct checked_file *checked, uint8_t *buffer, void (*on_piece)(const uint8_t *piece, size_t len));

/* Prints the result of one file, and records it. */
void report_file(const struct files *files, const struct checked_file *checked);

#endif
