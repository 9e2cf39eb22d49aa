/* SPDX-License-Identifier: MIT */
/*
 * The program minisign-check, which checks files against a signed list.
 *
 * The library of minisign_list.h parses and verifies the list, finds entries, hashes files and compares the digests.
 * The other files of this directory parse the command line (options), read and verify the list (listing), open files
 * and compare them with their entries in several threads (checking, parallel), find files that are not listed
 * (unlisted), copy a verified file (copying), and choose the exit status (outcomes).
 */
#include "checking.h"

#include <sodium.h>

#include "copying.h"
#include "options.h"
#include "outcomes.h"
#include "shared/platform.h"
#include "shared/reports.h"
#include "shared/streams.h"
#include "unlisted.h"

/* Returns true if the check of any file ended with this error. */
static bool has_error(const struct files *files, enum minisign_error error)
{
    for (size_t i = 0; i < files->count; i++) {
        if (files->checked[i].error == error) {
            return true;
        }
    }
    return false;
}

/* Returns the hint for this outcome, or NULL if there is none. */
static const char *hint_for_outcome(enum outcome outcome, const struct check_options *options,
                                    const struct files *files)
{
    switch (outcome) {
    case OTHER_CONTENT: return "download the file again; if it is newer than the list, download the list too";
    case NOT_ONE_ENTRY:
        return has_error(files, MINISIGN_LISTED_TWICE)
                   ? "have the signer list each file once"
                   : "use the file names of the list, and --in DIR if the files are in another directory";
    case MISSING_FILE:
        return options->listed_only ? "use --in DIR if the files are in another directory"
                                    : "use --listed to check only the files that exist";
    case UNLISTED_FILE: return "remove the files that are not listed, or omit --nothing-else";
    default: return NULL;
    }
}

int main(int argc, char *argv[])
{
    struct check_options options;
    struct listing listing;
    struct files files;

    if (!reserve_standard_streams()) {
        return UNUSABLE_FILE;
    }
    if (!arguments_to_utf8(&argc, &argv)) {
        exit_with_error(WRONG_USAGE, NULL, "an argument is not valid Unicode", "if it is a file name, rename the file");
    }
    options = parse_arguments(argc, argv);
    if (sodium_init() < 0) {
        exit_with_error(UNUSABLE_FILE, NULL, "libsodium could not be initialized", NULL);
    }
    listing = load_listing(&options);
    if (options.directory != NULL && chdir(options.directory) != 0) {
        exit_with_errno(options.directory);
    }
    files = files_to_check(&listing, &options);
    if (options.copies) {
        check_before_copy(&files);
    } else {
        check_files(&files);
    }
    if (options.nothing_else) {
        find_unlisted(&listing);
    }
    if (options.copies && final_outcome() == ALL_MATCH) {
        copy_checked_file(&files);
    }
    if (fflush(stdout) != 0 || ferror(stdout)) {
        print_error("standard output", strerror(errno));
        record_outcome(UNUSABLE_FILE);
    }
    if (final_outcome() != ALL_MATCH) {
        print_hint(hint_for_outcome(final_outcome(), &options, &files));
    }
    return final_outcome();
}
