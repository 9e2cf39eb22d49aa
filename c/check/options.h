/* SPDX-License-Identifier: MIT */
/* Parses the command line of minisign-check. */
#ifndef CHECK_OPTIONS_H
#define CHECK_OPTIONS_H

#include "shared/system.h"

/* The parsed command line. */
struct check_options {
    /* The public key: the path of its file (-p), or the key in base64 (-P). One of them is NULL. */
    const char *key_file;
    const char *bare_key;
    /* -x: the path of the signature file. NULL: LIST.minisig. */
    const char *signature;
    /* --in: the directory of the files. NULL: the current directory. */
    const char *directory;
    /* --listed: check only those listed files that exist. */
    bool listed_only;
    /* --nothing-else: fail if the directory contains a regular file that is not listed. */
    bool nothing_else;
    /* --any-list: accept a list that the trusted comment of its signature does not name. */
    bool any_list;
    /* --blake2b: treat 128 digits as a BLAKE2b digest if their line names no hash function. The default is SHA-512. */
    bool blake2b;
    /* -o: verify the file, then copy it to standard output. There is exactly one file then. */
    bool copies;
    /* The path of the signed list, such as SHA256SUMS. */
    const char *list;
    /* The files to check. If there are none, all listed files are checked. */
    const char **files;
    size_t file_count;
};

/* Parses the command line. For --help and --version, prints the text and ends the program. If the command line is
 * invalid, prints an error and ends the program with status WRONG_USAGE. */
struct check_options parse_arguments(int argc, char *argv[]);

#endif
