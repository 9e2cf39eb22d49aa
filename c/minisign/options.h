/* SPDX-License-Identifier: MIT */
/* Parses the command line of minisign, and names the default files. */
#ifndef MINISIGN_OPTIONS_H
#define MINISIGN_OPTIONS_H

#include "shared/system.h"

enum command { NO_COMMAND, GENERATE, RECREATE, CHANGE, SIGN, VERIFY };

/* The amount that -V prints about verified data: everything, nothing (-q), or only the trusted comment (-Q). */
enum quiet { PRINT_ALL, PRINT_NOTHING, PRINT_COMMENT };

struct options {
    enum command command;
    const char *data_file;
    /* More files to sign, terminated by NULL. */
    char *const *further_files;
    /* NULL: the name of each data file followed by .minisig. */
    const char *signature_file;
    /* NULL: the public key was given with -P or, when signing without -P, is the public half of the secret key. */
    const char *public_file;
    /* The public key in base64 (-P), or NULL. */
    const char *public_key;
    const char *secret_file;
    /* NULL: the default comments. */
    const char *comment;
    const char *trusted_comment;
    /* -k: scrypt keeps only one of every `rows` rows in memory. */
    uint32_t rows;
    /* -K: the maximum work for decrypting a key, as a multiple of the work for a key with Minisign's default limits. */
    uint32_t work;
    enum quiet quiet;
    /* -f */
    bool force;
    /* -W: the secret key is written without a password. */
    bool unsealed;
    /* -l */
    bool legacy;
    /* -o */
    bool output;
    /* -H */
    bool prehashed_only;
};

/* Parses the command line. For -v, prints the version and ends the program. If the command line is invalid, prints the
 * usage and ends the program with STATUS_ERROR. */
struct options parse_options(int argc, char *argv[]);

#endif
