/* SPDX-License-Identifier: MIT */
/* Parses the command line of minisign-install. */
#ifndef INSTALL_OPTIONS_H
#define INSTALL_OPTIONS_H

#include "shared/system.h"
#include "minisign_installing.h"

/* The maximum number of public keys. A run takes two during a change of keys. */
#define MAX_PUBLIC_KEYS 2

/* The maximum size of a key file, a signature file or a list. */
#define MAX_FILE_BYTES (1 << 20)

/* The parsed command line. */
struct request {
    /* The options of the run. The keys, the signature and the list are filled in later. */
    minisign_installing_options options;
    /* The path of the public key file (PK), or NULL if --key was given. */
    const char *key_file;
    /* The public keys that --key gave, in base64. */
    const char *base64_keys[MAX_PUBLIC_KEYS];
    int key_count;
};

/* Parses the command line. For --help and --version, prints the text and ends the program. If the command line is
 * invalid, prints an error and ends the program with status MINISIGN_STATUS_MISUSE. */
struct request parse_request(int argc, char *argv[]);

#endif
