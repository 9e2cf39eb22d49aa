/* SPDX-License-Identifier: MIT */
/* Verifies files: minisign -V. */
#ifndef VERIFYING_H
#define VERIFYING_H

#include "options.h"
#include "reading.h"

/* Loads the public key that the options name or contain. Ends the program on failure. */
minisign_public_key load_public_key(const struct options *options);

/* Returns the name of the public key in messages: its file, or "-P". Returns NULL if the options name no public key. */
const char *name_of_public_key(const struct options *options);

/* Parses a signature file, and calls minisign_ask, which returns the two Ed25519 checks to make. Stores the signature
 * and the two checks in static variables, for `check_signatures`. The data may be fed to the state before or after this
 * call. */
enum minisign_error prepare_checks(minisign_state *state, const minisign_public_key *key, const struct text *text,
                                   bool allow_legacy);

/* Makes the two Ed25519 checks that `prepare_checks` has stored, and returns the result of the verification. All data
 * must have been fed to the state. If the signature is a legacy one, `legacy_data` must contain the data. */
enum minisign_error check_signatures(minisign_state *state, const struct contents *legacy_data);

/* Verifies a file, prints the trusted comment, and with -o copies the data to standard output. Returns the exit
 * status. */
int verify_file(const struct options *options);

#endif
