/* SPDX-License-Identifier: MIT */
/* Decrypts, generates and changes secret keys: minisign -G, -R and -C. */
#ifndef KEYS_H
#define KEYS_H

#include "shared/system.h"
#include "minisign.h"
#include "options.h"
#include "terminal.h"

/* The buffer size for a secret key file, which must be shorter. */
#define SECRET_TEXT_BYTES 8192

/*
 * All secrets of the process. They are allocated with sodium_malloc: they have pages of their own, which are locked in
 * memory and excluded from core dumps as far as the system allows. They are cleared when the program ends, even if a
 * signal ends it.
 */
struct secrets {
    /* The content of the secret key file that was read, or of the file that is about to be written. */
    uint8_t text[SECRET_TEXT_BYTES];
    size_t text_len;
    /* The secret key: parsed, and then decrypted. */
    minisign_unopened_key unopened;
    minisign_secret_key opened;
    /* The password as it was typed, and as a new password was typed the second time. */
    struct password password, repeated;
    /* A key pair that was just generated. */
    minisign_new_key generated;
};

extern struct secrets *secrets;

/* Allocates `secrets`. Must be called before all other functions of this file. */
void allocate_secrets(void);

/* Reads the secret key file and decrypts it into `secrets`, with its password if it is encrypted. Ends the program on
 * failure. */
void load_secret_key(const struct options *options);

/* Returns true if the two halves of the decrypted key, the secret and the public one, belong together. If they do not,
 * a signature by the key is not valid and, together with a valid signature of the same data, reveals the secret
 * half. */
bool key_halves_match(void);

/* Ends the program if an output file is the secret key file, which would be overwritten. */
void reject_secret_key_as_output(const struct options *options, const char *file, const char *hint);

/* The commands. They return the exit status. */
int generate_keys(const struct options *options);
int recreate_public_key(const struct options *options);
int change_password(const struct options *options);

#endif
