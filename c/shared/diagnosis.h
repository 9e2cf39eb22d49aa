/* SPDX-License-Identifier: MIT */
/* Explains why a file is not the key or signature that was expected. */
#ifndef DIAGNOSIS_H
#define DIAGNOSIS_H

#include "system.h"
#include "minisign.h"

/* The kinds of files that are recognized. A caller can expect one of the first four. BARE_KEY_TEXT is only the base64
 * of a public key, without a comment line. Files of signify, a similar program, are recognized too. */
enum text_kind {
    PUBLIC_KEY_TEXT, SECRET_KEY_TEXT, SIGNATURE_TEXT, BARE_KEY_TEXT, SIGNIFY_SIGNATURE, SIGNIFY_SECRET_KEY, OTHER_TEXT
};

/* Hints for a truncated or damaged file. The second one is for a secret key, which cannot be downloaded again. */
#define COPY_HINT "download or copy the file again"
#define DOWNLOAD_LIST_HINT "download the list and its signature again"
#define SECRET_KEY_HINT "restore the file from a backup"

/*
 * Prints an error and a hint about a file that the library rejected with `error`. `name` is the name of the file, or
 * the option that gave a key. If the file is recognized as another kind of file, the error says which kind, otherwise
 * it says what is wrong with the file, and the hint is one of the two above. `hint` is for a file of another kind: it
 * is printed unless there is a better hint, such as how to convert the file.
 */
void explain_rejection(const char *name, const uint8_t *text, size_t len, enum text_kind expected,
                       enum minisign_error error, const char *hint);

#endif
