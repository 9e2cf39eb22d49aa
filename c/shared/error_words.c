/* SPDX-License-Identifier: MIT */
/* Describes errors of the library in the messages of the programs. */
#include "error_words.h"

/* The errors whose texts in the library are hard to understand for people who do not know its interface. Some of these
 * texts are those of the Rust crate minisign. */
static const struct {
    enum minisign_error error;
    const char *words;
} descriptions[] = {
    { MINISIGN_NOT_UTF8, "this is not UTF-8 text" },
    { MINISIGN_DIFFERENT_KEY_IDS, "the signature was made with a different key: the key IDs differ" },
    { MINISIGN_PARAMETERS_TOO_HIGH, "the scrypt limits of this key are too high" },
    { MINISIGN_INVALID_PARAMETERS, "the scrypt limits of this key are invalid" },
    { MINISIGN_WORK_TOO_HIGH, "decrypting this key takes more work than allowed" },
    { MINISIGN_RANDOM_SOURCE_FAILED, "the system supplied no random bytes" },
    { MINISIGN_NOT_LISTED, "this file is not in the list" },
    { MINISIGN_LISTED_TWICE, "this file is in the list twice" },
    { MINISIGN_DIGEST_MISMATCH, "the digest of this file is not the one in the list" },
};

void describe_error(enum minisign_error error, char text[MINISIGN_ERROR_TEXT_BYTES])
{
    for (size_t i = 0; i < sizeof descriptions / sizeof descriptions[0]; i++) {
        if (descriptions[i].error == error) {
            snprintf(text, MINISIGN_ERROR_TEXT_BYTES, "%s", descriptions[i].words);
            return;
        }
    }
    minisign_error_text(error, text, MINISIGN_ERROR_TEXT_BYTES);
}
