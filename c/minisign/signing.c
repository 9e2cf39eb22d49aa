/* SPDX-License-Identifier: MIT */
/*
 * Signs files: minisign -S. The library hashes the data, returns the messages to sign, and encodes the signature file.
 * libsodium signs the messages with Ed25519. The key is decrypted once. Each signature is verified as minisign -V
 * would do it. Each signature file is replaced in one step.
 */
#include "signing.h"

#include <sodium.h>

#include "library/clearing.h"
#include "keys.h"
#include "replacing.h"
#include "verifying.h"
#include "shared/platform.h"
#include "shared/reports.h"
#include "shared/text.h"

#define COMMENT_BYTES 8192

static const char *file_name_in(const char *path)
{
    const char *separator = last_separator(path);

    return separator == NULL ? path : separator + 1;
}

/* Returns the default trusted comment, with the current time and the name of the file without its directory. */
static const char *default_comment(const char *data_file, bool legacy)
{
    static char comment[COMMENT_BYTES];

    snprintf(comment, sizeof comment, legacy ? "timestamp:%llu\tfile:%s" : MINISIGN_TRUSTED_COMMENT_FORMAT,
             (unsigned long long) time(NULL), file_name_in(data_file));
    return comment;
}

/* Ends the program if the name of the file cannot be used in the default trusted comment. */
static void check_default_comment(const char *data_file, bool legacy)
{
    const char *name = file_name_in(data_file);
    const uint8_t *text = (const uint8_t *) name;
    size_t len = strlen(name);
    const char *error_text = NULL;

    if (!is_utf8(text, len)) {
        error_text = "this name is not UTF-8, so it cannot be in the trusted comment";
    } else if (strpbrk(name, "\r\n") != NULL) {
        error_text = "this name contains a line break, so it cannot be in the trusted comment";
    } else if (legacy && ends_with_space(text, len)) {
        error_text = "this name ends with white space, so the trusted comment cannot end with it";
    }
    if (error_text != NULL) {
        fail_with_hint(data_file, error_text, "use -t COMMENT to choose the trusted comment");
    }
}

/* Returns the comments of a signature. The fields for the two signatures are zeros. */
static minisign_signed_parts comments_of(const struct options *options, const char *data_file)
{
    const char *untrusted = options->comment != NULL ? options->comment : MINISIGN_SIGNATURE_COMMENT;
    const char *trusted = options->trusted_comment != NULL ? options->trusted_comment
                                                           : default_comment(data_file, options->legacy);

    return (minisign_signed_parts) {
        .trusted_comment = (const uint8_t *) trusted, .trusted_comment_len = strlen(trusted),
        .untrusted_comment = (const uint8_t *) untrusted, .untrusted_comment_len = strlen(untrusted)
    };
}

/* Signs a message that the library returned or, for a legacy signature, the data. */
static void sign(uint8_t signature[64], const uint8_t *bytes, size_t len)
{
    crypto_sign_detached(signature, NULL, bytes, len, secrets->opened.secret);
    minisign_clear_used();
}

/* Turns an encoded signature file into a legacy one: changes the algorithm from "ED" to "Ed", which is "RU" and "RW" in
 * base64, at the start of the second line. The library itself does not make legacy signatures, so that its contracts
 * for signing need no exception. */
static void mark_legacy(struct text *text)
{
    uint8_t *second_line = (uint8_t *) memchr(text->bytes, '\n', text->len) + 1;

    memcpy(second_line, "RW", 2);
}

/* Signs the data that was fed to the state, and encodes the signature file. */
static void make_signature(struct text *text, minisign_state *state, const struct data *data,
                           const struct options *options, minisign_signed_parts *parts)
{
    static uint8_t message[64 + TEXT_BUFFER_BYTES];
    minisign_public_key public = { 0 };
    uint8_t digest[64];

    require_success(minisign_public_key_of(&secrets->opened, &public));
    require_success(minisign_digest(state, digest));
    if (options->legacy) {
        sign(parts->signature, data->contents.bytes, data->contents.len);
    } else {
        sign(parts->signature, digest, sizeof digest);
    }
    require_success(minisign_comment_message(parts->signature, parts->trusted_comment, parts->trusted_comment_len,
                                             message, sizeof message));
    sign(parts->comment_signature, message, 64 + parts->trusted_comment_len);
    require_success(minisign_signed_text(&public, parts, text->bytes, sizeof text->bytes, &text->len));
    if (options->legacy) {
        mark_legacy(text);
    }
}

/* Verifies the new signature under this public key. `hashed` is the state to which the data was fed. If the signature
 * is not valid, ends the program with an error about the secret key file, if the halves of the key do not match,
 * otherwise about the public key file, if there is one. */
static void verify_signature(const struct options *options, const minisign_state *hashed, const struct text *text,
                             const struct data *data, const minisign_public_key *public)
{
    minisign_state state = *hashed;
    enum minisign_error error = prepare_checks(&state, public, text, true);

    error = error == MINISIGN_OK ? check_signatures(&state, &data->contents) : error;
    if (error == MINISIGN_OK) {
        return;
    }
    fputs("Verification would fail with the given public key\n", stderr);
    if (!key_halves_match()) {
        fail_with_hint(options->secret_file, "this secret key is damaged: its two halves do not match",
                       SECRET_KEY_HINT);
    }
    if (name_of_public_key(options) != NULL) {
        fprintf(stderr, "error: %s: this is not the public key of %s\n", escape_name(name_of_public_key(options)).text,
                escape_name(options->secret_file).text);
        print_hint("use -R to recreate the public key file");
    }
    exit(STATUS_ERROR);
}

/* Signs a file. Verifies the signature under `public` before it is written, because an invalid signature, made by faulty
 * hardware, can reveal the secret key. */
static void sign_file(const struct options *options, const char *data_file, const char *signature_file,
                      const minisign_public_key *public)
{
    static struct text text;
    minisign_signed_parts parts = comments_of(options, data_file);
    struct data data;
    minisign_state state, hashed;

    reject_secret_key_as_output(options, signature_file, hint_for(SIGNATURE_TEXT));
    finish_replacements_before(data_file);
    data = open_data(data_file);
    if (options->trusted_comment == NULL) {
        check_default_comment(data_file, options->legacy);
    }
    minisign_init(&state);
    feed_data(&data, &state, options->legacy ? KEEP_BYTES : DIGEST_ONLY);
    hashed = state;
    make_signature(&text, &state, &data, options, &parts);
    verify_signature(options, &hashed, &text, &data, public);
    queue_replacement(signature_file, SIGNATURE, text.bytes, text.len);
    close_data(&data);
}

int sign_files(const struct options *options)
{
    minisign_public_key public;

    require_one_line(options->trusted_comment);
    require_one_line(options->comment);
    /* The signatures are verified under the public key that the options name, otherwise under the public half of the
     * secret key. Errors in the public key file are reported before the password prompt, as in Minisign. */
    if (name_of_public_key(options) != NULL) {
        public = load_public_key(options);
    }
    load_secret_key(options);
    if (name_of_public_key(options) == NULL) {
        require_success(minisign_public_key_of(&secrets->opened, &public));
    }
    sign_file(options, options->data_file,
              options->signature_file != NULL ? options->signature_file : join(options->data_file, ".minisig", ""),
              &public);
    for (char *const *file = options->further_files; *file != NULL; file++) {
        sign_file(options, *file, join(*file, ".minisig", ""), &public);
    }
    finish_replacements();
    return STATUS_OK;
}
