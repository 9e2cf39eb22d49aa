/* SPDX-License-Identifier: MIT */
/* Prints the messages of the program. */
#include "messages.h"

#include "shared/error_words.h"
#include "shared/reports.h"
#include "shared/text.h"

void fail_as_minisign(const char *line)
{
    fprintf(stderr, "%s\n", line);
    exit(STATUS_ERROR);
}

void print_errno(const char *file)
{
    const char *reason = strerror(errno);

    fprintf(stderr, "%s%s%s\n", escape_name(file).text, *file == 0 ? "" : ": ", reason);
}

void fail_errno(const char *file)
{
    print_errno(file);
    exit(STATUS_ERROR);
}

void check_errno(bool ok, const char *file)
{
    if (!ok) {
        fail_errno(file);
    }
}

void fail_with_hint(const char *file, const char *message, const char *hint)
{
    print_error(file, message);
    print_hint(hint);
    exit(STATUS_ERROR);
}

void require_one_line(const char *comment)
{
    if (comment != NULL && strpbrk(comment, "\r\n") != NULL) {
        fail_with_hint(NULL, "a comment contains a line break", "write each comment on one line");
    }
}

/* Minisign's messages for errors of the library. */
static const struct {
    enum minisign_error error;
    const char *text;
} messages[] = {
    { MINISIGN_MISSING_PUBLIC_KEY_COMMENT, "Error while loading the public key file" },
    { MINISIGN_MISSING_PUBLIC_KEY, "Error while loading the public key file" },
    { MINISIGN_PUBLIC_KEY_LENGTH, "base64 conversion failed - was an actual public key given?" },
    { MINISIGN_PUBLIC_KEY_NOT_BASE64, "base64 conversion failed - was an actual public key given?" },
    { MINISIGN_BARE_PUBLIC_KEY_LENGTH, "base64 conversion failed - was an actual public key given?" },
    { MINISIGN_BARE_PUBLIC_KEY_NOT_BASE64, "base64 conversion failed - was an actual public key given?" },
    { MINISIGN_MISSING_UNTRUSTED_COMMENT, "Error while reading the signature file" },
    { MINISIGN_MISSING_SIGNATURE, "Error while reading the signature file" },
    { MINISIGN_MISSING_COMMENT_SIGNATURE, "Error while reading the signature file" },
    { MINISIGN_MISSING_TRUSTED_COMMENT, "Trusted comment not present" },
    { MINISIGN_UNTRUSTED_COMMENT_PREFIX, "Untrusted signature comment should start with \"untrusted comment: \"" },
    { MINISIGN_TRUSTED_COMMENT_PREFIX, "Trusted signature comment should start with \"trusted comment: \"" },
    { MINISIGN_SIGNATURE_NOT_BASE64, "base64 conversion failed - was an actual signature given?" },
    { MINISIGN_RECORD_TOO_SHORT, "base64 conversion failed - was an actual signature given?" },
    { MINISIGN_UNSUPPORTED_ALGORITHM, "Unsupported signature algorithm" },
    { MINISIGN_LEGACY_NOT_ACCEPTED, "Legacy (non-prehashed) signature found" },
    { MINISIGN_SIGNATURE_REFUSED, "Signature verification failed" },
    { MINISIGN_COMMENT_SIGNATURE_REFUSED, "Comment signature verification failed" },
    { MINISIGN_MISSING_SECRET_KEY_COMMENT, "Error while loading the secret key file" },
    { MINISIGN_MISSING_SECRET_KEY, "Error while loading the secret key file" },
    { MINISIGN_SECRET_KEY_NOT_BASE64, "base64 conversion failed - was an actual secret key given?" },
    { MINISIGN_UNSUPPORTED_KEY_DERIVATION, "Unsupported key derivation function" },
    { MINISIGN_WRONG_PASSWORD, "Wrong password for that key" },
};

void print_library_error(const char *file, enum minisign_error error)
{
    char text[MINISIGN_ERROR_TEXT_BYTES];

    for (size_t i = 0; i < sizeof messages / sizeof messages[0]; i++) {
        if (messages[i].error == error) {
            fprintf(stderr, "%s\n", messages[i].text);
            return;
        }
    }
    describe_error(error, text);
    print_error(file, text);
}

void require_success(enum minisign_error error)
{
    if (error == MINISIGN_NOT_UTF8) {
        fail_with_hint(NULL, "the comment is not UTF-8", UTF8_HINT);
    }
    if (error != MINISIGN_OK) {
        print_library_error(NULL, error);
        exit(STATUS_ERROR);
    }
}

const char *hint_for(enum text_kind expected)
{
    return expected == PUBLIC_KEY_TEXT   ? "use -p FILE to name a public key file, or -P KEY to give the key itself"
           : expected == SECRET_KEY_TEXT ? "use -s FILE to name a secret key file, or -G to generate a key pair"
                                         : "use -x FILE to name the signature file";
}

uint64_t key_id_number(const uint8_t id[8])
{
    uint64_t number = 0;

    for (int i = 7; i >= 0; i--) {
        number = number << 8 | id[i];
    }
    return number;
}
