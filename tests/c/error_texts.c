/*
 * Checks the message and the kind of each error in minisign.h. A buffer of MINISIGN_ERROR_TEXT_BYTES must be large enough
 * for each message. In a smaller buffer, a message must be truncated, and nothing may be written beyond the buffer.
 */
#include "texts_for_tests.h"

#define MAX_ERROR 95

static const char *const texts[MAX_ERROR + 1] = {
    [MINISIGN_OK] = "no error",
    [MINISIGN_NOT_BEGUN] = "the state is not initialized, or its verdict was already returned: call minisign_init first",
    [MINISIGN_ALREADY_ASKED] = "this call comes too late: minisign_ask or minisign_digest was already called for this state",
    [MINISIGN_NOT_ASKED] = "no verdict is possible yet: call minisign_ask and minisign_digest first",
    [MINISIGN_BAD_ANSWER] = "the result of an Ed25519 check must be MINISIGN_ANSWER_YES or MINISIGN_ANSWER_NO",
    [MINISIGN_NO_ROOM] = "a buffer is too small for this call",
    [MINISIGN_BAD_LEGACY_FLAG] = "the parameter 'allow_legacy' must be 0 or 1",
    [MINISIGN_OUT_OF_MEMORY] = "out of memory",
    [MINISIGN_NOT_UTF8] = "stream did not contain valid UTF-8",
    [MINISIGN_BAD_COMMENT] = "a comment contains a line break, or the trusted comment begins or ends with white space",
    [MINISIGN_BAD_PASSWORD_FLAG] = "the parameter 'with_password' must be 0, 1 or 2",
    [MINISIGN_UNREADABLE_COMMENT] = "a comment is too long for Minisign, or contains a zero byte or a carriage return",
    [MINISIGN_MISSING_PUBLIC_KEY_COMMENT] = "Missing comment in public key",
    [MINISIGN_MISSING_PUBLIC_KEY] = "Missing encoded key in public key",
    [MINISIGN_PUBLIC_KEY_LENGTH] = "Base64 conversion failed - was an actual public key given?",
    [MINISIGN_PUBLIC_KEY_NOT_BASE64] = "Base64 conversion failed - was an actual public key given?: invalid base64",
    [MINISIGN_RECORD_TOO_SHORT] = "failed to fill whole buffer",
    [MINISIGN_MISSING_UNTRUSTED_COMMENT] = "Missing untrusted comment",
    [MINISIGN_MISSING_SIGNATURE] = "Missing signature",
    [MINISIGN_MISSING_TRUSTED_COMMENT] = "Missing trusted comment",
    [MINISIGN_MISSING_COMMENT_SIGNATURE] = "Missing global signature",
    [MINISIGN_UNTRUSTED_COMMENT_PREFIX] = "Untrusted comment must start with: untrusted comment: ",
    [MINISIGN_SIGNATURE_NOT_BASE64] = "invalid base64",
    [MINISIGN_TRUSTED_COMMENT_PREFIX] = "Trusted comment should start with: trusted comment: ",
    [MINISIGN_UNSUPPORTED_ALGORITHM] = "Unsupported signature algorithm",
    [MINISIGN_DIFFERENT_KEY_IDS] = "Signature key id is different from public key",
    [MINISIGN_LEGACY_NOT_ACCEPTED] = "Legacy signatures are not accepted",
    [MINISIGN_SIGNATURE_REFUSED] = "Signature verification failed",
    [MINISIGN_COMMENT_SIGNATURE_REFUSED] = "Comment signature verification failed",
    [MINISIGN_MISSING_SECRET_KEY_COMMENT] = "Missing comment in secret key",
    [MINISIGN_MISSING_SECRET_KEY] = "Missing encoded key in secret key",
    [MINISIGN_SECRET_KEY_NOT_BASE64] = "invalid base64",
    [MINISIGN_KEY_SEALED] = "Key might be encrypted",
    [MINISIGN_KEY_CORRUPTED] = "Corrupted key",
    [MINISIGN_KEY_NOT_SEALED] = "Key is not encrypted",
    [MINISIGN_UNSUPPORTED_KEY_DERIVATION] = "Unsupported encryption algorithm",
    [MINISIGN_PARAMETERS_TOO_HIGH] = "scrypt parameters too high",
    [MINISIGN_INVALID_PARAMETERS] = "invalid scrypt parameters",
    [MINISIGN_WRONG_PASSWORD] = "Wrong password for that key",
    [MINISIGN_WORK_TOO_HIGH] = "scrypt work too high",
    [MINISIGN_BARE_PUBLIC_KEY_LENGTH] = "base64 conversion failed - was an actual public key given?",
    [MINISIGN_BARE_PUBLIC_KEY_NOT_BASE64] = "base64 conversion failed - was an actual public key given?: invalid base64",
    [MINISIGN_NOT_DUE] = "unexpected call or error number: minisign_install_due returns the step that is expected now",
    [MINISIGN_BAD_OPTION] = "an option of the installation is not valid, or must not be combined with another option",
    [MINISIGN_BAD_NUMBERING] = "'numbering' must be MINISIGN_NUMBERING_TIMESTAMP or MINISIGN_NUMBERING_VERSION",
    [MINISIGN_KEY_NOT_OPENED] = "the secret key is not open: call minisign_open_sealed_key or minisign_open_unsealed_key first",
    [MINISIGN_KEY_NOT_READ] = "no secret key was read: call minisign_read_secret_key first",
    [MINISIGN_SIGNATURE_NOT_READ] = "no signature was read, or it has no comments: call minisign_read_signature first",
    [MINISIGN_OTHER_SIGNATURE_TEXT] = "the signature was read from a different signature file than the one passed with it",
    [MINISIGN_PUBLIC_KEY_NOT_READ] = "no public key was read: call minisign_read_public_key first",
    [MINISIGN_EMPTY_PASSWORD] = "the password must not be empty",
    [MINISIGN_WEAK_SEALING] = "the salt is all zeros, or a scrypt limit is below Minisign's minimum",
    [MINISIGN_TARGET_IN_USE] = "another installation of this file is running",
    [MINISIGN_NO_RECORD] = "no version is recorded yet",
    [MINISIGN_DAMAGED_RECORD] = "the version record is damaged",
    [MINISIGN_OTHER_FILE] = "the trusted comment does not name the file to install",
    [MINISIGN_NO_NUMBER] = "the trusted comment has no valid version number",
    [MINISIGN_OLDER_UPDATE] = "the update is older than the recorded version",
    [MINISIGN_DIRECTORY_NOT_SYNCED] = "the update is installed, but the directory could not be synced to disk",
    [MINISIGN_KEPT_BY_TIMESTAMP] = "the version record holds a timestamp, not a version",
    [MINISIGN_KEPT_BY_VERSION] = "the version record holds a version, not a timestamp",
    [MINISIGN_EXPIRED] = "the update has expired",
    [MINISIGN_BAD_EXPIRY] = "the trusted comment has an invalid or repeated expires: field",
    [MINISIGN_SAME_NUMBER] = "this version is already recorded, but the installed file is different",
    [MINISIGN_NO_EXPIRY] = "the trusted comment does not say when the update expires",
    [MINISIGN_BAD_SIZE] = "the trusted comment has an invalid or repeated size: field",
    [MINISIGN_OTHER_SIZE] = "the size of the data is not the one in the trusted comment",
    [MINISIGN_READING_FAILED] = "reading failed",
    [MINISIGN_WRITING_FAILED] = "writing failed",
    [MINISIGN_RANDOM_SOURCE_FAILED] = "random source failed",
    [MINISIGN_WEAK_ED25519] = "weak or non-canonical Ed25519 public key or signature",
    [MINISIGN_LIST_NOT_VERIFIED] = "the list has not been verified",
    [MINISIGN_OTHER_LIST_TEXT] = "the text is not the list that was verified",
    [MINISIGN_BAD_HASH] = "the hash function or the length of its digest is not accepted here",
    [MINISIGN_ENTRY_NOT_READ] = "the entry has not been read from a list",
    [MINISIGN_OTHER_LIST] = "the trusted comment does not name the list",
    [MINISIGN_BAD_NAME] = "a list can only contain relative paths without .. or special characters",
    [MINISIGN_MALFORMED_LINE] = "a line of the list is malformed",
    [MINISIGN_NOT_LISTED] = "the list does not contain this name",
    [MINISIGN_LISTED_TWICE] = "the list contains this name twice",
    [MINISIGN_DIGEST_MISMATCH] = "the digest of the data is not the one in the list",
};

/* The kinds of the named errors, which are those in the Rust crate minisign, and of the errors for lists. */
static const enum minisign_kind kinds[MAX_ERROR + 1] = {
    [7] = MINISIGN_KIND_OUT_OF_MEMORY,
    [8] = MINISIGN_KIND_IO, [16] = MINISIGN_KIND_IO, [17] = MINISIGN_KIND_IO, [18] = MINISIGN_KIND_IO,
    [19] = MINISIGN_KIND_IO, [20] = MINISIGN_KIND_IO, [21] = MINISIGN_KIND_IO, [22] = MINISIGN_KIND_IO,
    [23] = MINISIGN_KIND_IO, [24] = MINISIGN_KIND_IO, [26] = MINISIGN_KIND_IO, [33] = MINISIGN_KIND_IO,
    [34] = MINISIGN_KIND_IO, [36] = MINISIGN_KIND_IO, [38] = MINISIGN_KIND_IO, [39] = MINISIGN_KIND_IO,
    [44] = MINISIGN_KIND_IO, [45] = MINISIGN_KIND_IO, [64] = MINISIGN_KIND_IO, [65] = MINISIGN_KIND_IO,
    [66] = MINISIGN_KIND_IO, [68] = MINISIGN_KIND_IO, [78] = MINISIGN_KIND_IO, [79] = MINISIGN_KIND_IO,
    [25] = MINISIGN_KIND_VERIFY, [27] = MINISIGN_KIND_VERIFY, [28] = MINISIGN_KIND_VERIFY,
    [29] = MINISIGN_KIND_VERIFY, [30] = MINISIGN_KIND_VERIFY, [31] = MINISIGN_KIND_VERIFY,
    [32] = MINISIGN_KIND_VERIFY, [37] = MINISIGN_KIND_VERIFY, [42] = MINISIGN_KIND_VERIFY,
    [72] = MINISIGN_KIND_VERIFY, [76] = MINISIGN_KIND_VERIFY, [81] = MINISIGN_KIND_VERIFY,
    [MINISIGN_OTHER_LIST] = MINISIGN_KIND_VERIFY, [MINISIGN_NOT_LISTED] = MINISIGN_KIND_VERIFY,
    [MINISIGN_LISTED_TWICE] = MINISIGN_KIND_VERIFY, [MINISIGN_DIGEST_MISMATCH] = MINISIGN_KIND_VERIFY,
    [MINISIGN_BAD_NAME] = MINISIGN_KIND_MISC, [MINISIGN_MALFORMED_LINE] = MINISIGN_KIND_MISC,
    [35] = MINISIGN_KIND_ENCODING, [80] = MINISIGN_KIND_ENCODING,
    [40] = MINISIGN_KIND_KDF, [41] = MINISIGN_KIND_KDF, [43] = MINISIGN_KIND_KDF, [77] = MINISIGN_KIND_KDF,
    [67] = MINISIGN_KIND_RNG,
    [69] = MINISIGN_KIND_MISC, [73] = MINISIGN_KIND_MISC, [74] = MINISIGN_KIND_MISC, [75] = MINISIGN_KIND_MISC,
    [70] = MINISIGN_KIND_GENERATE,
    [71] = MINISIGN_KIND_ENCRYPTED_KEY,
};

/* The errors that are API misuse. */
static const uint32_t misuses[] = { 1, 2, 3, 4, 5, 6, 9, 10, 11, 12, 13, 14, 15, 61, 62, 63, 82, 83, 84, 85, 86, 87, 88 };

/* Returns the kind that minisign.h documents for an error number. */
static enum minisign_kind expected_kind(uint32_t number)
{
    for (size_t i = 0; i < LENGTH(misuses); i++) {
        if (misuses[i] == number) {
            return MINISIGN_KIND_MISUSE;
        }
    }
    return number <= MAX_ERROR ? kinds[number] : MINISIGN_KIND_NONE;
}

int main(void)
{
    char complete[MINISIGN_ERROR_TEXT_BYTES], truncated[MINISIGN_ERROR_TEXT_BYTES];

    for (uint32_t number = 0; number <= MAX_ERROR; number++) {
        if (texts[number] == NULL && number > 63) {
            continue; /* These numbers belong to errors that no call returns. */
        }
        const char *text = texts[number] != NULL ? texts[number] : "unknown error";
        size_t len = strlen(text);

        memset(complete, 0xaa, sizeof complete);
        check(minisign_error_text(number, complete, sizeof complete) == len, "error %u: wrong length", number);
        check(len < sizeof complete && memcmp(complete, text, len + 1) == 0, "error %u: wrong text, expected: %s", number, text);
        for (size_t capacity = 0; capacity <= len; capacity++) {
            memset(truncated, 0xaa, sizeof truncated);
            check(minisign_error_text(number, truncated, capacity) == len, "error %u: wrong length for a buffer of %zu bytes",
                  number, capacity);
            check(capacity == 0 || (memcmp(truncated, text, capacity - 1) == 0 && truncated[capacity - 1] == 0),
                  "error %u: wrongly truncated to %zu bytes", number, capacity);
            check(truncated[capacity] == (char) 0xaa, "error %u: written beyond %zu bytes", number, capacity);
        }
    }
    for (uint32_t number = 0; number <= 300; number++) {
        check(minisign_error_kind(number) == expected_kind(number), "error %u: kind %d, expected %d", number,
              (int) minisign_error_kind(number), (int) expected_kind(number));
    }
    check(minisign_error_kind(UINT32_MAX) == MINISIGN_KIND_NONE, "error %u: wrong kind", UINT32_MAX);
    check(minisign_error_text(UINT32_MAX, complete, sizeof complete) == strlen("unknown error"), "error %u: wrong length",
          UINT32_MAX);
    return print_summary();
}
