/*
 * Checks installations with the calls of minisign_install.h. In each state of an installation, it makes each call of the
 * header, and compares the operation that is then due with a table. API misuse must not change the struct. Further checks
 * are about valid and invalid records, trusted comments and lists, the questions for Ed25519, and the new record. No call
 * may allocate memory.
 *
 * Linked with -Wl,--wrap=malloc -Wl,--wrap=realloc -Wl,--wrap=free.
 */
#include <stdlib.h>

#include "counted_memory.h"
#include "minisign_install.h"
#include "minisign_list.h"
#include "texts_for_tests.h"

#define CHECK_AT(due, condition) check((condition), "while %u is due: %s", (due), #condition)

#define TIMESTAMP 1556193335
/* The public key in hexadecimal, and the record of a timestamp for the data `abc`. The record also has the key and the digest. */
#define KEY_HEX "79a561e70ee08cd3e754c63e9bd6b9c3520a1d4204cd104da2e7ef763b1853b7"
#define TIMESTAMP_FIELD "timestamp:1556193335"
#define RECORD_OF_ABC TIMESTAMP_FIELD "\n" KEY_HEX "\n" BLAKE2B_OF_ABC
/* The SHA-256 digest of the data `abc` and its SHA-512 digest (FIPS 180-4), a list with this data under the name `app`, and the
 * digest and the record of this list. */
#define SHA256_OF_ABC "ba7816bf8f01cfea414140de5dae2223b00361a396177a9cb410ff61f20015ad"
#define SHA512_OF_ABC                                                  \
    "ddaf35a193617abacc417349ae20413112e6fa4e89a97ea20a9eeee64b55d39a" \
    "2192992a274fc1a836ba3c23a3feebbd454d4423643ce80e2a9ac94fa54ca49f"
#define LIST_OF_ABC SHA256_OF_ABC "  app\n"
#define BLAKE2B_OF_LIST                                                \
    "e005e441de6359db849c663aa5799aa4a8d5132ca4f5f9e9fb14aaa0acfa382c" \
    "d913ad6a98dba6073310c0154c779b66a512bd2dca7f610a11aa9aedd8857296"
#define RECORD_OF_LIST TIMESTAMP_FIELD "\n" KEY_HEX "\n" BLAKE2B_OF_LIST
/* A later timestamp, and a key that has not signed the update. */
#define LATER_TIMESTAMP_FIELD "timestamp:1556193336"
#define THIRD_KEY_HEX "5b5a5a5a5a5a5a5a5a5a5a5a5a5a5a5a5a5a5a5a5a5a5a5a5a5a5a5a5a5a5a5a"

/* For each operation, the operations that are due after minisign_install_done and after minisign_install_failed. 0 means that
 * minisign_install_done is not allowed. */
static const struct transition {
    uint32_t due, done, failed;
} transitions[] = {
    { MINISIGN_DUE_LOCK, MINISIGN_DUE_READ_RECORD, MINISIGN_DUE_REJECTED },
    { MINISIGN_DUE_READ_RECORD, 0, MINISIGN_DUE_REJECTED },
    { MINISIGN_DUE_READ_SIGNATURE, 0, MINISIGN_DUE_REJECTED },
    { MINISIGN_DUE_CHECK_COMMENT, 0, MINISIGN_DUE_REJECTED },
    { MINISIGN_DUE_READ_LIST, 0, MINISIGN_DUE_REJECTED },
    { MINISIGN_DUE_CHECK_LIST, 0, MINISIGN_DUE_REJECTED },
    { MINISIGN_DUE_CHECK_RECORD, 0, MINISIGN_DUE_REJECTED },
    { MINISIGN_DUE_READ_TARGET, MINISIGN_DUE_CHECK_TARGET, MINISIGN_DUE_REJECTED },
    { MINISIGN_DUE_CHECK_TARGET, 0, MINISIGN_DUE_REJECTED },
    { MINISIGN_DUE_SYNC_TARGET, MINISIGN_DUE_SYNC_TARGET_NAME, MINISIGN_DUE_REJECTED },
    { MINISIGN_DUE_SYNC_TARGET_NAME, MINISIGN_DUE_ALREADY_INSTALLED, MINISIGN_DUE_REJECTED },
    { MINISIGN_DUE_REMOVE_LEFTOVERS, MINISIGN_DUE_CREATE_FILE, MINISIGN_DUE_REJECTED },
    { MINISIGN_DUE_CREATE_FILE, MINISIGN_DUE_COPY_DATA, MINISIGN_DUE_REJECTED },
    { MINISIGN_DUE_COPY_DATA, MINISIGN_DUE_READ_BACK, MINISIGN_DUE_REMOVE_FILES },
    { MINISIGN_DUE_READ_BACK, MINISIGN_DUE_CHECK_DATA, MINISIGN_DUE_REMOVE_FILES },
    { MINISIGN_DUE_CHECK_DATA, 0, MINISIGN_DUE_REMOVE_FILES },
    { MINISIGN_DUE_SET_PERMISSIONS, MINISIGN_DUE_SYNC_FILE, MINISIGN_DUE_REMOVE_FILES },
    { MINISIGN_DUE_SYNC_FILE, MINISIGN_DUE_CREATE_RECORD, MINISIGN_DUE_REMOVE_FILES },
    { MINISIGN_DUE_CREATE_RECORD, MINISIGN_DUE_WRITE_RECORD, MINISIGN_DUE_REMOVE_FILES },
    { MINISIGN_DUE_WRITE_RECORD, MINISIGN_DUE_SYNC_RECORD, MINISIGN_DUE_REMOVE_FILES },
    { MINISIGN_DUE_SYNC_RECORD, MINISIGN_DUE_RENAME_RECORD, MINISIGN_DUE_REMOVE_FILES },
    { MINISIGN_DUE_RENAME_RECORD, MINISIGN_DUE_SYNC_RECORD_NAME, MINISIGN_DUE_REMOVE_FILES },
    { MINISIGN_DUE_SYNC_RECORD_NAME, MINISIGN_DUE_RENAME_FILE, MINISIGN_DUE_REMOVE_FILES },
    { MINISIGN_DUE_RENAME_FILE, MINISIGN_DUE_SYNC_FILE_NAME, MINISIGN_DUE_REMOVE_FILES },
    { MINISIGN_DUE_SYNC_FILE_NAME, MINISIGN_DUE_INSTALLED, MINISIGN_DUE_REJECTED },
    { MINISIGN_DUE_REMOVE_FILES, MINISIGN_DUE_REJECTED, MINISIGN_DUE_REJECTED },
    { MINISIGN_DUE_INSTALLED, 0, 0 },
    { MINISIGN_DUE_ALREADY_INSTALLED, 0, 0 },
    { MINISIGN_DUE_WOULD_INSTALL, 0, 0 },
    { MINISIGN_DUE_REJECTED, 0, 0 },
};

#define TRANSITIONS LENGTH(transitions)

/* The current time that is passed. The signature of these tests never expires. */
#define NOW 1000

/* The message of the comment signature, and the question for Ed25519 that `get_question` got. */
static uint8_t message[4096], question_key[32], question_signature[64], question_digest[64];
static size_t message_len;

/* The signature file, the file name and the time that `pass_signature` passes. */
static const char *passed_text = SIGNATURE, *passed_name = "test";
static int64_t passed_time = NOW;
/* The list and the name to look up that `pass_list` passes. If `uses_list` is 1, `installation_at` returns installations with a
 * list. */
static const char *passed_list = LIST_OF_ABC, *listed_name = "app";
static uint32_t uses_list;

/* Passes this signature file to the installation. */
static enum minisign_error pass_text(minisign_installation *i, const char *sig_text, const char *file, size_t capacity)
{
    return minisign_install_signature(i, bytes_of(sig_text), strlen(sig_text), bytes_of(file), strlen(file), passed_time,
                                      message, capacity, &message_len);
}

/* Passes the signature file `passed_text`. */
static enum minisign_error pass_signature(minisign_installation *i)
{
    return pass_text(i, passed_text, passed_name, sizeof message);
}

static enum minisign_error pass_list(minisign_installation *i)
{
    return minisign_install_list(i, bytes_of(passed_list), strlen(passed_list), bytes_of(listed_name), strlen(listed_name));
}

static enum minisign_error get_question(const minisign_installation *i)
{
    return minisign_install_question(i, question_key, question_signature, question_digest);
}

static enum minisign_error pass_record(minisign_installation *i, const char *text)
{
    return minisign_install_record(i, bytes_of(text), strlen(text));
}

static enum minisign_error pass_piece(minisign_installation *i, const char *data)
{
    return minisign_install_piece(i, bytes_of(data), strlen(data));
}

/* Passes the data `abc` and the end of the data. */
static enum minisign_error pass_abc(minisign_installation *i)
{
    enum minisign_error error = pass_piece(i, "abc");

    return error == MINISIGN_OK ? pass_piece(i, "") : error;
}

/* Passes the result of Ed25519 for the trusted comment. The same key was passed twice, so there are two questions. */
static enum minisign_error answer_comment(minisign_installation *i, enum minisign_answer answer)
{
    enum minisign_error error = minisign_install_answer(i, answer);

    return error == MINISIGN_OK && answer == NO ? minisign_install_answer(i, answer) : error;
}

/* Begins an installation with the published key. */
static enum minisign_error begin(minisign_installation *i, minisign_install_options options)
{
    const minisign_public_key key = key_of(KEY);

    return minisign_install_init(i, &key, &key, &options);
}

#define BEGIN(i, ...) begin((i), (minisign_install_options) { __VA_ARGS__ })

/* Reports that the operation that is due succeeded. `record_text` is the record. */
static void report_success(minisign_installation *i, const char *record_text)
{
    enum minisign_error error;

    switch (minisign_install_due(i)) {
    case MINISIGN_DUE_READ_RECORD: error = pass_record(i, record_text); break;
    case MINISIGN_DUE_READ_SIGNATURE: error = pass_signature(i); break;
    case MINISIGN_DUE_READ_LIST: error = pass_list(i); break;
    case MINISIGN_DUE_CHECK_COMMENT:
    case MINISIGN_DUE_CHECK_LIST:
    case MINISIGN_DUE_CHECK_RECORD:
    case MINISIGN_DUE_CHECK_TARGET:
    case MINISIGN_DUE_CHECK_DATA: error = minisign_install_answer(i, YES); break;
    case MINISIGN_DUE_READ_TARGET:
    case MINISIGN_DUE_READ_BACK: error = pass_abc(i); break;
    default: error = minisign_install_done(i);
    }
    if (error != MINISIGN_OK) {
        printf("the operation %u fails with error %u\n", minisign_install_due(i), (unsigned) error);
        exit(1);
    }
}

/* Reports successful operations until `due` is due. `record_text` is the record. */
static void advance_to(minisign_installation *i, uint32_t due, const char *record_text)
{
    for (int calls = 0; minisign_install_due(i) != due; calls++) {
        if (calls == 40) {
            printf("the operation %u is never due\n", due);
            exit(1);
        }
        report_success(i, record_text);
    }
}

static int reads_list(uint32_t due)
{
    return due == MINISIGN_DUE_READ_LIST || due == MINISIGN_DUE_CHECK_LIST;
}

/* Returns an installation at which this operation is due. The recorded version is older, except if the installed file must
 * be read. */
static minisign_installation installation_at(uint32_t due)
{
    int reads_target = (due >= MINISIGN_DUE_CHECK_RECORD && due <= MINISIGN_DUE_SYNC_TARGET_NAME)
                       || due == MINISIGN_DUE_ALREADY_INSTALLED;
    uint32_t before_failure = due == MINISIGN_DUE_REMOVE_FILES ? MINISIGN_DUE_COPY_DATA
                              : due == MINISIGN_DUE_REJECTED   ? MINISIGN_DUE_LOCK
                                                               : due;
    minisign_installation i;

    CHECK(BEGIN(&i, .is_check = due == MINISIGN_DUE_WOULD_INSTALL, .is_list = uses_list || reads_list(due)) == MINISIGN_OK);
    advance_to(&i, before_failure, !reads_target ? "5" : uses_list ? RECORD_OF_LIST : RECORD_OF_ABC);
    CHECK(before_failure == due || minisign_install_failed(&i, MINISIGN_WRITING_FAILED) == MINISIGN_WRITING_FAILED);
    CHECK(minisign_install_due(&i) == due);
    return i;
}

static int are_equal(const minisign_installation *first, const minisign_installation *second)
{
    return memcmp(first, second, sizeof *first) == 0;
}

/* Checks that a call returns the error `why`, and that `to` is then due. If `to` is 0, checks that the call returns
 * MINISIGN_NOT_DUE and changes nothing. */
#define CHECK_CALL(due, call, to, why)                                                                                  \
    do {                                                                                                                \
        const minisign_installation before = installation_at(due);                                                      \
        minisign_installation i = before;                                                                               \
        uint32_t next = (to);                                                                                           \
        enum minisign_error error = (call);                                                                             \
                                                                                                                        \
        CHECK_AT(due, next == 0 ? error == MINISIGN_NOT_DUE && are_equal(&i, &before)                                   \
                                : error == (why) && minisign_install_due(&i) == next);                                  \
    } while (0)

#define CHECK_SUCCESS(due, call, to) CHECK_CALL(due, call, to, MINISIGN_OK)

static int is_ed25519_check(uint32_t due)
{
    return due == MINISIGN_DUE_CHECK_COMMENT || due == MINISIGN_DUE_CHECK_LIST || due == MINISIGN_DUE_CHECK_RECORD
           || due == MINISIGN_DUE_CHECK_TARGET || due == MINISIGN_DUE_CHECK_DATA;
}

static int syncs_installed(uint32_t due)
{
    return due == MINISIGN_DUE_SYNC_TARGET || due == MINISIGN_DUE_SYNC_TARGET_NAME || due == MINISIGN_DUE_SYNC_FILE_NAME;
}

/* Returns the operation that is due after a valid signature was reported, or 0 if no answer is expected. */
static uint32_t due_after_yes(uint32_t due)
{
    switch (due) {
    case MINISIGN_DUE_CHECK_COMMENT: return uses_list ? MINISIGN_DUE_READ_LIST : MINISIGN_DUE_REMOVE_LEFTOVERS;
    case MINISIGN_DUE_CHECK_LIST: return MINISIGN_DUE_REMOVE_LEFTOVERS;
    case MINISIGN_DUE_CHECK_RECORD: return MINISIGN_DUE_READ_TARGET;
    case MINISIGN_DUE_CHECK_TARGET: return MINISIGN_DUE_SYNC_TARGET;
    case MINISIGN_DUE_CHECK_DATA: return MINISIGN_DUE_SET_PERMISSIONS;
    default: return 0;
    }
}

/* Makes each call at each operation. The text of the new record is available when it must be written. */
static void makes_each_call_at_each_operation(void)
{
    const char *new_record = uses_list ? RECORD_OF_LIST : RECORD_OF_ABC;

    for (size_t transition = 0; transition < TRANSITIONS; transition++) {
        const uint32_t due = transitions[transition].due;
        const int reads = due == MINISIGN_DUE_READ_TARGET || due == MINISIGN_DUE_READ_BACK;
        const int is_signed = due > MINISIGN_DUE_CHECK_COMMENT && due != MINISIGN_DUE_REJECTED;
        const int is_rejected = due == MINISIGN_DUE_REJECTED || due == MINISIGN_DUE_REMOVE_FILES;
        const enum minisign_error failure = due == MINISIGN_DUE_REMOVE_FILES ? MINISIGN_OK
                                            : syncs_installed(due)           ? MINISIGN_DIRECTORY_NOT_SYNCED
                                                                             : MINISIGN_WRITING_FAILED;
        const size_t len = due == MINISIGN_DUE_WRITE_RECORD ? sizeof RECORD_OF_ABC - 1 : 0;
        const minisign_installation begun = installation_at(due);
        uint64_t size = 77;

        CHECK_SUCCESS(due, minisign_install_done(&i), transitions[transition].done);
        CHECK_CALL(due, minisign_install_failed(&i, MINISIGN_WRITING_FAILED), transitions[transition].failed, failure);
        CHECK_SUCCESS(due, minisign_install_copied(&i, 3), due == MINISIGN_DUE_COPY_DATA ? due : 0);
        CHECK_SUCCESS(due, pass_record(&i, "5"), due == MINISIGN_DUE_READ_RECORD ? MINISIGN_DUE_READ_SIGNATURE : 0);
        CHECK_CALL(due, minisign_install_no_record(&i), due == MINISIGN_DUE_READ_RECORD ? MINISIGN_DUE_REJECTED : 0,
                   MINISIGN_NO_RECORD);
        CHECK_SUCCESS(due, pass_piece(&i, "abc"), reads ? due : 0);
        CHECK_SUCCESS(due, pass_piece(&i, ""), reads ? due + 1 : 0);
        CHECK_SUCCESS(due, minisign_install_no_target(&i), due == MINISIGN_DUE_READ_TARGET ? MINISIGN_DUE_REMOVE_LEFTOVERS : 0);
        CHECK_SUCCESS(due, pass_signature(&i), due == MINISIGN_DUE_READ_SIGNATURE ? MINISIGN_DUE_CHECK_COMMENT : 0);
        CHECK_SUCCESS(due, pass_list(&i), due == MINISIGN_DUE_READ_LIST ? MINISIGN_DUE_CHECK_LIST : 0);
        CHECK_SUCCESS(due, get_question(&i), is_ed25519_check(due) ? due : 0);
        CHECK_SUCCESS(due, minisign_install_answer(&i, YES), due_after_yes(due));
        CHECK_AT(due, minisign_install_error(&begun) == (is_rejected ? MINISIGN_WRITING_FAILED : MINISIGN_OK));
        CHECK_AT(due, minisign_install_version(&begun) == (is_signed ? TIMESTAMP : 0));
        CHECK_AT(due, minisign_install_is_signed(&begun) == (uint32_t) is_signed);
        CHECK_AT(due, minisign_install_size(&begun, &size) == 0 && size == 77 && minisign_install_line(&begun) == 0);
        memset(message, 0xaa, sizeof message);
        CHECK_AT(due, minisign_install_record_text(&begun, message, sizeof RECORD_OF_ABC - 2) == 0 && message[0] == 0xaa);
        CHECK_AT(due, minisign_install_record_text(&begun, message, MINISIGN_RECORD_TEXT_BYTES) == len);
        CHECK_AT(due, memcmp(message, new_record, len) == 0 && message[len] == 0xaa);
    }
}

/* The error of an installation is its first failure, even if removing the temporary files fails afterwards. */
static void keeps_first_failure(void)
{
    static const enum minisign_error reasons[] = { MINISIGN_OUT_OF_MEMORY, MINISIGN_READING_FAILED, MINISIGN_WRITING_FAILED,
                                                   MINISIGN_RANDOM_SOURCE_FAILED, MINISIGN_TARGET_IN_USE };
    static const enum minisign_error invalid[] = { MINISIGN_OK, MINISIGN_NOT_DUE, MINISIGN_SIGNATURE_REFUSED,
                                                   MINISIGN_DIRECTORY_NOT_SYNCED, (enum minisign_error) 999 };

    for (uint32_t due = MINISIGN_DUE_LOCK; due <= MINISIGN_DUE_SYNC_FILE_NAME; due++) {
        const minisign_installation begun = installation_at(due);

        for (size_t n = 0; n < LENGTH(reasons); n++) {
            enum minisign_error why = syncs_installed(due) ? MINISIGN_DIRECTORY_NOT_SYNCED : reasons[n];
            minisign_installation i = begun;

            if (reasons[n] == MINISIGN_TARGET_IN_USE && due != MINISIGN_DUE_LOCK) {
                CHECK_AT(due, minisign_install_failed(&i, reasons[n]) == MINISIGN_NOT_DUE && are_equal(&i, &begun));
                continue;
            }
            CHECK_AT(due, minisign_install_failed(&i, reasons[n]) == why && minisign_install_error(&i) == why);
            if (minisign_install_due(&i) == MINISIGN_DUE_REMOVE_FILES) {
                CHECK_AT(due, (n & 1 ? minisign_install_failed(&i, MINISIGN_WRITING_FAILED) : minisign_install_done(&i))
                                  == MINISIGN_OK);
            }
            CHECK_AT(due, minisign_install_due(&i) == MINISIGN_DUE_REJECTED && minisign_install_error(&i) == why);
        }
        for (size_t n = 0; n < LENGTH(invalid); n++) {
            minisign_installation i = begun;

            CHECK_AT(due, minisign_install_failed(&i, invalid[n]) == MINISIGN_NOT_DUE && are_equal(&i, &begun));
        }
    }
}

/* Checks structs that were not initialized, and invalid options. */
static void rejects_bad_options(void)
{
    minisign_installation i, before;

    for (int byte = 0; byte < 256; byte += 85) {
        uint64_t size;

        memset(&i, byte, sizeof i);
        before = i;
        CHECK(minisign_install_due(&i) == 0 && minisign_install_error(&i) == MINISIGN_OK);
        CHECK(minisign_install_done(&i) == MINISIGN_NOT_DUE && minisign_install_copied(&i, 0) == MINISIGN_NOT_DUE);
        CHECK(minisign_install_failed(&i, MINISIGN_WRITING_FAILED) == MINISIGN_NOT_DUE);
        CHECK(pass_record(&i, "5") == MINISIGN_NOT_DUE && minisign_install_no_record(&i) == MINISIGN_NOT_DUE);
        CHECK(pass_piece(&i, "abc") == MINISIGN_NOT_DUE && pass_signature(&i) == MINISIGN_NOT_DUE
              && get_question(&i) == MINISIGN_NOT_DUE);
        CHECK(pass_list(&i) == MINISIGN_NOT_DUE && minisign_install_line(&i) == 0);
        CHECK(minisign_install_answer(&i, YES) == MINISIGN_NOT_DUE);
        CHECK(minisign_install_no_target(&i) == MINISIGN_NOT_DUE && minisign_install_version(&i) == 0);
        CHECK(minisign_install_is_signed(&i) == 0 && minisign_install_size(&i, &size) == 0);
        CHECK(minisign_install_record_text(&i, message, sizeof message) == 0);
        CHECK(BEGIN(&i, .is_first = 2) == MINISIGN_BAD_OPTION && BEGIN(&i, .again = 2) == MINISIGN_BAD_OPTION);
        CHECK(BEGIN(&i, .is_check = UINT32_MAX) == MINISIGN_BAD_OPTION && BEGIN(&i, .must_expire = 2) == MINISIGN_BAD_OPTION);
        CHECK(BEGIN(&i, .new_key = 2) == MINISIGN_BAD_OPTION && BEGIN(&i, .roll_back = 2) == MINISIGN_BAD_OPTION);
        CHECK(BEGIN(&i, .is_first = 1, .new_key = 1) == MINISIGN_BAD_OPTION);
        CHECK(BEGIN(&i, .is_first = 1, .roll_back = 1) == MINISIGN_BAD_OPTION);
        CHECK(BEGIN(&i, .is_first = 2, .numbering = 2) == MINISIGN_BAD_OPTION);
        CHECK(BEGIN(&i, .is_list = 2) == MINISIGN_BAD_OPTION && BEGIN(&i, .is_list = 2, .long_digest = 1) == MINISIGN_BAD_OPTION);
        CHECK(BEGIN(&i, .is_list = 1, .long_digest = 1) == MINISIGN_BAD_HASH);
        CHECK(BEGIN(&i, .is_list = 1, .long_digest = 4) == MINISIGN_BAD_HASH);
        CHECK(BEGIN(&i, .is_list = 1, .long_digest = UINT32_MAX) == MINISIGN_BAD_HASH);
        CHECK(BEGIN(&i, .numbering = 2, .is_list = 1, .long_digest = 1) == MINISIGN_BAD_NUMBERING);
        CHECK(BEGIN(&i, .numbering = 2) == MINISIGN_BAD_NUMBERING);
        CHECK(BEGIN(&i, .is_first = 1, .numbering = UINT32_MAX) == MINISIGN_BAD_NUMBERING);
        CHECK(are_equal(&i, &before));
        CHECK(BEGIN(&i, .is_first = 1, .again = 1, .numbering = 1) == MINISIGN_OK && minisign_install_due(&i) == MINISIGN_DUE_LOCK);
        CHECK(BEGIN(&i, .new_key = 1, .roll_back = 1, .is_check = 1) == MINISIGN_OK
              && minisign_install_due(&i) == MINISIGN_DUE_READ_RECORD);
        CHECK(BEGIN(&i, .is_list = 1) == MINISIGN_OK
              && BEGIN(&i, .is_list = 1, .long_digest = MINISIGN_HASH_SHA512) == MINISIGN_OK);
        CHECK(BEGIN(&i, .is_list = 1, .long_digest = MINISIGN_HASH_BLAKE2B, .is_check = 1) == MINISIGN_OK
              && minisign_install_due(&i) == MINISIGN_DUE_READ_RECORD);
    }
}

/* Checks the error for a record with these options. If text is NULL, there is no record. */
static void check_record(const uint8_t *text, size_t len, minisign_install_options options, enum minisign_error expected_error)
{
    minisign_installation i;

    CHECK(begin(&i, options) == MINISIGN_OK);
    report_success(&i, "");
    CHECK((text == NULL ? minisign_install_no_record(&i) : minisign_install_record(&i, text, len)) == expected_error);
    CHECK(minisign_install_due(&i) == (expected_error == MINISIGN_OK ? MINISIGN_DUE_READ_SIGNATURE : MINISIGN_DUE_REJECTED));
    CHECK(minisign_install_error(&i) == expected_error);
}

#define CHECK_RECORD(text, len, expected_error, ...) \
    check_record((text), (len), (minisign_install_options) { __VA_ARGS__ }, (expected_error))

/* Checks the errors for a record with each version field, with and without is_first. */
static void check_record_text(const char *text, enum minisign_error by_time, enum minisign_error by_version)
{
    CHECK_RECORD(bytes_of(text), strlen(text), by_time, .new_key = 0);
    CHECK_RECORD(bytes_of(text), strlen(text), by_version, .numbering = MINISIGN_NUMBERING_VERSION);
    CHECK_RECORD(bytes_of(text), strlen(text), by_time, .new_key = 1, .roll_back = 1);
    CHECK_RECORD(bytes_of(text), strlen(text), MINISIGN_OK, .is_first = 1);
    CHECK_RECORD(bytes_of(text), strlen(text), MINISIGN_OK, .is_first = 1, .numbering = MINISIGN_NUMBERING_VERSION);
}

static void reads_records(void)
{
    /* A record with a number only is valid for both version fields. */
    static const char *const numbers[] = { "0", "5", "5\n", "18446744073709551615",
                                           "0000000000000000000000000000000000000000000000000000000000000005",
                                           "000000000000000000000000000000000000000000000000000000000000005\n" };
    static const char *const timestamps[] = {
        RECORD_OF_ABC, "timestamp:0", "timestamp:5", "timestamp:5\n", "timestamp:18446744073709551615",
        "timestamp:000000000000000000000000000000000000000000000000000005",
        "timestamp:00000000000000000000000000000000000000000000000000005\n",
    };
    static const char *const versions[] = { "version:0", "version:5", "version:5\n", "version:18446744073709551615" };
    static const char *const damaged[] = {
        "", "\n", "5\n\n", "5\n5", " 5", "5 ", "five", "-5", "+5", "18446744073709551616", "timestamp:", "timestamp:\n",
        "timestamp:+5", "timestamp:-5", "timestamp: 5", "timestamp:5 ", "timestamp:5\n\n", "timestamp:five",
        "timestamp:18446744073709551616", " timestamp:5", "Timestamp:5", "timestamp5", "timestamp:timestamp:5",
        "timestamp:version:5", "version:", "version:+5", "version:timestamp:5", "versions:5", "number:5", ":5", "5:",
        "timestamp:5\tversion:5", "file:5", "timestamp:0000000000000000000000000000000000000000000000000000005",
        "00000000000000000000000000000000000000000000000000000000000000005",
        "0000000000000000000000000000000000000000000000000000000000000005\n", RECORD_OF_ABC "\n", RECORD_OF_ABC "0",
        "timestamp:5\n" BLAKE2B_OF_ABC, "five" BLAKE2B_OF_ABC BLAKE2B_OF_ABC,
        "timestamp:5\n" BLAKE2B_OF_ABC "\n" BLAKE2B_OF_ABC "\n" BLAKE2B_OF_ABC,
    };

    for (size_t n = 0; n < LENGTH(numbers); n++) {
        check_record_text(numbers[n], MINISIGN_OK, MINISIGN_OK);
    }
    for (size_t n = 0; n < LENGTH(timestamps); n++) {
        check_record_text(timestamps[n], MINISIGN_OK, MINISIGN_KEPT_BY_TIMESTAMP);
    }
    for (size_t n = 0; n < LENGTH(versions); n++) {
        check_record_text(versions[n], MINISIGN_KEPT_BY_VERSION, MINISIGN_OK);
    }
    for (size_t n = 0; n < LENGTH(damaged); n++) {
        check_record_text(damaged[n], MINISIGN_DAMAGED_RECORD, MINISIGN_DAMAGED_RECORD);
    }
    for (uint32_t numbering = 0; numbering < 2; numbering++) {
        CHECK_RECORD(bytes_of("5\0"), 2, MINISIGN_DAMAGED_RECORD, .numbering = numbering);
        CHECK_RECORD(bytes_of("\xff"), 1, MINISIGN_DAMAGED_RECORD, .numbering = numbering);
        CHECK_RECORD(NULL, 0, MINISIGN_NO_RECORD, .numbering = numbering);
        CHECK_RECORD(NULL, 0, MINISIGN_NO_RECORD, .numbering = numbering, .new_key = 1, .roll_back = 1);
        CHECK_RECORD(NULL, 0, MINISIGN_OK, .numbering = numbering, .is_first = 1);
    }
}

/* The option must_expire that check_comment uses. */
static uint32_t must_expire;

/* Checks the error and the version number for a trusted comment and a record. `answer` is the result of Ed25519 for the
 * comment signature. */
static void check_comment(const char *record_text, uint32_t is_first, const char *signature, const char *file, uint32_t numbering,
                          enum minisign_answer answer, enum minisign_error expected_error, uint64_t number)
{
    minisign_installation i;
    enum minisign_error error;
    uint32_t is_signed = 0;

    CHECK(BEGIN(&i, .is_first = is_first, .numbering = numbering, .must_expire = must_expire) == MINISIGN_OK);
    advance_to(&i, MINISIGN_DUE_READ_SIGNATURE, record_text);
    error = pass_text(&i, signature, file, sizeof message);
    if (error == MINISIGN_OK) {
        CHECK(minisign_install_error(&i) == MINISIGN_OK && minisign_install_due(&i) == MINISIGN_DUE_CHECK_COMMENT);
        CHECK(minisign_install_version(&i) == 0 && minisign_install_is_signed(&i) == 0);
        error = answer_comment(&i, answer);
        is_signed = answer == YES;
    }
    check(error == expected_error && minisign_install_error(&i) == expected_error, "%s: error %u, expected %u", signature,
          (unsigned) error, (unsigned) expected_error);
    CHECK((minisign_install_due(&i) == MINISIGN_DUE_REJECTED) == (expected_error != MINISIGN_OK));
    check(minisign_install_is_signed(&i) == is_signed && minisign_install_version(&i) == number,
          "%s: wrong version number", signature);
}

static void checks_comments(void)
{
    const uint32_t by_time = MINISIGN_NUMBERING_TIMESTAMP, by_version = MINISIGN_NUMBERING_VERSION;

    check_comment("0", 0, SIGNATURE, "test", by_time, YES, MINISIGN_OK, TIMESTAMP);
    check_comment(TIMESTAMP_FIELD, 0, SIGNATURE, "test", by_time, YES, MINISIGN_OK, TIMESTAMP);
    check_comment(RECORD_OF_ABC, 0, SIGNATURE, "test", by_time, YES, MINISIGN_OK, TIMESTAMP);
    check_comment("1556193336", 0, SIGNATURE, "test", by_time, YES, MINISIGN_OLDER_UPDATE, TIMESTAMP);
    check_comment("timestamp:1556193336", 0, SIGNATURE, "test", by_time, YES, MINISIGN_OLDER_UPDATE, TIMESTAMP);
    check_comment("timestamp:1556193336\n" BLAKE2B_OF_ABC, 1, SIGNATURE, "test", by_time, YES, MINISIGN_OK, TIMESTAMP);
    /* With is_first, a recorded number of the other field is ignored. A number of the same field, or without a field, is not
     * ignored. */
    check_comment("version:1556193336", 1, SIGNATURE, "test", by_time, YES, MINISIGN_OK, TIMESTAMP);
    check_comment("timestamp:1556193336", 1, SIGNATURE, "test", by_time, YES, MINISIGN_OLDER_UPDATE, TIMESTAMP);
    check_comment("1556193336", 1, SIGNATURE, "test", by_time, YES, MINISIGN_OLDER_UPDATE, TIMESTAMP);
    check_comment("0", 0, SIGNATURE, "tes", by_time, YES, MINISIGN_OTHER_FILE, TIMESTAMP);
    check_comment("0", 0, SIGNATURE, "", by_time, YES, MINISIGN_OTHER_FILE, TIMESTAMP);
    check_comment("0", 0, SIGNATURE, "test", by_version, YES, MINISIGN_NO_NUMBER, 0);
    /* An invalid comment signature is reported before errors in the comment. */
    check_comment("1556193336", 0, SIGNATURE, "tes", by_version, NO, MINISIGN_COMMENT_SIGNATURE_REFUSED, 0);
    check_comment("0", 0, LEGACY_SIGNATURE, "test", by_time, YES, MINISIGN_LEGACY_NOT_ACCEPTED, 0);
    check_comment("0", 0, OTHER_KEY_SIGNATURE, "test", by_time, YES, MINISIGN_DIFFERENT_KEY_IDS, 0);
    check_comment("0", 0, SIGNATURE, "\xff", by_time, YES, MINISIGN_NOT_UTF8, 0);
    check_comment("0", 0, "untrusted comment: none", "test", by_time, YES, MINISIGN_MISSING_SIGNATURE, 0);
}

/* The signature must be valid for the data that was read back. */
static void rejects_other_data(void)
{
    minisign_installation i = installation_at(MINISIGN_DUE_CHECK_DATA);

    CHECK(minisign_install_answer(&i, NO) == MINISIGN_SIGNATURE_REFUSED && minisign_install_due(&i) == MINISIGN_DUE_REMOVE_FILES);
    CHECK(minisign_install_error(&i) == MINISIGN_SIGNATURE_REFUSED && minisign_install_is_signed(&i) == 1);
    CHECK(minisign_install_done(&i) == MINISIGN_OK && minisign_install_error(&i) == MINISIGN_SIGNATURE_REFUSED);
}

/* Returns a signature file with this trusted comment. */
static const char *signature_with_comment(const char *comment)
{
    static char text[1024];

    snprintf(text, sizeof text, "%s%s\ntrusted comment: %s\n%s", SIGNATURE_COMMENT, RECORD, comment, COMMENT_RECORD);
    return text;
}

/* Checks the error and the version number for a signed trusted comment, if version 2 is recorded. The comment is the
 * printf format `format` with one argument. */
static void check_signed_comment(const char *format, const char *argument, uint32_t is_first, enum minisign_error expected_error,
                                 uint64_t number)
{
    char comment[256];

    snprintf(comment, sizeof comment, format, argument);
    check_comment("2", is_first, signature_with_comment(comment), "a", MINISIGN_NUMBERING_VERSION, YES, expected_error, number);
}

/* Checks the fields expires: and size:. */
static void reads_expiry_and_size(void)
{
    static const char *const misspelled[] = { "Expires:2000", "EXPIRES:2000", "ex pires: 2000", "expires :2000", "expires\f:2000" };
    static const char *const unrelated[] = { "expire:2000", "expires2000", "xexpires:2000", "expires", "" };
    static const char *const bad_sizes[] = { "size:", "size:x", "size:+5", "size: 5", "size:18446744073709551616",
                                            "size:5\tsize:5", "size:5\tsize:x" };
    static const char *const good_sizes[] = { "size:0", "size:18446744073709551615", "Size:x", "si ze:x", "size" };

    for (must_expire = 0; must_expire < 2; must_expire++) {
        const enum minisign_error missing_expiry = must_expire ? MINISIGN_NO_EXPIRY : MINISIGN_OK;
        const enum minisign_error unclear_expiry = must_expire ? MINISIGN_BAD_EXPIRY : MINISIGN_OK;

        check_signed_comment("file:a\tversion:3\texpires:1001", "", 0, MINISIGN_OK, 3);
        check_signed_comment("file:a\tversion:3\texpires:1000", "", 0, MINISIGN_EXPIRED, 3);
        check_signed_comment("file:a\tversion:3\texpires:x", "", 0, MINISIGN_BAD_EXPIRY, 3);
        check_signed_comment("expires:2000\tfile:a\tversion:3\texpires:2000", "", 0, MINISIGN_BAD_EXPIRY, 3);
        check_signed_comment("file:b\tversion:3", "", 0, MINISIGN_OTHER_FILE, 3);
        check_signed_comment("file:a\tversion:x", "", 0, MINISIGN_NO_NUMBER, 0);
        check_signed_comment("file:a\tversion:1\texpires:2000", "", 0, MINISIGN_OLDER_UPDATE, 1);
        check_signed_comment("file:a\t expires:2000\tversion:3", "", 0, unclear_expiry, 3);
        for (size_t n = 0; n < LENGTH(unrelated); n++) {
            check_signed_comment("file:a\tversion:3\t%s", unrelated[n], 0, missing_expiry, 3);
            check_signed_comment("%s\tfile:a\tversion:3\texpires:2000", unrelated[n], 0, MINISIGN_OK, 3);
        }
        for (size_t n = 0; n < LENGTH(misspelled); n++) {
            check_signed_comment("file:a\tversion:3\t%s", misspelled[n], 0, unclear_expiry, 3);
            check_signed_comment("%s\tfile:a\tversion:3\texpires:2000", misspelled[n], 0, unclear_expiry, 3);
            check_signed_comment("file:a\tversion:3\texpires:2000\t%s", misspelled[n], 0, unclear_expiry, 3);
        }
    }
    must_expire = 0;
    for (size_t n = 0; n < LENGTH(bad_sizes); n++) {
        /* The expiry date is checked before the size, and the version after the size. */
        check_signed_comment("file:a\tversion:1\t%s", bad_sizes[n], 0, MINISIGN_BAD_SIZE, 1);
        check_signed_comment("file:a\tversion:3\texpires:1000\t%s", bad_sizes[n], 0, MINISIGN_EXPIRED, 3);
    }
    check_signed_comment("file:a\tsize:5 \tversion:3", "", 0, MINISIGN_BAD_SIZE, 3);
    check_signed_comment("file:a\t size:x\tversion:3", "", 0, MINISIGN_OK, 3);
    for (size_t n = 0; n < LENGTH(good_sizes); n++) {
        check_signed_comment("%s\tfile:a\tversion:3", good_sizes[n], 0, MINISIGN_OK, 3);
    }
}

/* At a time before 1970, every update with an expiry date has expired. An update without one never expires. */
static void checks_expiry(void)
{
    static const int64_t times[] = { INT64_MIN, -1, 0, 1999, 2000, INT64_MAX };

    for (size_t n = 0; n < LENGTH(times); n++) {
        passed_time = times[n];
        check_signed_comment("file:a\tversion:3\texpires:2000", "", 0, n == 2 || n == 3 ? MINISIGN_OK : MINISIGN_EXPIRED, 3);
        check_signed_comment("file:a\tversion:3\texpires:18446744073709551615", "", 0, n < 2 ? MINISIGN_EXPIRED : MINISIGN_OK, 3);
        check_signed_comment("file:a\tversion:3", "", 0, MINISIGN_OK, 3);
    }
    passed_time = NOW;
}

/* Returns an installation of version 3, with version 2 recorded, at which this operation is due. The trusted comment has this
 * field. */
static minisign_installation installation_with_field(const char *field, uint32_t due)
{
    static char comment[128];
    minisign_installation i;

    snprintf(comment, sizeof comment, "file:a\tversion:3\t%s", field);
    passed_text = signature_with_comment(comment);
    passed_name = "a";
    CHECK(BEGIN(&i, .numbering = MINISIGN_NUMBERING_VERSION) == MINISIGN_OK);
    advance_to(&i, due, "2");
    passed_text = SIGNATURE;
    passed_name = "test";
    return i;
}

/* Reports two copied pieces of these lengths, and the end. The call number `failing_call`, counted from 0, must fail. If it is 3,
 * no call may fail. */
static void check_pieces(const char *field, size_t first_len, size_t second_len, int failing_call)
{
    minisign_installation i = installation_with_field(field, MINISIGN_DUE_COPY_DATA);

    for (int call = 0; call < 3 && call <= failing_call; call++) {
        const enum minisign_error error = call == 2 ? minisign_install_done(&i)
                                                    : minisign_install_copied(&i, call == 0 ? first_len : second_len);

        CHECK(error == (call == failing_call ? MINISIGN_OTHER_SIZE : MINISIGN_OK));
        CHECK(minisign_install_due(&i) == (call == failing_call ? MINISIGN_DUE_REMOVE_FILES
                                           : call == 2          ? MINISIGN_DUE_READ_BACK
                                                                : MINISIGN_DUE_COPY_DATA));
    }
    if (failing_call < 3) {
        CHECK(minisign_install_copied(&i, 0) == MINISIGN_NOT_DUE && minisign_install_done(&i) == MINISIGN_OK);
        CHECK(minisign_install_due(&i) == MINISIGN_DUE_REJECTED && minisign_install_error(&i) == MINISIGN_OTHER_SIZE);
    }
}

/* The data must have the signed size, if there is one. */
static void checks_size_of_data(void)
{
    static const char *const fields[] = { "size:5", "size:0", "size:18446744073709551615" };
    static const uint64_t sizes[] = { 5, 0, UINT64_MAX };

    for (size_t n = 0; n < LENGTH(fields); n++) {
        minisign_installation i = installation_with_field(fields[n], MINISIGN_DUE_CHECK_COMMENT);
        uint64_t size = 77;

        CHECK(minisign_install_size(&i, &size) == 0 && size == 77);
        CHECK(minisign_install_answer(&i, YES) == MINISIGN_OK);
        CHECK(minisign_install_size(&i, &size) == 1 && size == sizes[n]);
    }
    check_pieces("size:5", 5, 0, 3);
    check_pieces("size:5", 2, 3, 3);
    check_pieces("size:5", 0, 5, 3);
    check_pieces("size:0", 0, 0, 3);
    check_pieces("size:18446744073709551615", SIZE_MAX, 0, sizeof(size_t) == 8 ? 3 : 2);
    check_pieces("size:5", 2, 2, 2);
    check_pieces("size:5", 0, 0, 2);
    check_pieces("size:5", 2, 4, 1);
    check_pieces("size:5", 6, 0, 0);
    check_pieces("size:5", 5, SIZE_MAX, 1);
    check_pieces("size", SIZE_MAX, SIZE_MAX, 3);
}

/* Checks the error for a record that was made under this key. With is_first or new_key, a record under neither of the two
 * keys is ignored, whatever its version number is. */
static void check_key_of_record(const char *digits, uint32_t is_first, uint32_t new_key, enum minisign_error expected_error)
{
    const minisign_public_key key = key_of(KEY);
    const minisign_install_options options = { .is_first = is_first, .new_key = new_key };
    minisign_public_key other_key = key;
    char text[512];
    minisign_installation i;

    other_key.key_id[0] ^= 1;
    memset(other_key.key, 0x5a, sizeof other_key.key);
    snprintf(text, sizeof text, LATER_TIMESTAMP_FIELD "\n%s\n%s", digits, BLAKE2B_OF_ABC);
    CHECK(minisign_install_init(&i, &key, &other_key, &options) == MINISIGN_OK);
    advance_to(&i, MINISIGN_DUE_CHECK_COMMENT, text);
    CHECK(minisign_install_answer(&i, YES) == expected_error);
}

static void compares_key_of_record(void)
{
    static const char second[] = "5a5a5a5a5a5a5a5a5a5a5a5a5a5a5a5a5a5a5a5a5a5a5a5a5a5a5a5a5a5a5a5a";

    for (uint32_t n = 0; n < 3; n++) {
        const uint32_t is_first = n == 1, new_key = n == 2;

        check_key_of_record(KEY_HEX, is_first, new_key, MINISIGN_OLDER_UPDATE);
        check_key_of_record(second, is_first, new_key, MINISIGN_OLDER_UPDATE);
        check_key_of_record(THIRD_KEY_HEX, is_first, new_key, n == 0 ? MINISIGN_OLDER_UPDATE : MINISIGN_OK);
    }
}

/* Checks the questions for Ed25519, with their keys and messages. API misuse must change nothing. */
static void asks_about_each_signature(void)
{
    static const uint32_t checks[] = { MINISIGN_DUE_CHECK_COMMENT, MINISIGN_DUE_CHECK_RECORD, MINISIGN_DUE_CHECK_TARGET,
                                       MINISIGN_DUE_CHECK_DATA };
    const minisign_public_key key = key_of(KEY);
    const minisign_signature signature = signature_of(SIGNATURE);
    const size_t len = 64 + sizeof COMMENT - 1;
    minisign_installation i = installation_at(MINISIGN_DUE_READ_SIGNATURE), before = i;

    message_len = 77;
    CHECK(pass_text(&i, SIGNATURE, "test", len - 1) == MINISIGN_NO_ROOM && are_equal(&i, &before) && message_len == 77);
    CHECK(pass_text(&i, SIGNATURE, "test", len) == MINISIGN_OK && message_len == len);
    CHECK(memcmp(message, signature.signature, 64) == 0 && memcmp(message + 64, COMMENT, len - 64) == 0);
    for (size_t n = 0; n < LENGTH(checks); n++) {
        const int is_comment = checks[n] == MINISIGN_DUE_CHECK_COMMENT;

        i = before = installation_at(checks[n]);
        CHECK_AT(checks[n], get_question(&i) == MINISIGN_OK && memcmp(question_key, key.key, sizeof key.key) == 0);
        CHECK_AT(checks[n],
                 is_comment
                     ? memcmp(question_signature, signature.comment_signature, 64) == 0 && is_zeros(question_digest, 64)
                     : memcmp(question_signature, signature.signature, 64) == 0 && equals_hex(question_digest, BLAKE2B_OF_ABC));
        CHECK_AT(checks[n], minisign_install_answer(&i, (enum minisign_answer) 1) == MINISIGN_BAD_ANSWER && are_equal(&i, &before));
        CHECK_AT(checks[n], minisign_install_answer(&i, (enum minisign_answer) 0) == MINISIGN_BAD_ANSWER && are_equal(&i, &before));
    }
    memset(question_key, 0xaa, sizeof question_key);
    i = installation_at(MINISIGN_DUE_LOCK);
    CHECK(get_question(&i) == MINISIGN_NOT_DUE && question_key[0] == 0xaa && question_key[31] == 0xaa);
}

/* Either of two keys may have signed. The key ID selects the key; if both keys have this key ID, there are questions for both. */
static void selects_key_by_id(void)
{
    static const minisign_install_options options;
    const minisign_public_key key = key_of(KEY);
    minisign_public_key other_key = key, same_id_key = key;
    minisign_installation i;

    other_key.key_id[0] ^= 1;
    other_key.key[0] ^= 1;
    same_id_key.key[0] ^= 1;
    for (int n = 0; n < 4; n++) {
        CHECK(minisign_install_init(&i, n & 1 ? &key : &other_key, n & 2 ? &key : &other_key, &options) == MINISIGN_OK);
        advance_to(&i, MINISIGN_DUE_READ_SIGNATURE, "5");
        CHECK(pass_signature(&i) == (n == 0 ? MINISIGN_DIFFERENT_KEY_IDS : MINISIGN_OK));
        CHECK(n == 0 || (get_question(&i) == MINISIGN_OK && memcmp(question_key, key.key, sizeof key.key) == 0));
        CHECK(n == 0 || n == 3 || minisign_install_answer(&i, NO) == MINISIGN_COMMENT_SIGNATURE_REFUSED);
    }
    for (int n = 0; n < 2; n++) {
        const minisign_public_key *first = n ? &key : &same_id_key, *second = n ? &same_id_key : &key;

        CHECK(minisign_install_init(&i, first, second, &options) == MINISIGN_OK);
        advance_to(&i, MINISIGN_DUE_CHECK_COMMENT, "5");
        CHECK(get_question(&i) == MINISIGN_OK && memcmp(question_key, first->key, sizeof first->key) == 0);
        CHECK(minisign_install_answer(&i, NO) == MINISIGN_OK && minisign_install_due(&i) == MINISIGN_DUE_CHECK_COMMENT);
        CHECK(minisign_install_is_signed(&i) == 0);
        CHECK(get_question(&i) == MINISIGN_OK && memcmp(question_key, second->key, sizeof second->key) == 0);
        advance_to(&i, MINISIGN_DUE_CHECK_DATA, "5");
        CHECK(get_question(&i) == MINISIGN_OK && memcmp(question_key, second->key, sizeof second->key) == 0);
    }
}

/* Checks the operation that is due and the error for an update of the recorded version. `record_answer` and `target_answer` are the
 * answers about the digest in the record and about the installed file. */
static void check_recorded(const char *record_text, uint32_t again, uint32_t is_check, enum minisign_answer record_answer,
                           enum minisign_answer target_answer, uint32_t due, enum minisign_error expected_error)
{
    minisign_installation i;

    CHECK(BEGIN(&i, .again = again, .is_check = is_check) == MINISIGN_OK);
    advance_to(&i, MINISIGN_DUE_CHECK_COMMENT, record_text);
    CHECK(minisign_install_answer(&i, YES) == MINISIGN_OK);
    if (strlen(record_text) > 64) {
        CHECK(minisign_install_due(&i) == MINISIGN_DUE_CHECK_RECORD && minisign_install_answer(&i, record_answer) == MINISIGN_OK);
    }
    CHECK(minisign_install_due(&i) == MINISIGN_DUE_READ_TARGET && pass_abc(&i) == MINISIGN_OK);
    CHECK(minisign_install_answer(&i, target_answer) == expected_error);
    CHECK(minisign_install_is_signed(&i) == 1 && minisign_install_version(&i) == TIMESTAMP);
    CHECK(minisign_install_due(&i) == due && minisign_install_error(&i) == expected_error);
}

static void handles_recorded_version(void)
{
    for (uint32_t again = 0; again < 2; again++) {
        check_recorded(RECORD_OF_ABC, again, 0, YES, YES, MINISIGN_DUE_SYNC_TARGET, MINISIGN_OK);
        check_recorded(TIMESTAMP_FIELD, again, 0, NO, YES, MINISIGN_DUE_SYNC_TARGET, MINISIGN_OK);
        check_recorded(RECORD_OF_ABC, again, 1, YES, YES, MINISIGN_DUE_ALREADY_INSTALLED, MINISIGN_OK);
        check_recorded(RECORD_OF_ABC, again, 0, YES, NO, MINISIGN_DUE_REMOVE_LEFTOVERS, MINISIGN_OK);
        check_recorded(RECORD_OF_ABC, again, 1, YES, NO, MINISIGN_DUE_WOULD_INSTALL, MINISIGN_OK);
    }
    check_recorded(RECORD_OF_ABC, 1, 0, NO, NO, MINISIGN_DUE_REMOVE_LEFTOVERS, MINISIGN_OK);
    check_recorded(RECORD_OF_ABC, 0, 0, NO, NO, MINISIGN_DUE_REJECTED, MINISIGN_SAME_NUMBER);
    check_recorded(RECORD_OF_ABC, 0, 1, NO, NO, MINISIGN_DUE_REJECTED, MINISIGN_SAME_NUMBER);
    /* A record without a digest does not match any data. */
    check_recorded(TIMESTAMP_FIELD, 0, 0, YES, NO, MINISIGN_DUE_REJECTED, MINISIGN_SAME_NUMBER);
    check_recorded("1556193335", 0, 1, YES, NO, MINISIGN_DUE_REJECTED, MINISIGN_SAME_NUMBER);
}

/* Checks the operation that is due in a roll-back with this record, after its trusted comment was verified, and the new
 * record if the update is then installed. */
static void check_roll_back(const char *record_text, uint32_t due, const char *new_record)
{
    minisign_installation i;

    CHECK(BEGIN(&i, .roll_back = 1) == MINISIGN_OK);
    advance_to(&i, MINISIGN_DUE_CHECK_COMMENT, record_text);
    CHECK(minisign_install_answer(&i, YES) == MINISIGN_OK && minisign_install_due(&i) == due);
    if (due == MINISIGN_DUE_CHECK_RECORD) {
        CHECK(minisign_install_answer(&i, NO) == MINISIGN_OK);
    }
    CHECK(minisign_install_due(&i) == MINISIGN_DUE_REMOVE_LEFTOVERS);
    advance_to(&i, MINISIGN_DUE_WRITE_RECORD, record_text);
    CHECK(minisign_install_record_text(&i, message, sizeof message) == strlen(new_record));
    CHECK(memcmp(message, new_record, strlen(new_record)) == 0);
}

/* A roll-back keeps the version and the key in the record. */
static void rolls_back(void)
{
    minisign_installation i;

    check_roll_back("5", MINISIGN_DUE_REMOVE_LEFTOVERS, RECORD_OF_ABC);
    check_roll_back("1556193336", MINISIGN_DUE_REMOVE_LEFTOVERS, LATER_TIMESTAMP_FIELD "\n" KEY_HEX "\n" BLAKE2B_OF_ABC);
    check_roll_back(LATER_TIMESTAMP_FIELD, MINISIGN_DUE_REMOVE_LEFTOVERS, LATER_TIMESTAMP_FIELD "\n" KEY_HEX "\n" BLAKE2B_OF_ABC);
    for (int n = 0; n < 2; n++) {
        const char *text = n ? LATER_TIMESTAMP_FIELD "\n" KEY_HEX "\n" BLAKE2B_OF_ABC
                             : LATER_TIMESTAMP_FIELD "\n" THIRD_KEY_HEX "\n" BLAKE2B_OF_ABC;

        check_roll_back(text, MINISIGN_DUE_CHECK_RECORD, text);
        /* The update has the recorded version, so it may already be installed. */
        CHECK(BEGIN(&i, .roll_back = 1) == MINISIGN_OK);
        advance_to(&i, MINISIGN_DUE_CHECK_TARGET, text);
        CHECK(minisign_install_answer(&i, n ? YES : NO) == MINISIGN_OK);
        CHECK(minisign_install_due(&i) == (n ? MINISIGN_DUE_SYNC_TARGET : MINISIGN_DUE_REMOVE_LEFTOVERS));
    }
}

/* == Lists == */

/* Checks the error, and the number of the line at fault, for a list, a name and the meaning of 128 digits. `answer` is the result
 * of Ed25519 for the list. */
static void check_list(const char *list, const char *name, uint32_t long_digest, enum minisign_answer answer,
                       enum minisign_error expected_error, uint64_t line)
{
    minisign_installation i;

    passed_list = list;
    listed_name = name;
    CHECK(BEGIN(&i, .is_list = 1, .long_digest = long_digest) == MINISIGN_OK);
    advance_to(&i, MINISIGN_DUE_READ_LIST, "5");
    CHECK(pass_list(&i) == MINISIGN_OK && minisign_install_due(&i) == MINISIGN_DUE_CHECK_LIST);
    CHECK(minisign_install_line(&i) == 0 && minisign_install_error(&i) == MINISIGN_OK);
    check(minisign_install_answer(&i, answer) == expected_error, "%s: error %u, expected %u", list, minisign_install_error(&i),
          expected_error);
    check(minisign_install_line(&i) == line, "%s: line %u", list, (unsigned) minisign_install_line(&i));
    CHECK(minisign_install_error(&i) == expected_error && minisign_install_version(&i) == TIMESTAMP
          && minisign_install_is_signed(&i) == 1);
    CHECK(minisign_install_due(&i) == (expected_error == MINISIGN_OK ? MINISIGN_DUE_REMOVE_LEFTOVERS : MINISIGN_DUE_REJECTED));
    passed_list = LIST_OF_ABC;
    listed_name = "app";
}

static void checks_lists(void)
{
    static const char *const good[] = { LIST_OF_ABC, SHA256_OF_ABC " *app", "# text\n\n" LIST_OF_ABC, SHA256_OF_ABC "  ./app\r\n",
                                        "SHA256 (app) = " SHA256_OF_ABC "\n", "SHA512 (app) = " SHA512_OF_ABC "\n",
                                        "BLAKE2b (app) = " BLAKE2B_OF_ABC "\n", LIST_OF_ABC SHA512_OF_ABC "  other\n",
                                        SHA256_OF_ABC "  other\n" LIST_OF_ABC "\\" SHA256_OF_ABC "  a\\\\b\n",
                                        LIST_OF_ABC SHA256_OF_ABC "  a\n" SHA256_OF_ABC "  a\n" };
    static const char *const unlisted[] = { "", "\n", "# " LIST_OF_ABC, SHA256_OF_ABC "  App\n", SHA256_OF_ABC "  bin/app\n",
                                           "\\" SHA256_OF_ABC "  app\\n\n" };
    static const char *const malformed[] = {
        "text", " " LIST_OF_ABC, SHA256_OF_ABC " app", SHA256_OF_ABC "  /app", SHA256_OF_ABC "  ../app",
        SHA256_OF_ABC "  a\tb", SHA256_OF_ABC "0  app", "MD5 (app) = 900150983cd24fb0d6963f7d28e17f72",
        "SHA256 (app) = " SHA512_OF_ABC,
    };
    static const char *const bad_names[] = { "", "/app", "../app", "a/../b", "a//b", "app/", ".", "a\\b", "a\nb", "a\x7f" };
    char text[512];

    for (size_t n = 0; n < LENGTH(good); n++) {
        check_list(good[n], "app", MINISIGN_HASH_SHA512, YES, MINISIGN_OK, 0);
        check_list(good[n], "./app", MINISIGN_HASH_BLAKE2B, YES, MINISIGN_OK, 0);
        check_list(good[n], "app", MINISIGN_HASH_SHA512, NO, MINISIGN_SIGNATURE_REFUSED, 0);
        check_list(good[n], "none", MINISIGN_HASH_SHA512, YES, MINISIGN_NOT_LISTED, 0);
    }
    for (size_t n = 0; n < LENGTH(unlisted); n++) {
        check_list(unlisted[n], "app", MINISIGN_HASH_SHA512, YES, MINISIGN_NOT_LISTED, 0);
    }
    for (size_t n = 0; n < LENGTH(malformed); n++) {
        snprintf(text, sizeof text, "%s\n" LIST_OF_ABC LIST_OF_ABC, malformed[n]);
        check_list(text, "app", MINISIGN_HASH_SHA512, YES, MINISIGN_MALFORMED_LINE, 1);
        check_list(text, "app", MINISIGN_HASH_SHA512, NO, MINISIGN_SIGNATURE_REFUSED, 0);
        snprintf(text, sizeof text, LIST_OF_ABC "#\n%s", malformed[n]);
        check_list(text, "app", MINISIGN_HASH_SHA512, YES, MINISIGN_MALFORMED_LINE, 3);
        check_list(text, "none", MINISIGN_HASH_SHA512, YES, MINISIGN_MALFORMED_LINE, 3);
    }
    for (size_t n = 0; n < LENGTH(bad_names); n++) {
        check_list(LIST_OF_ABC, bad_names[n], MINISIGN_HASH_SHA512, YES, MINISIGN_BAD_NAME, 0);
        check_list("text", bad_names[n], MINISIGN_HASH_SHA512, YES, MINISIGN_BAD_NAME, 0);
        check_list(LIST_OF_ABC, bad_names[n], MINISIGN_HASH_SHA512, NO, MINISIGN_SIGNATURE_REFUSED, 0);
    }
    check_list(LIST_OF_ABC "#\n" LIST_OF_ABC, "app", MINISIGN_HASH_SHA512, YES, MINISIGN_LISTED_TWICE, 3);
    check_list(LIST_OF_ABC LIST_OF_ABC LIST_OF_ABC, "app", MINISIGN_HASH_SHA512, YES, MINISIGN_LISTED_TWICE, 2);
    check_list(LIST_OF_ABC "SHA512 (app) = " SHA512_OF_ABC, "app", MINISIGN_HASH_SHA512, YES, MINISIGN_LISTED_TWICE, 2);
    check_list(LIST_OF_ABC LIST_OF_ABC, "app", MINISIGN_HASH_SHA512, NO, MINISIGN_SIGNATURE_REFUSED, 0);
    check_list(LIST_OF_ABC LIST_OF_ABC "text", "app", MINISIGN_HASH_SHA512, YES, MINISIGN_MALFORMED_LINE, 3);
    /* With MINISIGN_HASH_NONE, a line with 128 digits is malformed unless it names the hash function. */
    check_list(LIST_OF_ABC SHA512_OF_ABC "  b\n", "app", MINISIGN_HASH_NONE, YES, MINISIGN_MALFORMED_LINE, 2);
    check_list(LIST_OF_ABC "SHA512 (b) = " SHA512_OF_ABC, "app", MINISIGN_HASH_NONE, YES, MINISIGN_OK, 0);
    check_list(LIST_OF_ABC "\xff\n", "app", MINISIGN_HASH_SHA512, YES, MINISIGN_NOT_UTF8, 0);
    check_list(LIST_OF_ABC, "\xff", MINISIGN_HASH_SHA512, YES, MINISIGN_NOT_UTF8, 0);
    check_list("text\n\xff\n", "/", MINISIGN_HASH_SHA512, YES, MINISIGN_NOT_UTF8, 0);
}

/* Passes these bytes in pieces of `size` bytes, and the end of the data. */
static enum minisign_error pass_data(minisign_installation *i, const uint8_t *data, size_t len, size_t size)
{
    enum minisign_error error = MINISIGN_OK;

    for (size_t done = 0; done < len && error == MINISIGN_OK; done += size) {
        error = minisign_install_piece(i, data + done, size < len - done ? size : len - done);
    }
    return error == MINISIGN_OK ? minisign_install_piece(i, NULL, 0) : error;
}

/* Checks that data with the digest in the list is accepted, and that other data is rejected, when it is read back and when it is
 * the installed file. A record without a digest does not match any list. */
static void check_listed_data(const char *list, uint32_t long_digest, const uint8_t *data, size_t len, size_t size, int is_listed)
{
    minisign_installation i;

    passed_list = list;
    for (int n = 0; n < 2; n++) {
        CHECK(BEGIN(&i, .is_list = 1, .long_digest = long_digest) == MINISIGN_OK);
        advance_to(&i, MINISIGN_DUE_READ_BACK, "5");
        CHECK(pass_data(&i, data, len, size) == MINISIGN_OK);
        CHECK(minisign_install_answer(&i, n ? NO : YES) == (n           ? MINISIGN_SIGNATURE_REFUSED
                                                            : is_listed ? MINISIGN_OK
                                                                        : MINISIGN_DIGEST_MISMATCH));
        CHECK(minisign_install_due(&i) == (is_listed && !n ? MINISIGN_DUE_SET_PERMISSIONS : MINISIGN_DUE_REMOVE_FILES));
        CHECK(minisign_install_line(&i) == 0);
        CHECK(BEGIN(&i, .is_list = 1, .long_digest = long_digest) == MINISIGN_OK);
        advance_to(&i, MINISIGN_DUE_READ_TARGET, TIMESTAMP_FIELD);
        CHECK(pass_data(&i, data, len, size) == MINISIGN_OK);
        CHECK(minisign_install_answer(&i, n ? NO : YES) == (is_listed && !n ? MINISIGN_OK : MINISIGN_SAME_NUMBER));
        CHECK(minisign_install_due(&i) == (is_listed && !n ? MINISIGN_DUE_SYNC_TARGET : MINISIGN_DUE_REJECTED));
    }
    passed_list = LIST_OF_ABC;
}

/* The data must have the listed digest, however it is split. The digests are those of 300 bytes. */
static void checks_listed_data(void)
{
    static const struct {
        const char *list;
        uint32_t long_digest;
    } lists[] = {
        { "43f9b5d59eb108817176c6f65c2c6203a22f2ae8bc28b7a1dde45947678c5042  app", MINISIGN_HASH_NONE },
        { "f758e49e6fca32320310aa1b0b2e3abfeab7fc8414ba069022e8b39b7e53628b"
          "e4777edbab93a6780a8318eed48c4665ff55d68dff2e6c84b6270b4eff6df873  app", MINISIGN_HASH_SHA512 },
        { "3A482B7748B0BDC43C3D00C080890C10E57A9AA5618F78B86067EB7EAAE4942A"
          "CD96D827ACCBC16958364AE5B0DF6105BBD3B15445092EBA1137B5F69C1070F1  app", MINISIGN_HASH_BLAKE2B },
        { "BLAKE2b (app) = 3a482b7748b0bdc43c3d00c080890c10e57a9aa5618f78b86067eb7eaae4942a"
          "cd96d827accbc16958364ae5b0df6105bbd3b15445092eba1137b5f69c1070f1", MINISIGN_HASH_SHA512 },
    };
    static const size_t sizes[] = { 1, 55, 56, 63, 64, 65, 111, 112, 127, 128, 129, 299, 300, 1000 };
    uint8_t data[301];

    for (size_t n = 0; n < sizeof data; n++) {
        data[n] = (uint8_t) (n % 251);
    }
    for (size_t n = 0; n < LENGTH(lists); n++) {
        for (size_t size = 0; size < LENGTH(sizes); size++) {
            check_listed_data(lists[n].list, lists[n].long_digest, data, 300, sizes[size], 1);
        }
        check_listed_data(lists[n].list, lists[n].long_digest, data, 299, 64, 0);
        check_listed_data(lists[n].list, lists[n].long_digest, data, 301, 64, 0);
        check_listed_data(lists[n].list, lists[n].long_digest, data, 0, 64, 0);
        for (size_t at_byte = 0; at_byte < 300; at_byte += 43) {
            data[at_byte] ^= 1;
            check_listed_data(lists[n].list, lists[n].long_digest, data, 300, 128, 0);
            data[at_byte] ^= 1;
        }
    }
    /* Lists whose digests are of another hash function than `long_digest` says. */
    check_listed_data(lists[1].list, MINISIGN_HASH_BLAKE2B, data, 300, 300, 0);
    check_listed_data(lists[2].list, MINISIGN_HASH_SHA512, data, 300, 300, 0);
}

/* The installed file is hashed before the new file. Its digest must not be taken for that of the new file. */
static void ignores_digest_of_installed_file(void)
{
    for (uint32_t answer = 0; answer < 2; answer++) {
        minisign_installation i;

        CHECK(BEGIN(&i, .is_list = 1, .again = 1) == MINISIGN_OK);
        advance_to(&i, MINISIGN_DUE_READ_TARGET, TIMESTAMP_FIELD);
        CHECK(pass_piece(&i, answer ? "abc" : "abcd") == MINISIGN_OK && pass_piece(&i, "") == MINISIGN_OK);
        CHECK(minisign_install_answer(&i, answer ? NO : YES) == MINISIGN_OK
              && minisign_install_due(&i) == MINISIGN_DUE_REMOVE_LEFTOVERS);
        advance_to(&i, MINISIGN_DUE_INSTALLED, TIMESTAMP_FIELD);
        CHECK(minisign_install_error(&i) == MINISIGN_OK);
    }
}

/* With a list, the questions for Ed25519 contain the digest of the list. Only the question about the record contains the
 * digest in the record. All questions are for the key that has signed the trusted comment. */
static void asks_about_list(void)
{
    static const uint32_t checks[] = { MINISIGN_DUE_CHECK_LIST, MINISIGN_DUE_CHECK_RECORD, MINISIGN_DUE_CHECK_TARGET,
                                       MINISIGN_DUE_CHECK_DATA };
    static const minisign_install_options options = { .is_list = 1 };
    const minisign_signature signature = signature_of(SIGNATURE);
    const minisign_public_key key = key_of(KEY);
    minisign_public_key same_id_key = key;
    minisign_installation i;

    same_id_key.key[0] ^= 1;
    for (size_t n = 0; n < LENGTH(checks); n++) {
        CHECK(minisign_install_init(&i, &same_id_key, &key, &options) == MINISIGN_OK);
        advance_to(&i, MINISIGN_DUE_CHECK_COMMENT, RECORD_OF_ABC);
        CHECK(minisign_install_answer(&i, NO) == MINISIGN_OK && minisign_install_answer(&i, YES) == MINISIGN_OK);
        CHECK(minisign_install_due(&i) == MINISIGN_DUE_READ_LIST && pass_list(&i) == MINISIGN_OK);
        if (checks[n] == MINISIGN_DUE_CHECK_DATA) {
            advance_to(&i, MINISIGN_DUE_READ_TARGET, "");
            CHECK(minisign_install_no_target(&i) == MINISIGN_OK);
        }
        advance_to(&i, checks[n], "");
        CHECK_AT(checks[n], get_question(&i) == MINISIGN_OK && memcmp(question_key, key.key, sizeof key.key) == 0);
        CHECK_AT(checks[n], memcmp(question_signature, signature.signature, 64) == 0);
        CHECK_AT(checks[n], equals_hex(question_digest, checks[n] == MINISIGN_DUE_CHECK_RECORD ? BLAKE2B_OF_ABC : BLAKE2B_OF_LIST));
    }
}

/* The size in the trusted comment is not that of the data, but it must be a number. */
static void ignores_size_of_list(void)
{
    static const char *const fields[] = { "size:0", "size:1", "size:18446744073709551615" };
    minisign_installation i;
    uint64_t size = 77;

    passed_name = "a";
    for (size_t n = 0; n < LENGTH(fields); n++) {
        char comment[64];

        snprintf(comment, sizeof comment, "file:a\tversion:3\t%s", fields[n]);
        passed_text = signature_with_comment(comment);
        CHECK(BEGIN(&i, .is_list = 1, .numbering = MINISIGN_NUMBERING_VERSION) == MINISIGN_OK);
        advance_to(&i, MINISIGN_DUE_COPY_DATA, "2");
        CHECK(minisign_install_size(&i, &size) == 0 && size == 77);
        CHECK(minisign_install_copied(&i, 3) == MINISIGN_OK && minisign_install_copied(&i, SIZE_MAX) == MINISIGN_OK);
        advance_to(&i, MINISIGN_DUE_INSTALLED, "");
    }
    passed_text = signature_with_comment("file:a\tversion:3\tsize:x");
    CHECK(BEGIN(&i, .is_list = 1, .numbering = MINISIGN_NUMBERING_VERSION) == MINISIGN_OK);
    advance_to(&i, MINISIGN_DUE_CHECK_COMMENT, "2");
    CHECK(answer_comment(&i, YES) == MINISIGN_BAD_SIZE && minisign_install_due(&i) == MINISIGN_DUE_REJECTED);
    passed_text = SIGNATURE;
    passed_name = "test";
}

/* A record that was written for the list, or for other data, decides if a changed file is replaced. */
static void handles_recorded_list(void)
{
    for (uint32_t is_check = 0; is_check < 2; is_check++) {
        minisign_installation i;

        for (int n = 0; n < 2; n++) {
            CHECK(BEGIN(&i, .is_list = 1, .is_check = is_check) == MINISIGN_OK);
            advance_to(&i, MINISIGN_DUE_CHECK_RECORD, RECORD_OF_LIST);
            CHECK(minisign_install_answer(&i, n ? NO : YES) == MINISIGN_OK && pass_piece(&i, "changed") == MINISIGN_OK);
            CHECK(pass_piece(&i, "") == MINISIGN_OK
                  && minisign_install_answer(&i, YES) == (n ? MINISIGN_SAME_NUMBER : MINISIGN_OK));
            CHECK(minisign_install_due(&i) == (n          ? MINISIGN_DUE_REJECTED
                                               : is_check ? MINISIGN_DUE_WOULD_INSTALL
                                                          : MINISIGN_DUE_REMOVE_LEFTOVERS));
        }
        CHECK(BEGIN(&i, .is_list = 1, .is_check = is_check, .roll_back = 1) == MINISIGN_OK);
        advance_to(&i, MINISIGN_DUE_CHECK_RECORD, LATER_TIMESTAMP_FIELD "\n" KEY_HEX "\n" BLAKE2B_OF_ABC);
        CHECK(minisign_install_answer(&i, NO) == MINISIGN_OK);
        if (!is_check) {
            advance_to(&i, MINISIGN_DUE_WRITE_RECORD, "");
            CHECK(minisign_install_record_text(&i, message, sizeof message) == sizeof RECORD_OF_LIST - 1);
            CHECK(memcmp(message, LATER_TIMESTAMP_FIELD "\n" KEY_HEX "\n" BLAKE2B_OF_LIST, sizeof RECORD_OF_LIST - 1) == 0);
        }
    }
}

/* Checks the result of minisign_judge_comment. */
static void check_plain_comment(const char *comment, const char *file, uint32_t numbering, uint64_t recorded,
                          enum minisign_error error, uint64_t expected)
{
    uint64_t number = 77;

    CHECK(minisign_judge_comment(bytes_of(comment), strlen(comment), bytes_of(file), strlen(file), numbering,
                                 NOW, recorded, &number)
          == error);
    CHECK(number == (error == MINISIGN_OK ? expected : 77));
}

static void checks_plain_comments(void)
{
    const uint32_t by_time = MINISIGN_NUMBERING_TIMESTAMP, by_version = MINISIGN_NUMBERING_VERSION;

    check_plain_comment(COMMENT, "test", by_time, 0, MINISIGN_OK, 1556193335);
    check_plain_comment(COMMENT, "test", by_time, 1556193335, MINISIGN_OK, 1556193335);
    check_plain_comment(COMMENT, "test", by_time, 1556193336, MINISIGN_OLDER_UPDATE, 0);
    check_plain_comment(COMMENT, "test", by_version, 0, MINISIGN_NO_NUMBER, 0);
    check_plain_comment(COMMENT, "Test", by_time, 0, MINISIGN_OTHER_FILE, 0);
    check_plain_comment("version:18446744073709551615\tfile:a b", "a b", by_version, UINT64_MAX, MINISIGN_OK, UINT64_MAX);
    check_plain_comment("version:18446744073709551616\tfile:a", "a", by_version, 0, MINISIGN_NO_NUMBER, 0);
    check_plain_comment("file:a\tversion:1\tversion:2\tfile:b", "a", by_version, 0, MINISIGN_OK, 1);
    check_plain_comment("file:a\tversion:1\tversion:2\tfile:b", "b", by_version, 0, MINISIGN_OTHER_FILE, 0);
    check_plain_comment("file:a\tversion:x\tversion:2", "a", by_version, 0, MINISIGN_NO_NUMBER, 0);
    check_plain_comment("file:a\tversion:", "a", by_version, 0, MINISIGN_NO_NUMBER, 0);
    check_plain_comment("file:a\tversion:+5", "a", by_version, 0, MINISIGN_NO_NUMBER, 0);
    check_plain_comment("timestamp:+5\tfile:a", "a", by_time, 0, MINISIGN_NO_NUMBER, 0);
    check_plain_comment("timestamp:-5\tfile:a", "a", by_time, 0, MINISIGN_NO_NUMBER, 0);
    check_plain_comment("timestamp:+\tfile:a", "a", by_time, 0, MINISIGN_NO_NUMBER, 0);
    check_plain_comment("timestamp:005\tfile:a", "a", by_time, 0, MINISIGN_OK, 5);
    check_plain_comment("file:a version:1", "a", by_version, 0, MINISIGN_OTHER_FILE, 0);
    check_plain_comment("", "", by_version, 0, MINISIGN_OTHER_FILE, 0);
    check_plain_comment("file:\tversion:0", "", by_version, 0, MINISIGN_OK, 0);
    check_plain_comment(COMMENT, "test", 2, 0, MINISIGN_BAD_NUMBERING, 0);
    check_plain_comment("\xff", "test", by_time, 0, MINISIGN_NOT_UTF8, 0);
    check_plain_comment(COMMENT, "\xff", by_time, 0, MINISIGN_NOT_UTF8, 0);

    /* The update expires later, has expired, or has an invalid expiry date. */
    check_plain_comment("file:a\tversion:1\texpires:1001", "a", by_version, 0, MINISIGN_OK, 1);
    check_plain_comment("expires:18446744073709551615\tfile:a\tversion:1", "a", by_version, 0, MINISIGN_OK, 1);
    check_plain_comment("file:a\tversion:1\texpires:1000", "a", by_version, 0, MINISIGN_EXPIRED, 0);
    check_plain_comment("file:a\tversion:1\texpires:0", "a", by_version, 0, MINISIGN_EXPIRED, 0);
    check_plain_comment("file:a\tversion:1\texpires:18446744073709551616", "a", by_version, 0, MINISIGN_BAD_EXPIRY, 0);
    check_plain_comment("file:a\tversion:1\texpires:", "a", by_version, 0, MINISIGN_BAD_EXPIRY, 0);
    check_plain_comment("file:a\tversion:1\texpires:+2000", "a", by_version, 0, MINISIGN_BAD_EXPIRY, 0);
    check_plain_comment("file:a\tversion:1\texpires:2000 ", "a", by_version, 0, MINISIGN_BAD_EXPIRY, 0);
    check_plain_comment("file:a\tversion:1\texpires:2000\texpires:2000", "a", by_version, 0, MINISIGN_BAD_EXPIRY, 0);
    check_plain_comment("expires:1\tfile:a\tversion:1\texpires:2000", "a", by_version, 0, MINISIGN_BAD_EXPIRY, 0);
    check_plain_comment("expires:2000\texpires:x\tfile:a\tversion:1", "a", by_version, 0, MINISIGN_BAD_EXPIRY, 0);
    check_plain_comment("file:a\tversion:1\texpire:1\tEXPIRES:1\t expires:1", "a", by_version, 0, MINISIGN_OK, 1);
    check_plain_comment("file:a\tversion:1\tsize:x\tsize:5", "a", by_version, 0, MINISIGN_OK, 1);
    /* The file name and the form of the version number are checked first, and an older version last. */
    check_plain_comment("file:a\tversion:1\texpires:1", "b", by_version, 0, MINISIGN_OTHER_FILE, 0);
    check_plain_comment("file:a\tversion:x\texpires:1", "a", by_version, 0, MINISIGN_NO_NUMBER, 0);
    check_plain_comment("file:a\tversion:1\texpires:1", "a", by_version, 2, MINISIGN_EXPIRED, 0);
    check_plain_comment("file:a\tversion:1\texpires:2000", "a", by_version, 2, MINISIGN_OLDER_UPDATE, 0);
}

/* NULL is allowed if the length is 0. */
static void takes_null_for_no_bytes(void)
{
    minisign_installation i = installation_at(MINISIGN_DUE_READ_RECORD);
    uint64_t number;

    CHECK(minisign_install_record(&i, NULL, 0) == MINISIGN_DAMAGED_RECORD && minisign_install_error(&i) == MINISIGN_DAMAGED_RECORD);
    i = installation_at(MINISIGN_DUE_READ_BACK);
    CHECK(minisign_install_piece(&i, NULL, 0) == MINISIGN_OK && minisign_install_due(&i) == MINISIGN_DUE_CHECK_DATA);
    i = installation_at(MINISIGN_DUE_READ_SIGNATURE);
    CHECK(minisign_install_signature(&i, bytes_of(SIGNATURE), sizeof SIGNATURE - 1, NULL, 0, NOW, NULL, 0, &message_len)
          == MINISIGN_NO_ROOM);
    CHECK(minisign_install_signature(&i, NULL, 0, NULL, 0, NOW, NULL, 0, &message_len) == MINISIGN_MISSING_UNTRUSTED_COMMENT);
    i = installation_at(MINISIGN_DUE_READ_LIST);
    CHECK(minisign_install_list(&i, NULL, 0, NULL, 0) == MINISIGN_OK && minisign_install_answer(&i, YES) == MINISIGN_BAD_NAME);
    i = installation_at(MINISIGN_DUE_READ_LIST);
    CHECK(minisign_install_list(&i, NULL, 0, bytes_of("app"), 3) == MINISIGN_OK
          && minisign_install_answer(&i, YES) == MINISIGN_NOT_LISTED);
    i = installation_at(MINISIGN_DUE_WRITE_RECORD);
    CHECK(minisign_install_record_text(&i, NULL, 0) == 0);
    CHECK(minisign_judge_comment(NULL, 0, NULL, 0, MINISIGN_NUMBERING_TIMESTAMP, NOW, 0, &number) == MINISIGN_OTHER_FILE);
}

int main(void)
{
    for (uses_list = 0; uses_list < 2; uses_list++) {
        makes_each_call_at_each_operation();
        keeps_first_failure();
    }
    uses_list = 0;
    rejects_bad_options();
    reads_records();
    checks_comments();
    rejects_other_data();
    reads_expiry_and_size();
    checks_expiry();
    checks_size_of_data();
    compares_key_of_record();
    asks_about_each_signature();
    selects_key_by_id();
    handles_recorded_version();
    rolls_back();
    checks_lists();
    checks_listed_data();
    ignores_digest_of_installed_file();
    asks_about_list();
    ignores_size_of_list();
    handles_recorded_list();
    checks_plain_comments();
    takes_null_for_no_bytes();
    CHECK(requests == 0 && allocated_blocks == 0);
    return print_summary();
}
