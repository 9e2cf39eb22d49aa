/*
 * Checks the calls for records, which are the bytes that the base64 of a key or signature file encodes:
 *
 *   - reading and writing records of public keys, signatures and secret keys;
 *   - writing the key file of a secret key that was read but not opened. (Opening a key decrypts it if it is encrypted, and
 *     checks it, so that it can sign.);
 *   - verdicts on bare signatures, which have no comments;
 *   - the check of an encrypted ("sealed") key before the password prompt.
 *
 * The expected bytes were decoded with Python's base64, and the checksum was computed with its hashlib. Only the two calls
 * that write key files may allocate memory.
 *
 * Linked with -Wl,--wrap=malloc -Wl,--wrap=realloc -Wl,--wrap=free.
 */
#include "counted_memory.h"
#include "texts_for_tests.h"

/* The records in KEY and SIGNATURE (texts_for_tests.h), in hexadecimal. */
static const char KEY_RECORD[] = "45641fe8b442180f62e779a561e70ee08cd3e754c63e9bd6b9c3520a1d4204cd104da2e7ef763b1853b7";
static const char SIGNATURE_RECORD[] =
    "45441fe8b442180f62e79f6bde0ed5d6a3722430291a2a7c31fa9c69d2204fd0ae855dc43211e83759864e4522745ff3ed2ae54205ddcbca"
    "1f8dbedb3492729433a872b0a8f0a2f3670a";
#define KEY_ID "bbcd807aefe53eab"
#define SECRET \
    "f9b70e35e2d0769774b4015e01b61a56ad61f203e22db1e862b23b11f0044e83" \
    "e57c360f364c01163e9721a9b9611456b2eff9108a88977e738b0f53a6c938bd"
#define ZEROS_48 "000000000000000000000000000000000000000000000000" "000000000000000000000000000000000000000000000000"
#define ZEROS_32 "0000000000000000000000000000000000000000000000000000000000000000"
/* The record in SECRET_KEY, whose checksum is zeros, and the record that is written for this key. */
static const char SECRET_RECORD[] = "456400004232" ZEROS_48 KEY_ID SECRET ZEROS_32;
static const char SECRET_RECORD_WITH_CHECKSUM[] =
    "456400004232" ZEROS_48 KEY_ID SECRET "5f7682046c10fae7efe314fb4d269070588b8aeecd0281eae42aefa359022e3a";

static uint8_t record[MINISIGN_SECRET_KEY_RECORD_BYTES + 1], unchanged[MINISIGN_SECRET_KEY_RECORD_BYTES + 1];
static minisign_questions questions;

/* Fills the buffer for records with bytes that no call writes. */
static void fill_record(void)
{
    memset(record, 0xaa, sizeof record);
    memset(unchanged, 0xaa, sizeof unchanged);
}

static int is_unchanged(void)
{
    return memcmp(record, unchanged, sizeof record) == 0;
}

static minisign_public_key public_key_in(const uint8_t *bytes, size_t len)
{
    minisign_public_key key = { 0 };

    CHECK(minisign_read_public_key_record(bytes, len, &key) == MINISIGN_OK);
    return key;
}

static void reads_and_writes_public_key_records(void)
{
    const minisign_public_key expected = key_of(KEY);
    minisign_public_key key, unread = { 0 };

    fill_record();
    CHECK(minisign_public_key_record(&unread, record) == MINISIGN_PUBLIC_KEY_NOT_READ && is_unchanged());
    CHECK(minisign_public_key_record(&expected, record) == MINISIGN_OK && equals_hex(record, KEY_RECORD));
    CHECK(record[MINISIGN_PUBLIC_KEY_RECORD_BYTES] == 0xaa);
    key = public_key_in(record, MINISIGN_PUBLIC_KEY_RECORD_BYTES);
    CHECK(memcmp(&key, &expected, sizeof key) == 0);
    key = public_key_in(record, MINISIGN_PUBLIC_KEY_RECORD_BYTES + 1);
    CHECK(memcmp(&key, &expected, sizeof key) == 0);
    record[0] = record[1] = 'x'; /* The algorithm is not checked when a record is read; "Ed" is written. */
    key = public_key_in(record, MINISIGN_PUBLIC_KEY_RECORD_BYTES);
    CHECK(memcmp(&key, &expected, sizeof key) == 0);
    for (size_t len = 0; len < MINISIGN_PUBLIC_KEY_RECORD_BYTES; len++) {
        CHECK(minisign_read_public_key_record(len != 0 ? record : NULL, len, &unread) == MINISIGN_RECORD_TOO_SHORT);
    }
    CHECK(is_zeros(&unread, sizeof unread));
}

static void encodes_public_keys(void)
{
    static const char comment[] = "minisign public key E7620F1842B4E81F", not_utf8[] = "\xff", two_lines[] = "a\nb",
                      carriage_return[] = "a\r";
    const minisign_public_key key = key_of(KEY), unread = { 0 };
    uint8_t text[sizeof KEY];
    size_t text_len = 7;
    const struct { const minisign_public_key *key; const char *comment; size_t capacity; enum minisign_error error; } cases[] = {
        { &unread, not_utf8, 0, MINISIGN_PUBLIC_KEY_NOT_READ },
        { &key, not_utf8, 0, MINISIGN_NOT_UTF8 },
        { &key, two_lines, 0, MINISIGN_BAD_COMMENT },
        { &key, carriage_return, 0, MINISIGN_UNREADABLE_COMMENT },
        { &key, comment, sizeof KEY - 2, MINISIGN_NO_ROOM },
    };

    memset(text, 0xaa, sizeof text);
    for (size_t i = 0; i < LENGTH(cases); i++) {
        const enum minisign_error error = minisign_encode_public_key(
            cases[i].key, bytes_of(cases[i].comment), strlen(cases[i].comment), text, cases[i].capacity, &text_len);

        check(error == cases[i].error, "case %zu: error %u, expected %u", i, (unsigned) error, (unsigned) cases[i].error);
        CHECK(text_len == 7 && text[0] == 0xaa && memcmp(text, text + 1, sizeof text - 1) == 0);
    }
    CHECK(minisign_encode_public_key(&key, bytes_of(comment), strlen(comment), text, sizeof KEY - 1, &text_len) == MINISIGN_OK);
    CHECK(text_len == sizeof KEY - 1 && memcmp(text, KEY, sizeof KEY - 1) == 0 && text[sizeof KEY - 1] == 0xaa);
    CHECK(text_len == MINISIGN_PUBLIC_KEY_BYTES(strlen(comment)));
}

/* Reads a signature from the record in a signature file. */
static minisign_signature bare_signature_of(const char *text)
{
    const minisign_signature parsed = signature_of(text);
    minisign_signature bare = { 0 };

    CHECK(minisign_signature_record(&parsed, record) == MINISIGN_OK);
    CHECK(minisign_read_signature_record(record, MINISIGN_SIGNATURE_RECORD_BYTES, &bare) == MINISIGN_OK);
    return bare;
}

static void reads_and_writes_signature_records(void)
{
    const minisign_signature parsed = signature_of(SIGNATURE);
    minisign_signature bare = { 0 }, unread = { 0 };

    fill_record();
    CHECK(minisign_signature_record(&unread, record) == MINISIGN_SIGNATURE_NOT_READ && is_unchanged());
    CHECK(minisign_signature_record(&parsed, record) == MINISIGN_OK && equals_hex(record, SIGNATURE_RECORD));
    CHECK(record[MINISIGN_SIGNATURE_RECORD_BYTES] == 0xaa);
    CHECK(minisign_read_signature_record(record, MINISIGN_SIGNATURE_RECORD_BYTES + 1, &bare) == MINISIGN_OK);
    CHECK(memcmp(bare.key_id, parsed.key_id, 8) == 0 && memcmp(bare.signature, parsed.signature, 64) == 0);
    CHECK(memcmp(bare.algorithm, "ED", 2) == 0 && bare.legacy == 0 && bare.whole == 0 && bare.reserved == 0);
    CHECK(is_zeros(bare.comment_signature, 64) && is_zeros(bare.text_digest, 32) && bare.comment_offset == 0
          && bare.comment_len == 0);
    fill_record();
    CHECK(minisign_signature_record(&bare, record) == MINISIGN_OK && equals_hex(record, SIGNATURE_RECORD));
    record[0] = 'e';
    CHECK(minisign_read_signature_record(record, MINISIGN_SIGNATURE_RECORD_BYTES, &unread) == MINISIGN_UNSUPPORTED_ALGORITHM);
    CHECK(minisign_read_signature_record(record, MINISIGN_SIGNATURE_RECORD_BYTES - 1, &unread) == MINISIGN_RECORD_TOO_SHORT);
    CHECK(minisign_read_signature_record(NULL, 0, &unread) == MINISIGN_RECORD_TOO_SHORT);
    CHECK(is_zeros(&unread, sizeof unread));
    bare = bare_signature_of(LEGACY_SIGNATURE);
    CHECK(bare.legacy == 1 && memcmp(bare.algorithm, "Ed", 2) == 0);
}

/* Calls minisign_ask_bare, and checks that an error leaves the state and the questions unchanged. */
static enum minisign_error ask_bare(minisign_state *state, const minisign_public_key *key, const minisign_signature *signature,
                                    uint32_t allow_legacy)
{
    const minisign_state before = *state;
    minisign_questions questions_before;
    enum minisign_error error;

    memset(&questions, 0xaa, sizeof questions);
    questions_before = questions;
    error = minisign_ask_bare(state, key, signature, allow_legacy, &questions);
    CHECK(error == MINISIGN_OK
          || (memcmp(state, &before, sizeof before) == 0 && memcmp(&questions, &questions_before, sizeof questions) == 0));
    return error;
}

static void rejects_bare_signatures_before_the_check(void)
{
    const minisign_public_key key = key_of(KEY), unread_key = { 0 };
    const minisign_signature signature = bare_signature_of(SIGNATURE), other_key_signature = bare_signature_of(OTHER_KEY_SIGNATURE),
                             legacy = bare_signature_of(LEGACY_SIGNATURE), unread = { 0 };
    minisign_state state = state_with("te"), uninitialized = { 0 };
    minisign_public_key weak_key = key;
    uint8_t message[MESSAGE_LEN], digest[64];

    memset(weak_key.key, 0, sizeof weak_key.key);
    CHECK(ask_bare(&uninitialized, &unread_key, &unread, 2) == MINISIGN_BAD_LEGACY_FLAG);
    CHECK(ask_bare(&uninitialized, &unread_key, &unread, 0) == MINISIGN_NOT_BEGUN);
    CHECK(ask_bare(&state, &unread_key, &unread, 0) == MINISIGN_PUBLIC_KEY_NOT_READ);
    CHECK(ask_bare(&state, &weak_key, &unread, 0) == MINISIGN_SIGNATURE_NOT_READ);
    CHECK(ask_bare(&state, &weak_key, &other_key_signature, 0) == MINISIGN_DIFFERENT_KEY_IDS);
    CHECK(ask_bare(&state, &weak_key, &legacy, 0) == MINISIGN_LEGACY_NOT_ACCEPTED);
    CHECK(ask_bare(&state, &weak_key, &legacy, 1) == MINISIGN_WEAK_ED25519);
    /* A bare signature has no comments, so it cannot be verified like a signature file. */
    CHECK(minisign_ask(&state, &key, &signature, bytes_of(SIGNATURE), strlen(SIGNATURE), 0, &questions, message, sizeof message)
          == MINISIGN_SIGNATURE_NOT_READ);
    CHECK(minisign_digest(&state, digest) == MINISIGN_OK);
    CHECK(ask_bare(&state, &key, &signature, 0) == MINISIGN_ALREADY_ASKED);
}

/* Passes the rest of the data `test`, and gets the digest. */
static void finish_hashing(minisign_state *state)
{
    CHECK(minisign_update(state, bytes_of("st"), 2) == MINISIGN_OK);
    CHECK(minisign_digest(state, questions.digest) == MINISIGN_OK);
}

static void gives_verdict_on_bare_signatures(void)
{
    /* The BLAKE2b digest of `test`, computed with Python's hashlib. */
    static const char digest[] = "a71079d42853dea26e453004338670a53814b78137ffbed07603a41d76a483aa"
                                 "9bc33b582f77d30a65e6f29a896c0411f38312e1d66e0bf16386c86a89bea572";
    const minisign_public_key key = key_of(KEY);
    const minisign_signature parsed = signature_of(SIGNATURE), signatures[] = { bare_signature_of(SIGNATURE), parsed };

    for (size_t i = 0; i < LENGTH(signatures); i++) {
        const uint32_t allow_legacy = i == 0;
        minisign_state state = state_with("te"), before;
        uint8_t message[MESSAGE_LEN];

        CHECK(minisign_bare_verdict(&state, YES) == MINISIGN_NOT_ASKED);
        CHECK(ask_bare(&state, &key, &signatures[i], allow_legacy) == MINISIGN_OK);
        CHECK(memcmp(questions.public_key, key.key, 32) == 0 && memcmp(questions.signature, parsed.signature, 64) == 0);
        CHECK(is_zeros(questions.digest, 64) && is_zeros(questions.comment_signature, 64) && questions.legacy == 0);
        CHECK(questions.message_len == 0 && questions.comment_offset == 0 && questions.comment_len == 0 && questions.reserved == 0);
        CHECK(minisign_bare_verdict(&state, YES) == MINISIGN_NOT_ASKED);
        CHECK(minisign_comment_verdict(&state, YES) == MINISIGN_NOT_ASKED);
        CHECK(minisign_ask(&state, &key, &parsed, bytes_of(SIGNATURE), strlen(SIGNATURE), 0, &questions, message, sizeof message)
              == MINISIGN_ALREADY_ASKED);
        CHECK(minisign_ask_bare(&state, &key, &signatures[i], 0, &questions) == MINISIGN_ALREADY_ASKED);
        finish_hashing(&state);
        CHECK(equals_hex(questions.digest, digest));
        before = state;
        CHECK(minisign_verdict(&state, YES, YES) == MINISIGN_NOT_ASKED);
        CHECK(minisign_bare_verdict(&state, (enum minisign_answer) 1) == MINISIGN_BAD_ANSWER);
        CHECK(memcmp(&state, &before, sizeof state) == 0);
        CHECK(minisign_bare_verdict(&state, i == 0 ? YES : NO) == (i == 0 ? MINISIGN_OK : MINISIGN_SIGNATURE_REFUSED));
        CHECK(minisign_bare_verdict(&state, YES) == MINISIGN_NOT_BEGUN);
    }
}

/* A state can be used for only one way of verifying, so that a caller cannot get a verdict without the comment by mistake. */
static void gives_no_bare_verdict_after_ask(void)
{
    const minisign_public_key key = key_of(KEY);
    const minisign_signature signature = signature_of(SIGNATURE);
    minisign_state state = state_with("te");
    uint8_t message[MESSAGE_LEN];

    CHECK(minisign_ask(&state, &key, &signature, bytes_of(SIGNATURE), strlen(SIGNATURE), 0, &questions, message, sizeof message)
          == MINISIGN_OK);
    CHECK(minisign_ask_bare(&state, &key, &signature, 0, &questions) == MINISIGN_ALREADY_ASKED);
    finish_hashing(&state);
    CHECK(minisign_bare_verdict(&state, YES) == MINISIGN_NOT_ASKED);
    CHECK(minisign_verdict(&state, YES, YES) == MINISIGN_OK);
}

static void reads_and_writes_secret_key_records(void)
{
    minisign_unopened_key expected = { 0 }, unopened = { 0 }, unread = { 0 };
    minisign_secret_key key = { 0 }, opened = { 0 }, empty_key = { 0 };

    CHECK(read_and_open(SECRET_KEY, NULL, &expected, &key) == MINISIGN_OK && equals_hex(expected.bytes, SECRET_RECORD));
    CHECK(minisign_read_secret_key_record(expected.bytes, sizeof expected.bytes, &unopened) == MINISIGN_OK);
    CHECK(memcmp(&unopened, &expected, sizeof unopened) == 0);
    fill_record();
    CHECK(minisign_secret_key_record(&empty_key, record) == MINISIGN_KEY_NOT_OPENED && is_unchanged());
    CHECK(minisign_secret_key_record(&key, record) == MINISIGN_OK && equals_hex(record, SECRET_RECORD_WITH_CHECKSUM));
    CHECK(record[MINISIGN_SECRET_KEY_RECORD_BYTES] == 0xaa);
    CHECK(minisign_read_secret_key_record(record, sizeof record, &unopened) == MINISIGN_OK);
    CHECK(minisign_open_unsealed_key(&unopened, &opened) == MINISIGN_OK && memcmp(&opened, &key, sizeof key) == 0);
    CHECK(minisign_read_secret_key_record(record, MINISIGN_SECRET_KEY_RECORD_BYTES - 1, &unread) == MINISIGN_RECORD_TOO_SHORT);
    CHECK(minisign_read_secret_key_record(NULL, 0, &unread) == MINISIGN_RECORD_TOO_SHORT);
    CHECK(is_zeros(&unread, sizeof unread));
}

/* Writes the file of a key, and checks that an error changes nothing. */
static enum minisign_error encode_key(const minisign_unopened_key *key, const char *comment, uint8_t *text, size_t capacity,
                                      size_t *text_len)
{
    enum minisign_error error;

    *text_len = 7;
    memset(text, 0xaa, sizeof SECRET_KEY);
    error = minisign_encode_unopened_key(key, bytes_of(comment), strlen(comment), text, capacity, text_len);
    CHECK(error == MINISIGN_OK || (*text_len == 7 && text[0] == 0xaa && memcmp(text, text + 1, sizeof SECRET_KEY - 1) == 0));
    return error;
}

static void encodes_unopened_keys(void)
{
    static const char comment[] = "minisign encrypted secret key";
    minisign_unopened_key key = { 0 }, unread = { 0 }, sealed = { 0 }, parsed = { 0 };
    minisign_secret_key opened;
    uint8_t text[sizeof SECRET_KEY];
    size_t text_len;

    CHECK(read_and_open(SECRET_KEY, NULL, &key, &opened) == MINISIGN_OK);
    CHECK(encode_key(&unread, "\xff", text, 0, &text_len) == MINISIGN_KEY_NOT_READ);
    CHECK(encode_key(&key, "\xff", text, 0, &text_len) == MINISIGN_NOT_UTF8);
    CHECK(encode_key(&key, "a\nb", text, 0, &text_len) == MINISIGN_BAD_COMMENT);
    CHECK(encode_key(&key, "a\r", text, 0, &text_len) == MINISIGN_UNREADABLE_COMMENT);
    CHECK(encode_key(&key, comment, text, sizeof SECRET_KEY - 2, &text_len) == MINISIGN_NO_ROOM);
    CHECK(encode_key(&key, comment, text, sizeof SECRET_KEY - 1, &text_len) == MINISIGN_OK);
    CHECK(text_len == sizeof SECRET_KEY - 1 && memcmp(text, SECRET_KEY, text_len) == 0 && text[text_len] == 0xaa);
    /* An encrypted key is written encrypted. */
    memcpy(record, key.bytes, sizeof key.bytes);
    memcpy(record + 2, "Sc", 2);
    CHECK(minisign_read_secret_key_record(record, sizeof key.bytes, &sealed) == MINISIGN_OK && sealed.is_sealed == 1);
    CHECK(encode_key(&sealed, comment, text, sizeof text, &text_len) == MINISIGN_OK);
    CHECK(minisign_read_secret_key(text, text_len, &parsed) == MINISIGN_OK && memcmp(&parsed, &sealed, sizeof parsed) == 0);
}

static void write_little_endian(uint8_t *to, uint64_t number)
{
    for (int i = 0; i < 8; i++) {
        to[i] = (uint8_t) (number >> 8 * i);
    }
}

/* minisign_test_sealed_key needs no password. `most_rows` is the number of rows that scrypt may compute to open the key. */
static void tests_sealed_keys_before_the_password(void)
{
    const struct { const char *derivation; uint64_t operations, memory, most_rows; enum minisign_error error; } cases[] = {
        { "\0\0", 1 << 25, (1 << 30) + 1, 0, MINISIGN_KEY_NOT_SEALED },
        { "Sd", 1 << 25, (1 << 30) + 1, 0, MINISIGN_UNSUPPORTED_KEY_DERIVATION },
        { "Sc", 1 << 25, (1 << 30) + 1, 0, MINISIGN_PARAMETERS_TOO_HIGH },
        { "Sc", (uint64_t) 1 << 44, 1 << 20, 0, MINISIGN_INVALID_PARAMETERS }, /* with these limits, p would be 0 */
        { "Sc", 1 << 25, 1 << 30, MINISIGN_USUAL_ROWS - 1, MINISIGN_WORK_TOO_HIGH },
        { "Sc", 1 << 25, 1 << 30, MINISIGN_USUAL_ROWS, MINISIGN_OK },
        { "Sc", 1 << 25, 1 << 30, MINISIGN_ANY_ROWS, MINISIGN_OK },
    };
    minisign_unopened_key key = { 0 }, unread = { 0 };
    minisign_secret_key opened = { 0 };

    CHECK(minisign_test_sealed_key(&unread, MINISIGN_ANY_ROWS) == MINISIGN_KEY_NOT_READ);
    CHECK(read_and_open(SECRET_KEY, NULL, &key, &opened) == MINISIGN_OK);
    for (size_t i = 0; i < LENGTH(cases); i++) {
        uint8_t bytes[MINISIGN_SECRET_KEY_RECORD_BYTES];
        minisign_unopened_key sealed;
        enum minisign_error error;

        memcpy(bytes, key.bytes, sizeof bytes);
        memcpy(bytes + 2, cases[i].derivation, 2);
        write_little_endian(bytes + 38, cases[i].operations);
        write_little_endian(bytes + 46, cases[i].memory);
        CHECK(minisign_read_secret_key_record(bytes, sizeof bytes, &sealed) == MINISIGN_OK);
        error = minisign_test_sealed_key(&sealed, cases[i].most_rows);
        check(error == cases[i].error, "case %zu: error %u, expected %u", i, (unsigned) error, (unsigned) cases[i].error);
        /* Opening the key returns the same error, because this error does not depend on the password. */
        CHECK(error == MINISIGN_OK
              || minisign_open_sealed_key(&sealed, NULL, 0, 1, cases[i].most_rows, &opened) == cases[i].error);
    }
}

int main(void)
{
    reads_and_writes_public_key_records();
    reads_and_writes_signature_records();
    rejects_bare_signatures_before_the_check();
    gives_verdict_on_bare_signatures();
    gives_no_bare_verdict_after_ask();
    reads_and_writes_secret_key_records();
    tests_sealed_keys_before_the_password();
    CHECK(requests == 0);
    encodes_public_keys();
    encodes_unopened_keys();
    CHECK(requests > 0 && allocated_blocks == 0);
    return print_summary();
}
