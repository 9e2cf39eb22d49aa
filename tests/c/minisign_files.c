/*
 * Checks parsing and verifying with key and signature files that Minisign wrote, mostly for the data `hello` and a line
 * feed, and the error for each invalid file. The expected bytes were decoded with Python's base64, and the expected
 * digests computed with its hashlib. Parsing and verifying must not allocate memory.
 *
 * Linked with -Wl,--wrap=malloc -Wl,--wrap=realloc -Wl,--wrap=free.
 */
#include "counted_memory.h"
#include "texts_for_tests.h"

static const char HELLO_KEY[] =
    "untrusted comment: minisign public key 21E66B4C8EEFA0B8\n"
    "RWS4oO+OTGvmIXV1rhgpjypAJvWKm8TwdV4j02FufATCsUQLjhDbStyt\n";
/* The prehashed and the legacy signature in this test. */
#define PREHASHED OTHER_KEY_SIGNATURE
static const char LEGACY[] =
    "untrusted comment: signature from minisign secret key\n"
    "RWS4oO+OTGvmIcHetHX599qG6/i09pVioeH0Umw8EEv2i9Ffh4iP+9DymMyoIzgOi2HvHMVwpgy7eZcTmBQ8kBFXYTby9app8AM=\n"
    "trusted comment: legacy one\n"
    "5THDH8juSHXV5TQjSt1AkcCRvqQK5AbqF21J4qfd6REz/VGB7iHXv4MbB0g37vDkk2CGxg1fI5GPQl5Py7C2Cw==\n";

static const char DIGEST[] =
    "f60ce482e5cc1229f39d71313171a8d9f4ca3a87d066bf4b205effb528192a75f14f3271e2c1a90e1de53f275b4d4793"
    "eef2f5e31ea90d2ce29d2e481c36435f";
/* The 32-byte BLAKE2b digests of the texts PREHASHED and LEGACY. */
static const char TEXT_DIGEST[] = "3d5e0455569719fc7b08d2328d4738eb12c3fa4ec4b6a07cf554ac51be495855";
static const char LEGACY_TEXT_DIGEST[] = "add91b152541ffc3ce0fd091e45f1029635c407b50cbf487ff393cddc5284215";
static const char PUBLIC_KEY[] = "7575ae18298f2a4026f58a9bc4f0755e23d3616e7c04c2b1440b8e10db4adcad";
static const char SIGNATURE_BYTES[] =
    "efc015465eb0563f38d8324e047d3f4c255c5043f7c7035fb3daa3458178c481"
    "432c24b3a3dd3b19712076a7149258a64a8eeed06f61f9e6fc35d5426c05610d";
static const char COMMENT_SIGNATURE[] =
    "5455ce9cb5d23f7eb4b453d4b7b7aacec487328d29d5b3d2f5f464a0ed0c3af3"
    "72f241d9bb493da2486490e450c90bfbf43125f8e74d5eead597542df8030401";
static const char KEY_ID[] = "b8a0ef8e4c6be621";
#define HELLO_COMMENT "a trusted comment"

/* The secret and the key ID of SECRET_KEY in texts_for_tests.h. This key has no checksum. */
static const char SECRET[] =
    "f9b70e35e2d0769774b4015e01b61a56ad61f203e22db1e862b23b11f0044e83e57c360f364c01163e9721a9b9611456"
    "b2eff9108a88977e738b0f53a6c938bd";
static const char SECRET_KEY_ID[] = "bbcd807aefe53eab";

/* A key file with the same secret key, and with this key derivation, these limits, this key ID and this checksum. The
 * parameters are parts of the base64 text. They do not begin and end at a byte of the field, so the first and last letter
 * also have bits of the fields next to it, which are zeros or the same in all keys. */
#define KEY_TEXT(derivation, limits, key_id, checksum) \
    "untrusted comment: x\nRW" derivation "IyAAAAAAAAAAAAAAAAAAAAAAAAAAAAAAAAAAAAAAAAAA" limits key_id \
    "5tw414tB2l3S0AV4BthpWrWHyA+ItsehisjsR8AROg+V8Ng82TAEWPpchqblhFFay7/kQioiXfnOLD1OmyTi9A" checksum \
    "AAAAAAAAAAAAAAAAAAAAAAAAAAAAAAAAAAAAAAAAA=\n"
#define NO_LIMITS "AAAAAAAAAAAAAAAAAAAAAA"

/* Secret key files: with the key ID of HELLO_KEY, with a wrong checksum, encrypted, and with an unknown key derivation. */
static const char KEY_OF_SIGNATURE[] = KEY_TEXT("QAAE", NO_LIMITS, "uKDvjkxr5iH", "A");
static const char CORRUPTED_KEY[] = KEY_TEXT("QAAE", NO_LIMITS, "u82Aeu/lPqv", "Q");
static const char SEALED_KEY[] = KEY_TEXT("RTY0", "AAABAAAAAAAAAAAAIAAAAA", "u82Aeu/lPqv", "A");
static const char UNKNOWN_KDF_KEY[] = KEY_TEXT("RYWE", NO_LIMITS, "u82Aeu/lPqv", "A");

static minisign_questions questions;
static minisign_unopened_key unopened;
static minisign_secret_key signing_key;
static uint8_t message[64 + sizeof HELLO_COMMENT - 1];

/* Parses the key and the signature, and calls minisign_ask. Returns the first error. */
static enum minisign_error ask(minisign_state *state, const char *key, const char *text, uint32_t allow_legacy)
{
    minisign_public_key pk;
    minisign_signature signature;
    enum minisign_error error = minisign_read_public_key(bytes_of(key), strlen(key), &pk);

    if (error == MINISIGN_OK) {
        error = minisign_read_signature(bytes_of(text), strlen(text), &signature);
    }
    return error != MINISIGN_OK ? error
                                : minisign_ask(state, &pk, &signature, bytes_of(text), strlen(text), allow_legacy, &questions,
                                               message, sizeof message);
}

/* Parsing fills all fields of a signature. */
static void parses_signatures(void)
{
    static const char truncated[] = "untrusted comment: x\r\n" OTHER_KEY_RECORD "\ntrusted comment: \t \xc3\xa9 t \r\nAAAA";
    minisign_signature prehashed = signature_of(PREHASHED), legacy = signature_of(LEGACY),
                       short_signature = signature_of(truncated);

    CHECK(equals_hex(prehashed.key_id, KEY_ID) && memcmp(prehashed.algorithm, "ED", 2) == 0);
    CHECK(equals_hex(prehashed.signature, SIGNATURE_BYTES) && equals_hex(prehashed.comment_signature, COMMENT_SIGNATURE));
    CHECK(prehashed.legacy == 0 && prehashed.whole == 1 && prehashed.reserved == 0);
    CHECK(prehashed.comment_len == sizeof HELLO_COMMENT - 1
          && PREHASHED + prehashed.comment_offset == strstr(PREHASHED, HELLO_COMMENT));
    CHECK(equals_hex(prehashed.text_digest, TEXT_DIGEST) && prehashed.mark != 0);
    CHECK(equals_hex(legacy.key_id, KEY_ID) && memcmp(legacy.algorithm, "Ed", 2) == 0);
    CHECK(legacy.legacy == 1 && legacy.whole == 1 && legacy.reserved == 0 && legacy.mark == prehashed.mark);
    CHECK(legacy.comment_len == strlen("legacy one") && LEGACY + legacy.comment_offset == strstr(LEGACY, "legacy one"));
    CHECK(equals_hex(legacy.text_digest, LEGACY_TEXT_DIGEST));
    /* White space around a comment is not part of it. A comment signature that is too short can be parsed. */
    CHECK(equals_hex(short_signature.signature, SIGNATURE_BYTES) && is_zeros(short_signature.comment_signature, 64));
    CHECK(short_signature.whole == 0 && short_signature.comment_len == 4
          && truncated + short_signature.comment_offset == strstr(truncated, "\xc3\xa9 t"));
}

/* The questions for Ed25519 contain the fields of the key and of the signature. If both are answered with yes, the verdict is
 * OK. */
static void asks_and_verifies(void)
{
    const minisign_public_key key = key_of(HELLO_KEY);
    const minisign_signature unread = { 0 }, legacy = signature_of(LEGACY);
    minisign_state state;

    minisign_init(&state);
    CHECK(minisign_ask(&state, &key, &unread, NULL, 0, 0, &questions, NULL, 0) == MINISIGN_SIGNATURE_NOT_READ);
    CHECK(minisign_ask(&state, &key, &legacy, NULL, 0, 0, &questions, NULL, 0) == MINISIGN_OTHER_SIGNATURE_TEXT);
    CHECK(ask(&state, HELLO_KEY, PREHASHED, 0) == MINISIGN_OK);
    CHECK(equals_hex(questions.public_key, PUBLIC_KEY) && is_zeros(questions.digest, 64));
    CHECK(equals_hex(questions.signature, SIGNATURE_BYTES) && equals_hex(questions.comment_signature, COMMENT_SIGNATURE));
    CHECK(questions.message_len == sizeof message && questions.legacy == 0 && questions.reserved == 0);
    CHECK(questions.comment_offset == 64 && questions.comment_len == sizeof HELLO_COMMENT - 1);
    CHECK(equals_hex(message, SIGNATURE_BYTES) && memcmp(message + 64, HELLO_COMMENT, sizeof HELLO_COMMENT - 1) == 0);
    CHECK(minisign_comment_verdict(&state, MINISIGN_ANSWER_YES) == MINISIGN_OK);
    CHECK(minisign_update(&state, bytes_of("hel"), 3) == MINISIGN_OK);
    CHECK(minisign_update(&state, bytes_of("lo\n"), 3) == MINISIGN_OK);
    CHECK(minisign_digest(&state, questions.digest) == MINISIGN_OK && equals_hex(questions.digest, DIGEST));
    CHECK(minisign_verdict(&state, MINISIGN_ANSWER_YES, MINISIGN_ANSWER_YES) == MINISIGN_OK);
    minisign_init(&state);
    CHECK(ask(&state, HELLO_KEY, LEGACY, 1) == MINISIGN_OK && questions.legacy == 1);
}

/* Checks the error for each invalid public key file and signature file, and that the state is unchanged. */
static void rejects_signature_texts(void)
{
    static const struct {
        const char *key, *signature;
        enum minisign_error error;
    } rows[] = {
        { HELLO_KEY, LEGACY, MINISIGN_LEGACY_NOT_ACCEPTED },
        { "untrusted comment: x\nRWQBAgMEBQYHCFpaWlpaWlpaWlpaWlpaWlpaWlpaWlpaWlpaWlpaWlpa\n", PREHASHED,
          MINISIGN_DIFFERENT_KEY_IDS },
        { HELLO_KEY, "", MINISIGN_MISSING_UNTRUSTED_COMMENT },
        { HELLO_KEY, "untrusted comment: x\n", MINISIGN_MISSING_SIGNATURE },
        { HELLO_KEY, "untrusted comment: x\nRUS4\n", MINISIGN_MISSING_TRUSTED_COMMENT },
        { HELLO_KEY, "untrusted comment: x\nRUS4\ntrusted comment: y\n", MINISIGN_MISSING_COMMENT_SIGNATURE },
        { HELLO_KEY, "x\nRUS4\ntrusted comment: y\nRUS4\n", MINISIGN_UNTRUSTED_COMMENT_PREFIX },
        { HELLO_KEY, "untrusted comment: x\nRUS!\ntrusted comment: y\nRUS4\n", MINISIGN_SIGNATURE_NOT_BASE64 },
        { HELLO_KEY, "untrusted comment: x\nRUS4\ntrusted comment: y\nRUS4\n", MINISIGN_RECORD_TOO_SHORT },
        /* The text is longer than 74 bytes in base64. Padding is allowed only at its end (RFC 4648, section 4), and so not after
         * the first 74 bytes. */
        { HELLO_KEY,
          "untrusted comment: x\n" OTHER_KEY_RECORD "AAAA\ntrusted comment: a trusted comment\n"
          "VFXOnLXSP360tFPUt7eqzsSHMo0p1bPS9fRkoO0MOvNy8kHZu0k9okhkkORQyQv79DEl+OdNXurVl1Qt+AMEAQ==\n",
          MINISIGN_SIGNATURE_NOT_BASE64 },
    };
    minisign_state begun;

    minisign_init(&begun);
    for (size_t row = 0; row < LENGTH(rows); row++) {
        minisign_state state = begun;

        enum minisign_error error = ask(&state, rows[row].key, rows[row].signature, 0);

        check(error == rows[row].error, "error %u, expected %u: %s", error, rows[row].error, rows[row].signature);
        CHECK(memcmp(&state, &begun, sizeof state) == 0);
    }
}

/* Opening a secret key returns its secret and its key ID, from which the public key can be written. */
static void opens_secret_key(void)
{
    minisign_public_key public_key;

    CHECK(read_and_open(SECRET_KEY, NULL, &unopened, &signing_key) == MINISIGN_OK);
    CHECK(equals_hex(signing_key.secret, SECRET) && equals_hex(signing_key.key_id, SECRET_KEY_ID));
    CHECK(minisign_public_key_of(&signing_key, &public_key) == MINISIGN_OK);
    CHECK(equals_hex(public_key.key, SECRET + 64) && equals_hex(public_key.key_id, SECRET_KEY_ID));
}

/* Checks the error for each invalid secret key file, and that nothing is written. */
static void rejects_secret_keys(void)
{
    static const struct {
        const char *key, *password;
        enum minisign_error error;
    } rows[] = {
        { "", NULL, MINISIGN_MISSING_SECRET_KEY_COMMENT },
        { "untrusted comment: x\n", NULL, MINISIGN_MISSING_SECRET_KEY },
        { "untrusted comment: x\nRW!\n", NULL, MINISIGN_SECRET_KEY_NOT_BASE64 },
        { "untrusted comment: x\nRWQA\n", NULL, MINISIGN_RECORD_TOO_SHORT },
        { SEALED_KEY, NULL, MINISIGN_KEY_SEALED },
        { CORRUPTED_KEY, NULL, MINISIGN_KEY_CORRUPTED },
        { SECRET_KEY, "x", MINISIGN_KEY_NOT_SEALED },
        { UNKNOWN_KDF_KEY, "x", MINISIGN_UNSUPPORTED_KEY_DERIVATION },
        { SEALED_KEY, "\xff", MINISIGN_NOT_UTF8 },
    };
    static const minisign_secret_key unopened_key;

    for (size_t row = 0; row < LENGTH(rows); row++) {
        enum minisign_error error;

        signing_key = unopened_key;
        error = read_and_open(rows[row].key, rows[row].password, &unopened, &signing_key);
        check(error == rows[row].error, "error %u, expected %u: %s", error, rows[row].error, rows[row].key);
        CHECK(memcmp(&signing_key, &unopened_key, sizeof signing_key) == 0);
    }
}

/* Writing the two signatures and comments of one of Minisign's signature files gives the same file. */
static void writes_signature(void)
{
    static const char untrusted[] = "signature from minisign secret key";
    const minisign_signature signature = signature_of(PREHASHED);
    uint8_t text[sizeof PREHASHED];
    size_t len = 0;

    CHECK(read_and_open(KEY_OF_SIGNATURE, NULL, &unopened, &signing_key) == MINISIGN_OK);
    CHECK(make_signature_file(&signing_key, signature.signature, signature.comment_signature, bytes_of(HELLO_COMMENT),
                              sizeof HELLO_COMMENT - 1, bytes_of(untrusted), sizeof untrusted - 1, text, sizeof text, &len)
          == MINISIGN_OK);
    CHECK(len == sizeof PREHASHED - 1 && memcmp(text, PREHASHED, len) == 0);
    CHECK(minisign_comment_message(signature.signature, bytes_of(HELLO_COMMENT), sizeof HELLO_COMMENT - 1, message,
                                   sizeof message) == MINISIGN_OK);
    CHECK(equals_hex(message, SIGNATURE_BYTES) && memcmp(message + 64, HELLO_COMMENT, sizeof HELLO_COMMENT - 1) == 0);
}

/* ---- Public keys ---- */

/* A short name, for the tables below. */
#define LINE KEY_LINE
#define SECOND_LINE "RWQgIL+P9InzHS80IJTTlmrDw4sxOtdRTc3QnmnZMSSaSrd2GcKR5OlJ"
/* The key and the key ID that each line encodes. */
#define FIRST_KEY "79a561e70ee08cd3e754c63e9bd6b9c3520a1d4204cd104da2e7ef763b1853b71fe8b442180f62e7"
#define SECOND_KEY "2f342094d3966ac3c38b313ad7514dcdd09e69d931249a4ab77619c291e4e9492020bf8ff489f31d"

/* A text, and the key to which it is parsed, or the error. */
struct row {
    const char *text;
    const char *key;
    enum minisign_error error;
};

static const struct row key_files[] = {
    { KEY_COMMENT LINE "\n", FIRST_KEY, MINISIGN_OK },
    { KEY_COMMENT LINE, FIRST_KEY, MINISIGN_OK },
    { KEY_COMMENT LINE "\r\n", FIRST_KEY, MINISIGN_OK },
    { "\n" LINE "\nmore\n", FIRST_KEY, MINISIGN_OK },
    { "any comment\n" SECOND_LINE "\n", SECOND_KEY, MINISIGN_OK },
    { "", NULL, MINISIGN_MISSING_PUBLIC_KEY_COMMENT },
    { KEY_COMMENT, NULL, MINISIGN_MISSING_PUBLIC_KEY },
    { LINE "\n", NULL, MINISIGN_MISSING_PUBLIC_KEY },
    { KEY_COMMENT LINE "A\n", NULL, MINISIGN_PUBLIC_KEY_LENGTH },
    { KEY_COMMENT "RWQf6LRC\n", NULL, MINISIGN_PUBLIC_KEY_LENGTH },
    { KEY_COMMENT " " LINE "\n", NULL, MINISIGN_PUBLIC_KEY_LENGTH },
    { KEY_COMMENT "!WQf6LRCGA9i53mlYecO4IzT51TGPpvWucNSCh1CBM0QTaLn73Y7GFO3\n", NULL, MINISIGN_PUBLIC_KEY_NOT_BASE64 },
    { KEY_COMMENT "RWQf6LRCGA9i53mlYecO4IzT51TGPpvWucNSCh1CBM0QTaLn73Y7GFO=\n", NULL, MINISIGN_PUBLIC_KEY_NOT_BASE64 },
    { KEY_COMMENT "RWQf6LRCGA9i53mlYecO4IzT51TGPpvWucNSCh1CBM0QTaLn73Y7GA==\n", NULL, MINISIGN_RECORD_TOO_SHORT },
    { KEY_COMMENT "    RWQf6LRCGA9i53mlYecO4IzT51TGPpvWucNSCh1CBM0QTaLn73Y7\n", NULL, MINISIGN_RECORD_TOO_SHORT },
    { "\xff\n" LINE "\n", NULL, MINISIGN_NOT_UTF8 },
};
static const struct row bare_keys[] = {
    { LINE, FIRST_KEY, MINISIGN_OK },
    { SECOND_LINE, SECOND_KEY, MINISIGN_OK },
    { "", NULL, MINISIGN_BARE_PUBLIC_KEY_LENGTH },
    { KEY_COMMENT LINE, NULL, MINISIGN_BARE_PUBLIC_KEY_LENGTH },
    { LINE "A", NULL, MINISIGN_BARE_PUBLIC_KEY_LENGTH },
    { LINE "\n", NULL, MINISIGN_BARE_PUBLIC_KEY_NOT_BASE64 },
    { " " LINE, NULL, MINISIGN_BARE_PUBLIC_KEY_NOT_BASE64 },
    { "!WQf6LRCGA9i53mlYecO4IzT51TGPpvWucNSCh1CBM0QTaLn73Y7GFO3", NULL, MINISIGN_BARE_PUBLIC_KEY_NOT_BASE64 },
    { "RWQf6LRCGA9i53mlYecO4IzT51TGPpvWucNSCh1CBM0QTaLn73Y7GA==", NULL, MINISIGN_RECORD_TOO_SHORT },
    { "\xff", NULL, MINISIGN_NOT_UTF8 },
};

/* Parses each text of a table, and checks that a rejected text leaves the key unchanged. */
static void check_key_texts(enum minisign_error (*read)(const uint8_t *text, size_t len, minisign_public_key *key),
                            const struct row *rows, size_t count)
{
    for (const struct row *row = rows; row < rows + count; row++) {
        minisign_public_key parsed, untouched;
        enum minisign_error error;

        memset(&parsed, 0xa5, sizeof parsed);
        untouched = parsed;
        error = read(bytes_of(row->text), strlen(row->text), &parsed);
        check(error == row->error, "error %u, expected %u: %s", error, row->error, row->text);
        check(row->key != NULL ? equals_hex((const uint8_t *) &parsed + offsetof(minisign_public_key, key), row->key)
                               : memcmp(&parsed, &untouched, sizeof parsed) == 0,
              "the wrong key: %s", row->text);
    }
}

int main(void)
{
    /* Code that runs before main may have allocated memory. */
    requests = allocated_blocks = 0;
    check_key_texts(minisign_read_public_key, key_files, LENGTH(key_files));
    check_key_texts(minisign_read_bare_public_key, bare_keys, LENGTH(bare_keys));
    parses_signatures();
    asks_and_verifies();
    rejects_signature_texts();
    opens_secret_key();
    rejects_secret_keys();
    CHECK(requests == 0 && allocated_blocks == 0);
    writes_signature();
    return print_summary();
}
