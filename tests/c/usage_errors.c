/*
 * Checks API misuse and the limits of calls: a signature that is passed with the text of another one, keys that were not
 * read or opened, buffers that are too small, comments that Minisign could not read, and more work than the caller allows.
 * Each of these must return an error and change nothing; the same calls with valid arguments must succeed.
 * (random_calls.c makes calls in the wrong order.) Also checks that each pointer may be NULL if its length is 0.
 */
#include <minisign_install.h>

#include "texts_for_tests.h"

static minisign_questions questions;
static uint8_t message[1024];

/* Calls minisign_ask for a signature and a text, which may differ from the text from which the signature was read. */
static enum minisign_error ask_with(minisign_state *state, const minisign_signature *signature, const char *sig_text,
                                    size_t sig_text_len, uint32_t allow_legacy, size_t capacity)
{
    const minisign_public_key key = key_of(KEY);

    return minisign_ask(state, &key, signature, bytes_of(sig_text), sig_text_len, allow_legacy, &questions, message, capacity);
}

/* Calls minisign_ask, which must fail, and checks that it leaves the state, the questions and the message unchanged. */
static enum minisign_error ask_expecting_failure(const minisign_signature *signature, const char *sig_text, size_t sig_text_len,
                                       uint32_t allow_legacy, size_t capacity)
{
    minisign_state state = state_with("abc"), before = state;
    uint8_t untouched[sizeof message];
    enum minisign_error error;

    memset(&questions, 0xaa, sizeof questions);
    memset(message, 0xaa, sizeof message);
    memset(untouched, 0xaa, sizeof untouched);
    error = ask_with(&state, signature, sig_text, sig_text_len, allow_legacy, capacity);
    CHECK(memcmp(&state, &before, sizeof state) == 0 && memcmp(&questions, untouched, sizeof questions) == 0);
    CHECK(memcmp(message, untouched, sizeof message) == 0);
    return error;
}

/* The message buffer must be large enough. */
static void rejects_small_message_buffer(void)
{
    const minisign_signature signature = signature_of(SIGNATURE);
    minisign_state state = state_with("abc");

    for (size_t capacity = 0; capacity < MESSAGE_LEN; capacity++) {
        CHECK(ask_expecting_failure(&signature, SIGNATURE, sizeof SIGNATURE - 1, 0, capacity) == MINISIGN_NO_ROOM);
    }
    CHECK(ask_with(&state, &signature, SIGNATURE, sizeof SIGNATURE - 1, 0, MESSAGE_LEN) == MINISIGN_OK);
    CHECK(minisign_digest(&state, questions.digest) == MINISIGN_OK && equals_hex(questions.digest, BLAKE2B_OF_ABC));
}

/* A signature is rejected if the text is not the one from which it was read. */
static void rejects_another_text(void)
{
    static const char longer[] = "untrusted comment: x";
    static char text[sizeof SIGNATURE + 1];
    const size_t len = sizeof SIGNATURE - 1;
    const minisign_signature signature = signature_of(SIGNATURE), legacy = signature_of(LEGACY_SIGNATURE),
                             other_key = signature_of(OTHER_KEY_SIGNATURE);

    memcpy(text, SIGNATURE, sizeof SIGNATURE);
    for (size_t at = 0; at < len; at++) {
        for (int bit = 0; bit < 8; bit += 5) {
            text[at] = (char) (text[at] ^ 1 << bit);
            CHECK(ask_expecting_failure(&signature, text, len, 0, sizeof message) == MINISIGN_OTHER_SIGNATURE_TEXT);
            text[at] = SIGNATURE[at];
        }
    }
    for (size_t shorter = 0; shorter < len; shorter++) {
        CHECK(ask_expecting_failure(&signature, SIGNATURE, shorter, 0, sizeof message) == MINISIGN_OTHER_SIGNATURE_TEXT);
    }
    CHECK(ask_expecting_failure(&signature, SIGNATURE, len + 1, 0, sizeof message) == MINISIGN_OTHER_SIGNATURE_TEXT);
    text[len] = '\n';
    CHECK(ask_expecting_failure(&signature, text, len + 1, 0, sizeof message) == MINISIGN_OTHER_SIGNATURE_TEXT);
    CHECK(ask_expecting_failure(&signature, longer, sizeof longer - 1, 0, sizeof message) == MINISIGN_OTHER_SIGNATURE_TEXT);
    CHECK(ask_expecting_failure(&signature, NULL, 0, 0, sizeof message) == MINISIGN_OTHER_SIGNATURE_TEXT);
    CHECK(ask_expecting_failure(&signature, LEGACY_SIGNATURE, sizeof LEGACY_SIGNATURE - 1, 1, sizeof message)
          == MINISIGN_OTHER_SIGNATURE_TEXT);
    /* This error is reported before those for the key ID, for a legacy signature, and for the buffer. */
    CHECK(ask_expecting_failure(&legacy, SIGNATURE, len, 0, 0) == MINISIGN_OTHER_SIGNATURE_TEXT);
    CHECK(ask_expecting_failure(&other_key, SIGNATURE, len, 0, 0) == MINISIGN_OTHER_SIGNATURE_TEXT);
    CHECK(ask_expecting_failure(&other_key, OTHER_KEY_SIGNATURE, sizeof OTHER_KEY_SIGNATURE - 1, 0, 0)
          == MINISIGN_DIFFERENT_KEY_IDS);
    CHECK(ask_expecting_failure(&legacy, LEGACY_SIGNATURE, sizeof LEGACY_SIGNATURE - 1, 0, 0) == MINISIGN_LEGACY_NOT_ACCEPTED);
    CHECK(ask_expecting_failure(&signature, SIGNATURE, len, 0, MESSAGE_LEN - 1) == MINISIGN_NO_ROOM);
}

/* A signature whose comment lies outside the text is rejected. */
static void rejects_comment_outside_text(void)
{
    static const uint64_t distances[] = { 1, 63, 64, 1 << 20, UINT32_MAX, (uint64_t) INT64_MAX };
    const size_t len = sizeof SIGNATURE - 1;
    const minisign_signature signature = signature_of(SIGNATURE);

    for (size_t i = 0; i < LENGTH(distances); i++) {
        minisign_signature changed = signature;

        changed.comment_offset = len - changed.comment_len + distances[i];
        CHECK(ask_expecting_failure(&changed, SIGNATURE, len, 0, sizeof message) == MINISIGN_OTHER_SIGNATURE_TEXT);
        changed = signature;
        changed.comment_len = len - changed.comment_offset + distances[i];
        CHECK(ask_expecting_failure(&changed, SIGNATURE, len, 0, sizeof message) == MINISIGN_OTHER_SIGNATURE_TEXT);
        changed.comment_offset = UINT64_MAX - distances[i];
        CHECK(ask_expecting_failure(&changed, SIGNATURE, len, 0, sizeof message) == MINISIGN_OTHER_SIGNATURE_TEXT);
    }
}

static minisign_unopened_key unopened;
static minisign_secret_key key;

/* The maximum p of a key, and two values of keep_every, with which few rows and the fewest rows are stored. */
#define MAX_P (IS_EMULATED ? 2 : 32)
#define KEEP_FEW (IS_EMULATED ? 3 : MINISIGN_KEEP_FEW_ROWS)
#define KEEP_FEWEST (IS_EMULATED ? 5 : UINT64_MAX)

/* Memory for opening keys in place. It is enough for all rows of a key with N = 1024 and the maximum p. */
static uint32_t words[256 * (1024 + 3)];
static uint8_t parts[1024 * MAX_P];

static size_t length_of(const char *password)
{
    return password == NULL ? 0 : strlen(password);
}

/* Opens a key in this amount of the memory. The memory is filled before, and must be zeros afterwards. */
static enum minisign_error open_in_place(const minisign_unopened_key *from, const char *password, uint64_t keep_every,
                                         uint64_t max_rows, uint64_t words_len, uint64_t bytes_len, minisign_secret_key *to)
{
    enum minisign_error error;

    memset(words, 0xa5, sizeof words);
    memset(parts, 0xa5, sizeof parts);
    error = minisign_open_sealed_key_in_place(from, bytes_of(password), length_of(password), keep_every, max_rows, words,
                                              (size_t) words_len, parts, (size_t) bytes_len, to);
    CHECK(is_zeros(words, (size_t) words_len * sizeof *words) && is_zeros(parts, (size_t) bytes_len));
    CHECK(words_len == LENGTH(words) || words[words_len] == 0xa5a5a5a5);
    CHECK(bytes_len == sizeof parts || parts[bytes_len] == 0xa5);
    return error;
}

static uint8_t text[16384];
static size_t text_len;

static enum minisign_error make_file(const char *trusted, size_t trusted_len, const char *untrusted,
                                     size_t untrusted_len, size_t capacity)
{
    return make_signature_file(&key, questions.signature, questions.comment_signature, bytes_of(trusted), trusted_len,
                               bytes_of(untrusted), untrusted_len, text, capacity, &text_len);
}

static enum minisign_error make_file_with_comments(const char *trusted, const char *untrusted, size_t capacity)
{
    return make_file(trusted, strlen(trusted), untrusted, strlen(untrusted), capacity);
}

static void rejects_unopened_keys(void)
{
    static const minisign_secret_key zeros;

    CHECK(read_and_open(SECRET_KEY, "abc", &unopened, &key) == MINISIGN_KEY_NOT_SEALED);
    CHECK(open_in_place(&unopened, "\xff", 1, 0, 5, 5, &key) == MINISIGN_NOT_UTF8);
    CHECK(open_in_place(&unopened, "abc", 1, 0, 5, 5, &key) == MINISIGN_KEY_NOT_SEALED);
    CHECK(read_and_open("", NULL, &unopened, &key) == MINISIGN_MISSING_SECRET_KEY_COMMENT);
    CHECK(read_and_open("\xff", NULL, &unopened, &key) == MINISIGN_NOT_UTF8);
    CHECK(read_and_open(SIGNATURE, NULL, &unopened, &key) == MINISIGN_RECORD_TOO_SHORT);
    CHECK(memcmp(&zeros, &key, sizeof zeros) == 0);
    CHECK(make_file_with_comments("t", "u", sizeof text) == MINISIGN_KEY_NOT_OPENED);
    CHECK(read_and_open(SECRET_KEY, NULL, &unopened, &key) == MINISIGN_OK);
    CHECK(make_file_with_comments("t", "u", sizeof text) == MINISIGN_OK);
    memset(text, 0, sizeof text);
    text_len = 0;
}

/* A key that was not read cannot be opened, whatever its bytes are. A key is not read if its text was rejected. */
static void rejects_unread_secret_keys(void)
{
    minisign_unopened_key unread, before;
    minisign_secret_key unopened_key, opened;

    CHECK(minisign_read_secret_key(bytes_of(SECRET_KEY), strlen(SECRET_KEY), &unopened) == MINISIGN_OK);
    CHECK(unopened.is_sealed == 0 && unopened.log2_rows == 0 && unopened.work == 0 && unopened.reserved == 0);
    for (int byte = 0; byte < 256; byte++) {
        memset(&unread, byte, sizeof unread);
        memset(&unopened_key, byte, sizeof unopened_key);
        before = unread;
        opened = unopened_key;
        CHECK(minisign_open_unsealed_key(&unread, &opened) == MINISIGN_KEY_NOT_READ);
        CHECK(minisign_open_sealed_key(&unread, bytes_of("\xff"), 1, 1, 0, &opened) == MINISIGN_KEY_NOT_READ);
        CHECK(open_in_place(&unread, "\xff", 1, 0, 0, 3, &opened) == MINISIGN_KEY_NOT_READ);
        CHECK(memcmp(&opened, &unopened_key, sizeof opened) == 0);
        CHECK(minisign_read_secret_key(bytes_of("\xff"), 1, &unread) == MINISIGN_NOT_UTF8);
        CHECK(minisign_read_secret_key(bytes_of(SIGNATURE), strlen(SIGNATURE), &unread) == MINISIGN_RECORD_TOO_SHORT);
        CHECK(memcmp(&unread, &before, sizeof unread) == 0);
    }
    /* A key with one changed bit in the field `mark` cannot be opened either. */
    for (int bit = 0; bit < 64; bit++) {
        unread = unopened;
        unread.mark ^= UINT64_C(1) << bit;
        CHECK(minisign_open_unsealed_key(&unread, &opened) == MINISIGN_KEY_NOT_READ);
    }
}

/* A key that was made from a key ID and a secret is equal to the key that is opened from its key file. */
static void makes_secret_key(void)
{
    static const minisign_sealing zeros;
    minisign_secret_key made, opened;
    minisign_public_key public_key;

    memset(&made, 0xaa, sizeof made);
    make_secret_key(key.key_id, key.secret, &made);
    CHECK(memcmp(&made, &key, sizeof key) == 0);
    CHECK(minisign_public_key_of(&made, &public_key) == MINISIGN_OK);
    CHECK(memcmp(public_key.key, key.secret + 32, 32) == 0 && memcmp(public_key.key_id, key.key_id, 8) == 0);
    CHECK(minisign_secret_key_text(&made, 0, NULL, 0, &zeros, 1, NULL, 0, text, sizeof text, &text_len) == MINISIGN_OK);
    CHECK(read_and_open((const char *) text, NULL, &unopened, &opened) == MINISIGN_OK);
    CHECK(memcmp(&opened, &key, sizeof key) == 0);
    memset(text, 0, sizeof text);
    text_len = 0;
}

/* A secret key of zeros. */
static minisign_secret_key zero_key;

/* Writes the file of the key of zeros. If there is a password, the key is encrypted with N = 1024 and p = 4. */
static enum minisign_error make_key_file(uint32_t with_password, uint64_t memory_limit, const char *comment, size_t capacity)
{
    const minisign_sealing sealing = { .operations_limit = 4 * 32768, .memory_limit = memory_limit };

    return minisign_secret_key_text_with_any_limits(&zero_key, with_password, bytes_of("abc"), 3, &sealing,
                                                    MINISIGN_KEEP_FEW_ROWS, bytes_of(comment), strlen(comment), text, capacity,
                                                    &text_len);
}

/* Opens the encrypted key. If words_len is not 0, it is opened in place, in this number of words and bytes. Checks the error,
 * and that the result is the key of zeros or, after an error, unchanged. */
static void check_opening(const char *password, uint64_t keep_every, uint64_t max_rows, uint64_t words_len, uint64_t bytes_len,
                  enum minisign_error expected)
{
    minisign_secret_key opened, before;

    memset(&before, 0xaa, sizeof before);
    opened = before;
    CHECK((words_len != 0 ? open_in_place(&unopened, password, keep_every, max_rows, words_len, bytes_len, &opened)
                          : minisign_open_sealed_key(&unopened, bytes_of(password), length_of(password), keep_every,
                                                     max_rows, &opened)) == expected);
    CHECK(memcmp(&opened, expected == MINISIGN_OK ? &zero_key : &before, sizeof opened) == 0);
}

/* Checks written key files, their comments, and the limits with which they are opened. */
static void writes_and_opens_keys(void)
{
    static char long_comment[1005];
    static const struct {
        const char *comment;
        enum minisign_error error;
    } rejected[] = { { "\n\xff", MINISIGN_NOT_UTF8 }, { "\n\r", MINISIGN_BAD_COMMENT }, { "a\nb", MINISIGN_BAD_COMMENT },
                     { "\r", MINISIGN_UNREADABLE_COMMENT }, { "a\rb", MINISIGN_UNREADABLE_COMMENT },
                     { long_comment, MINISIGN_UNREADABLE_COMMENT } };
    static const uint64_t small = 1 << 20;
    static const minisign_sealing zeros;
    const size_t capacity = MINISIGN_SECRET_KEY_BYTES(1);
    minisign_secret_key opened = { 0 };

    memset(text, 0, sizeof text);
    text_len = 0;
    memset(long_comment, 'c', sizeof long_comment - 1);
    CHECK(make_key_file(3, UINT64_MAX, "\xff", 0) == MINISIGN_BAD_PASSWORD_FLAG);
    CHECK(make_key_file(UINT32_MAX, small, "c", capacity) == MINISIGN_BAD_PASSWORD_FLAG);
    for (size_t i = 0; i < LENGTH(rejected); i++) {
        const uint8_t *comment = bytes_of(rejected[i].comment);

        CHECK(make_key_file(1, UINT64_MAX, rejected[i].comment, 0) == rejected[i].error);
        CHECK(minisign_public_key_text(&zero_key, comment, strlen(rejected[i].comment), text, 0, &text_len) == rejected[i].error);
    }
    CHECK(minisign_secret_key_text_with_any_limits(&zero_key, 1, bytes_of("\xff"), 1, &zeros, 1, bytes_of("\n"), 1, text, 0,
                                                   &text_len)
          == MINISIGN_NOT_UTF8);
    CHECK(minisign_secret_key_text(&zero_key, 0, NULL, 0, &zeros, 1, bytes_of("\0"), 1, text, sizeof text, &text_len)
          == MINISIGN_UNREADABLE_COMMENT);
    CHECK(minisign_public_key_text(&zero_key, bytes_of("\0"), 1, text, sizeof text, &text_len)
          == MINISIGN_UNREADABLE_COMMENT);
    CHECK(make_key_file(1, UINT64_MAX, "c", capacity - 1) == MINISIGN_NO_ROOM);
    CHECK(make_key_file(1, UINT64_MAX, "c", capacity) == MINISIGN_PARAMETERS_TOO_HIGH);
    CHECK(make_key_file(1, MINISIGN_MEMORY_LIMIT + 1, "c", capacity) == MINISIGN_PARAMETERS_TOO_HIGH);
    CHECK(seal(&zero_key, "abc", 1 << 20, 1 << 29, text, capacity, &text_len) == MINISIGN_INVALID_PARAMETERS);
    CHECK(minisign_public_key_text(&zero_key, bytes_of("c"), 1, text, 77, &text_len) == MINISIGN_NO_ROOM);
    CHECK(text_len == 0 && is_zeros(text, sizeof text));
    CHECK(minisign_public_key_text(&zero_key, bytes_of("c"), 1, text, 78, &text_len) == MINISIGN_OK);
    CHECK(text_len == MINISIGN_PUBLIC_KEY_BYTES(1));
    CHECK(make_key_file(0, UINT64_MAX, "c", capacity) == MINISIGN_OK && text_len == capacity);
    CHECK(make_key_file(1, small, "c", capacity) == MINISIGN_OK && text_len == capacity);
    CHECK(minisign_read_secret_key(text, text_len, &unopened) == MINISIGN_OK);
    CHECK(unopened.is_sealed == 1 && unopened.log2_rows == 10 && unopened.work == 4 && unopened.reserved == 0);
    CHECK(minisign_open_unsealed_key(&unopened, &opened) == MINISIGN_KEY_SEALED && is_zeros(&opened, sizeof opened));
    check_opening("\xff", 0, 0, 0, 0, MINISIGN_NOT_UTF8);
    check_opening("abc", 0, 4 * 1024 - 1, 0, 0, MINISIGN_WORK_TOO_HIGH);
    check_opening("ab", 1, 4 * 1024, 0, 0, MINISIGN_WRONG_PASSWORD);
    check_opening("ab", KEEP_FEW, MINISIGN_ANY_ROWS, 0, 0, MINISIGN_WRONG_PASSWORD);
    unopened.is_sealed = unopened.log2_rows = 0;
    unopened.work = 1;
    check_opening("abc", KEEP_FEWEST, 4 * 1024, 0, 0, MINISIGN_OK);
}

/* Checks the limit on rows, and the memory and the errors of opening in place. A row takes 1 KiB. */
static void limits_rows(uint64_t p)
{
    static const uint64_t keep_every[] = { KEEP_FEW, 0, 1, KEEP_FEWEST };
    const uint64_t rows = 1024 * p;

    CHECK(seal(&zero_key, "abc", 1 << 20, p, text, sizeof text, &text_len) == MINISIGN_OK);
    CHECK(minisign_read_secret_key(text, text_len, &unopened) == MINISIGN_OK && unopened.work == p);
    check_opening("abc", 1, rows - 1, 0, 0, MINISIGN_WORK_TOO_HIGH);
    check_opening("abc", 1, 0, 0, 0, MINISIGN_WORK_TOO_HIGH);
    check_opening("abc", 1, rows, 0, 0, MINISIGN_OK);
    check_opening("abc", KEEP_FEW, MINISIGN_USUAL_ROWS, 0, 0, MINISIGN_OK);
    check_opening("abc", KEEP_FEW, MINISIGN_ANY_ROWS, 0, 0, MINISIGN_OK);
    /* With a large p, storing few rows takes too long. */
    for (size_t i = 0; i < (p == 1 ? LENGTH(keep_every) : 1); i++) {
        const uint64_t interval = keep_every[i] > 1 ? keep_every[i] : 1, stored_rows = 1024 / interval + (1024 % interval != 0);
        uint64_t words_len = 5, bytes_len = 6;

        /* A key that needs too many rows is rejected without memory, so none is required. */
        minisign_opening_memory(&unopened, keep_every[i], rows - 1, &words_len, &bytes_len);
        CHECK(words_len == 0 && bytes_len == 0);
        check_opening("abc", keep_every[i], rows - 1, 1, 0, MINISIGN_WORK_TOO_HIGH);
        minisign_opening_memory(&unopened, keep_every[i], rows, &words_len, &bytes_len);
        CHECK(256 * stored_rows <= words_len && words_len <= 256 * (stored_rows + 3) && bytes_len == 1024 * p);
        check_opening("abc", keep_every[i], rows, words_len - 1, bytes_len, MINISIGN_NO_ROOM);
        check_opening("\xff", keep_every[i], rows, words_len, bytes_len - 1, MINISIGN_NO_ROOM);
        check_opening("\xff", keep_every[i], 0, words_len, bytes_len, MINISIGN_NOT_UTF8);
        check_opening("abc", keep_every[i], rows - 1, words_len, bytes_len, MINISIGN_WORK_TOO_HIGH);
        check_opening("ab", keep_every[i], rows, words_len, bytes_len, MINISIGN_WRONG_PASSWORD);
        check_opening("abc", keep_every[i], rows, words_len, bytes_len, MINISIGN_OK);
    }
    check_opening("abc", 1, MINISIGN_USUAL_ROWS, LENGTH(words), sizeof parts, MINISIGN_OK);
}

/* An unencrypted key needs no memory. */
static void needs_no_memory_without_password(void)
{
    uint64_t words_len = 5, bytes_len = 6;

    CHECK(minisign_read_secret_key(bytes_of(SECRET_KEY), strlen(SECRET_KEY), &unopened) == MINISIGN_OK);
    minisign_opening_memory(&unopened, 1, MINISIGN_ANY_ROWS, &words_len, &bytes_len);
    CHECK(words_len == 0 && bytes_len == 0);
}

/* Writing the signatures of a signature file gives the same file, with the key ID of the secret key, if the buffer is
 * large enough. (The expected second line was encoded with Python.) No file is written that minisign -V could not read. */
static void writes_signatures(void)
{
    static const char untrusted[] = "signature from minisign secret key";
    static const char expected[] =
        SIGNATURE_COMMENT "RUS7zYB67+U+q59r3g7V1qNyJDApGip8MfqcadIgT9CuhV3EMhHoN1mGTkUidF/z7SrlQgXdy8ofjb7bNJJylDOocrCo8KLzZwo="
        "\ntrusted comment: " COMMENT "\n" COMMENT_RECORD "\n";
    static const struct {
        const char *trusted, *untrusted;
        enum minisign_error error;
    } rejected[] = {
        { "t\n", "u", MINISIGN_BAD_COMMENT }, { "t ", "u", MINISIGN_BAD_COMMENT }, { "\tt", "u", MINISIGN_BAD_COMMENT },
        { "t", "u\r", MINISIGN_BAD_COMMENT }, { "t", "\n", MINISIGN_BAD_COMMENT }, { "\xff", "u\r", MINISIGN_NOT_UTF8 },
        { "t\n", "\xff", MINISIGN_NOT_UTF8 }, { "a\rb", "u", MINISIGN_UNREADABLE_COMMENT },
        { "t", "a\rb", MINISIGN_UNREADABLE_COMMENT }, { "t", "\ru", MINISIGN_UNREADABLE_COMMENT },
    };
    static char letters[10000];
    const minisign_signature signature = signature_of(SIGNATURE);
    minisign_secret_key before = key;
    minisign_state state = state_with("abc");

    CHECK(ask_with(&state, &signature, SIGNATURE, sizeof SIGNATURE - 1, 0, sizeof message) == MINISIGN_OK);
    for (size_t capacity = 0; capacity < sizeof SIGNATURE; capacity++) {
        CHECK(make_file_with_comments(COMMENT, untrusted, capacity) == MINISIGN_NO_ROOM);
    }
    for (size_t i = 0; i < LENGTH(rejected); i++) {
        CHECK(make_file_with_comments(rejected[i].trusted, rejected[i].untrusted, 0) == rejected[i].error);
    }
    memset(letters, 'a', sizeof letters);
    CHECK(make_file("t", 1, letters, 1004, sizeof text) == MINISIGN_UNREADABLE_COMMENT);
    CHECK(make_file("t", 1, letters, 10000, 0) == MINISIGN_UNREADABLE_COMMENT);
    CHECK(make_file(letters, 8174, "u", 1, sizeof text) == MINISIGN_UNREADABLE_COMMENT);
    CHECK(make_file("a\0b", 3, "u", 1, sizeof text) == MINISIGN_UNREADABLE_COMMENT);
    CHECK(make_file("t", 1, "a\0b", 3, sizeof text) == MINISIGN_UNREADABLE_COMMENT);
    CHECK(make_file("t", 1, "\0", 1, sizeof text) == MINISIGN_UNREADABLE_COMMENT);
    CHECK(text_len == 0 && is_zeros(text, sizeof text));
    CHECK(make_file("t", 1, letters, 1003, sizeof text) == MINISIGN_OK);
    CHECK(make_file(letters, 8173, "u", 1, sizeof text) == MINISIGN_OK);
    CHECK(make_file_with_comments(COMMENT, untrusted, sizeof SIGNATURE) == MINISIGN_OK);
    CHECK(text_len == sizeof SIGNATURE && memcmp(text, expected, text_len) == 0);
    CHECK(memcmp(&before, &key, sizeof before) == 0);
    for (size_t capacity = 0; capacity <= MESSAGE_LEN; capacity++) {
        CHECK(minisign_comment_message(questions.signature, bytes_of(COMMENT), sizeof COMMENT - 1, text, capacity)
              == (capacity < MESSAGE_LEN ? MINISIGN_NO_ROOM : MINISIGN_OK));
    }
    CHECK(memcmp(text, message, MESSAGE_LEN) == 0);
}

/* In calls that verify, NULL is allowed if the length is 0. */
static void verifies_with_null(void)
{
    minisign_state empty = state_with(""), begun = state_with("abc"), state, uninitialized;
    minisign_public_key public_key = key_of(KEY);
    minisign_signature zeros = { 0 }, signature = signature_of(SIGNATURE);

    minisign_init(&state);
    CHECK(minisign_update(&state, NULL, 0) == MINISIGN_OK && memcmp(&state, &empty, sizeof state) == 0);
    CHECK(minisign_update(&state, bytes_of("abc"), 3) == MINISIGN_OK);
    CHECK(minisign_update(&state, NULL, 0) == MINISIGN_OK && memcmp(&state, &begun, sizeof state) == 0);
    memset(&uninitialized, 0, sizeof uninitialized);
    CHECK(minisign_update(&uninitialized, NULL, 0) == MINISIGN_NOT_BEGUN);
    CHECK(minisign_read_public_key(NULL, 0, &public_key) == MINISIGN_MISSING_PUBLIC_KEY_COMMENT);
    CHECK(minisign_read_bare_public_key(NULL, 0, &public_key) == MINISIGN_BARE_PUBLIC_KEY_LENGTH);
    CHECK(minisign_read_signature(NULL, 0, &zeros) == MINISIGN_MISSING_UNTRUSTED_COMMENT);
    CHECK(minisign_ask(&empty, &public_key, &zeros, NULL, 0, 0, &questions, NULL, 0) == MINISIGN_SIGNATURE_NOT_READ);
    CHECK(minisign_ask(&empty, &public_key, &signature, NULL, 0, 0, &questions, NULL, 0) == MINISIGN_OTHER_SIGNATURE_TEXT);
    CHECK(minisign_ask(&empty, &public_key, &signature, bytes_of(SIGNATURE), sizeof SIGNATURE - 1, 0, &questions, NULL, 0)
          == MINISIGN_NO_ROOM);
    CHECK(minisign_error_text(MINISIGN_OK, NULL, 0) == strlen("no error"));
}

/* In calls that read, open and sign with keys, NULL is allowed if the length is 0, also for an empty password if the caller
 * allows one. */
static void signs_with_null(void)
{
    static const uint8_t first[64], second[64];
    static uint8_t empty[1024];
    static const minisign_sealing zeros, small = { .operations_limit = 32768, .memory_limit = 1 << 20 };
    size_t empty_len = 0;

    CHECK(minisign_read_secret_key(NULL, 0, &unopened) == MINISIGN_MISSING_SECRET_KEY_COMMENT);
    CHECK(read_and_open(SECRET_KEY, NULL, &unopened, &key) == MINISIGN_OK);
    CHECK(minisign_open_sealed_key(&unopened, NULL, 0, 1, 1, &key) == MINISIGN_KEY_NOT_SEALED);
    CHECK(minisign_open_sealed_key_in_place(&unopened, NULL, 0, 1, 1, NULL, 0, NULL, 0, &key) == MINISIGN_KEY_NOT_SEALED);
    CHECK(minisign_public_key_text(&key, NULL, 0, NULL, 0, &text_len) == MINISIGN_NO_ROOM);
    CHECK(minisign_secret_key_text(&key, 0, NULL, 0, &zeros, 1, NULL, 0, NULL, 0, &text_len) == MINISIGN_NO_ROOM);
    CHECK(minisign_comment_message(first, NULL, 0, message, sizeof message) == MINISIGN_OK);
    CHECK(minisign_comment_message(first, NULL, 0, NULL, 0) == MINISIGN_NO_ROOM);
    CHECK(make_signature_file(&key, first, second, NULL, 0, NULL, 0, NULL, 0, &text_len) == MINISIGN_NO_ROOM);
    CHECK(make_signature_file(&key, first, second, NULL, 0, NULL, 0, text, sizeof text, &text_len) == MINISIGN_OK);
    CHECK(make_signature_file(&key, first, second, bytes_of(""), 0, bytes_of(""), 0, empty, sizeof empty, &empty_len)
          == MINISIGN_OK);
    CHECK(text_len == empty_len && text_len <= MINISIGN_TEXT_BYTES(0, 0) && memcmp(text, empty, text_len) == 0);
    CHECK(minisign_secret_key_text_with_any_limits(&zero_key, MINISIGN_ANY_PASSWORD, NULL, 0, &small, 16, NULL, 0,
                                                   text, sizeof text, &text_len)
          == MINISIGN_OK);
    CHECK(minisign_read_secret_key(text, text_len, &unopened) == MINISIGN_OK);
    check_opening(NULL, 16, MINISIGN_USUAL_ROWS, 0, 0, MINISIGN_OK);
    check_opening(NULL, 16, MINISIGN_USUAL_ROWS, LENGTH(words), sizeof parts, MINISIGN_OK);
    CHECK(minisign_open_sealed_key_in_place(&unopened, NULL, 0, 16, MINISIGN_USUAL_ROWS, NULL, 0, NULL, 0, &key)
          == MINISIGN_NO_ROOM);
}

/* Encrypts the key of zeros with the call that rejects weak encryption. */
static enum minisign_error seal_with_minimum(uint32_t with_password, const char *password, const minisign_sealing *sealing)
{
    return minisign_secret_key_text(&zero_key, with_password, bytes_of(password), strlen(password), sealing, MINISIGN_KEEP_FEW_ROWS,
                                    bytes_of("c"), 1, text, sizeof text, &text_len);
}

/* A salt of zeros, limits below the minimum, and an empty password are errors unless the caller allows them. */
static void rejects_weak_sealings(void)
{
    static const uint8_t salt[32] = { [31] = 1 };
    const minisign_sealing usual = minisign_usual_sealing(salt);
    minisign_sealing minimum = usual, weak;
    minisign_secret_key uninitialized = { 0 };

    memset(text, 0, sizeof text);
    text_len = 0;
    CHECK(memcmp(usual.salt, salt, sizeof salt) == 0 && usual.operations_limit == 33554432 && usual.memory_limit == 1073741824);
    minimum.operations_limit = MINISIGN_LEAST_OPERATIONS_LIMIT;
    minimum.memory_limit = MINISIGN_LEAST_MEMORY_LIMIT;
    weak = minimum;
    weak.salt[31] = 0;
    CHECK(seal_with_minimum(MINISIGN_PASSWORD, "abc", &weak) == MINISIGN_WEAK_SEALING);
    weak = minimum;
    weak.operations_limit--;
    CHECK(seal_with_minimum(MINISIGN_PASSWORD, "abc", &weak) == MINISIGN_WEAK_SEALING);
    CHECK(seal_with_minimum(MINISIGN_ANY_PASSWORD, "abc", &weak) == MINISIGN_WEAK_SEALING);
    weak = minimum;
    weak.memory_limit--;
    CHECK(seal_with_minimum(MINISIGN_PASSWORD, "abc", &weak) == MINISIGN_WEAK_SEALING);
    CHECK(seal_with_minimum(MINISIGN_PASSWORD, "", &weak) == MINISIGN_EMPTY_PASSWORD);
    CHECK(seal_with_minimum(3, "", &weak) == MINISIGN_BAD_PASSWORD_FLAG);
    CHECK(
        minisign_secret_key_text_with_any_limits(&uninitialized, MINISIGN_PASSWORD, NULL, 0, &weak, 16, NULL, 0, text, 0, &text_len)
        == MINISIGN_EMPTY_PASSWORD);
    CHECK(minisign_secret_key_text(&uninitialized, MINISIGN_PASSWORD, bytes_of("a"), 1, &weak, 16, NULL, 0, text, 0, &text_len)
          == MINISIGN_WEAK_SEALING);
    CHECK(text_len == 0 && is_zeros(text, sizeof text));
    CHECK(seal_with_minimum(MINISIGN_NO_PASSWORD, "", &weak) == MINISIGN_OK);
    if (!IS_EMULATED) {
        CHECK(seal_with_minimum(MINISIGN_PASSWORD, "abc", &minimum) == MINISIGN_OK);
        CHECK(minisign_read_secret_key(text, text_len, &unopened) == MINISIGN_OK);
        CHECK(unopened.log2_rows == MINISIGN_LEAST_LOG2_ROWS);
        check_opening("abc", 1, MINISIGN_USUAL_ROWS, 0, 0, MINISIGN_OK);
    }
}

/* Each call rejects a public key that was not read. This error is reported after errors of the state, and before errors of
 * the signature and the comments. */
static void rejects_unread_public_keys(void)
{
    static const minisign_install_options options;
    static const minisign_signature zeros;
    const minisign_public_key good = key_of(KEY);
    const minisign_signature signature = signature_of(SIGNATURE);
    minisign_signed_parts signed_parts = { .trusted_comment = bytes_of("\n"), .trusted_comment_len = 1 };
    minisign_state begun = state_with("abc"), before = begun, uninitialized = { 0 };
    minisign_installation installation, untouched;

    memset(text, 0, sizeof text);
    text_len = 0;
    memset(&untouched, 0xaa, sizeof untouched);
    installation = untouched;
    for (int bit = -1; bit < 64; bit++) {
        minisign_public_key bad = good;

        if (bit < 0) {
            minisign_clear(&bad, sizeof bad);
            CHECK(is_zeros(&bad, sizeof bad));
        } else {
            bad.mark ^= UINT64_C(1) << bit;
        }
        CHECK(minisign_ask(&uninitialized, &bad, &zeros, NULL, 0, 0, &questions, NULL, 0) == MINISIGN_NOT_BEGUN);
        CHECK(minisign_ask(&begun, &bad, &zeros, NULL, 0, 0, &questions, NULL, 0) == MINISIGN_PUBLIC_KEY_NOT_READ);
        CHECK(minisign_ask(&begun, &bad, &signature, bytes_of(SIGNATURE), sizeof SIGNATURE - 1, 0, &questions, message,
                           sizeof message)
              == MINISIGN_PUBLIC_KEY_NOT_READ);
        CHECK(minisign_signed_text(&bad, &signed_parts, text, sizeof text, &text_len) == MINISIGN_PUBLIC_KEY_NOT_READ);
        CHECK(minisign_install_init(&installation, &bad, &good, &options) == MINISIGN_PUBLIC_KEY_NOT_READ);
        CHECK(minisign_install_init(&installation, &good, &bad, &options) == MINISIGN_PUBLIC_KEY_NOT_READ);
        CHECK(memcmp(&begun, &before, sizeof begun) == 0 && memcmp(&installation, &untouched, sizeof installation) == 0);
        CHECK(text_len == 0 && is_zeros(text, sizeof text));
    }
    CHECK(minisign_ask(&begun, &good, &zeros, NULL, 0, 0, &questions, NULL, 0) == MINISIGN_SIGNATURE_NOT_READ);
    CHECK(minisign_signed_text(&good, &signed_parts, text, sizeof text, &text_len) == MINISIGN_BAD_COMMENT);
    CHECK(minisign_install_init(&installation, &good, &good, &options) == MINISIGN_OK);
}

/* Checks values that bindings for other languages repeat. */
static void keeps_constants(void)
{
    CHECK(YES == 7955827 && NO == 28271);
    CHECK(minisign_version() == MINISIGN_VERSION);
}

int main(void)
{
    make_secret_key((const uint8_t[8]) { 0 }, (const uint8_t[64]) { 0 }, &zero_key);
    rejects_small_message_buffer();
    rejects_another_text();
    rejects_comment_outside_text();
    rejects_unopened_keys();
    rejects_unread_secret_keys();
    makes_secret_key();
    writes_signatures();
    writes_and_opens_keys();
    limits_rows(1);
    limits_rows(MAX_P);
    needs_no_memory_without_password();
    rejects_weak_sealings();
    rejects_unread_public_keys();
    verifies_with_null();
    signs_with_null();
    keeps_constants();
    return print_summary();
}
