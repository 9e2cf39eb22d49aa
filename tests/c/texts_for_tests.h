/* Keys, signatures and functions that the test programs in this directory share. Each program is a single C file. It
 * prints a line for each failed check, and the last line is `N passed, M failed`. The programs do not call Ed25519: they
 * pass results of their own choice to the library. */
#ifndef TEXTS_FOR_TESTS_H
#define TEXTS_FOR_TESTS_H

#include <stdarg.h>
#include <stdio.h>
#include <string.h>

#include "minisign.h"

#define LENGTH(array) (sizeof(array) / sizeof *(array))
#define YES MINISIGN_ANSWER_YES
#define NO MINISIGN_ANSWER_NO

/* With -DIS_EMULATED=1, programs make fewer of the checks that take minutes under an emulator. */
#ifndef IS_EMULATED
#define IS_EMULATED 0
#endif

static unsigned passed, failed;

/* Counts a check. If it failed, prints a message, whose arguments are those of printf. */
#ifdef __GNUC__
__attribute__((format(printf, 2, 3)))
#endif
static void check(int condition, const char *format, ...)
{
    va_list arguments;

    passed += condition != 0;
    failed += condition == 0;
    if (!condition) {
        va_start(arguments, format);
        vprintf(format, arguments);
        va_end(arguments);
        putchar('\n');
    }
}

#define CHECK(condition) check((condition), "line %d: false: %s", __LINE__, #condition)

/* Prints the last line and returns the exit status of the program. */
static inline int print_summary(void)
{
    printf("%u passed, %u failed\n", passed, failed);
    return failed != 0;
}

static inline const uint8_t *bytes_of(const char *text)
{
    return (const uint8_t *) text;
}

/* Returns true if all bytes are zeros. */
static inline int is_zeros(const void *block, size_t len)
{
    const uint8_t *bytes = block;

    return len == 0 || (bytes[0] == 0 && memcmp(bytes, bytes + 1, len - 1) == 0);
}

/* Returns true if the hexadecimal digits encode these bytes. */
static inline int equals_hex(const uint8_t *bytes, const char *digits)
{
    char pair[3];

    for (; *digits != 0; digits += 2) {
        snprintf(pair, sizeof pair, "%02x", *bytes++);
        if (memcmp(pair, digits, 2) != 0) {
            return 0;
        }
    }
    return 1;
}

/* The Blake2b digest of `abc` (RFC 7693, appendix A). */
#define BLAKE2B_OF_ABC                                                 \
    "ba80a53f981c4d0d6a2797b69f12f6e94c212f14685ac4b74b12bb6fdbffa2d1" \
    "7d87c5392aab792dc252d5de4533cc9518d38aa8dbf1925ab92386edd4009923"

/* The public key of Minisign's author, and a signature of the data `test` made with this key. */
#define KEY_COMMENT "untrusted comment: minisign public key E7620F1842B4E81F\n"
#define KEY_LINE "RWQf6LRCGA9i53mlYecO4IzT51TGPpvWucNSCh1CBM0QTaLn73Y7GFO3"
static const char KEY[] = KEY_COMMENT KEY_LINE "\n";
#define SIGNATURE_COMMENT "untrusted comment: signature from minisign secret key\n"
#define RECORD "RUQf6LRCGA9i559r3g7V1qNyJDApGip8MfqcadIgT9CuhV3EMhHoN1mGTkUidF/z7SrlQgXdy8ofjb7bNJJylDOocrCo8KLzZwo="
#define COMMENT_RECORD "y/rUw2y8/hOUYjZU71eHp/Wo1KZ40fGy2VJEDl34XMJM+TX48Ss/17u3IvIfbVR1FkZZSNCisQbuQY+bHwhEBg=="
#define COMMENT "timestamp:1556193335\tfile:test"
/* The length of the message of the comment signature: the signature and the trusted comment. */
#define MESSAGE_LEN (64 + sizeof COMMENT - 1)
static const char SIGNATURE[] = SIGNATURE_COMMENT RECORD "\ntrusted comment: " COMMENT "\n" COMMENT_RECORD;
/* A legacy signature of `test` made with the same key. A legacy signature signs the data itself, not its digest. */
#define LEGACY_RECORD "RWQf6LRCGA9i59SLOFxz6NxvASXDJeRtuZykwQepbDEGt87ig1BNpWaVWuNrm73YiIiJbq71Wi+dP9eKL8OC351vwIasSSbXxwA="
static const char LEGACY_SIGNATURE[] =
    SIGNATURE_COMMENT LEGACY_RECORD "\ntrusted comment: timestamp:1555779966\tfile:test\n"
    "QtKMXWyYcwdpZAlPF7tE2ENJkRd1ujvKjlj1m9RtHTBnZPa5WKU5uWRs5GoP5M/VqE81QFuMKI5k/SfNQUaOAA==";
/* A signature of `hello` and a line feed, made with another key. */
#define OTHER_KEY_RECORD "RUS4oO+OTGvmIe/AFUZesFY/ONgyTgR9P0wlXFBD98cDX7Pao0WBeMSBQywks6PdOxlxIHanFJJYpkqO7tBvYfnm/DXVQmwFYQ0="
static const char OTHER_KEY_SIGNATURE[] =
    SIGNATURE_COMMENT OTHER_KEY_RECORD "\ntrusted comment: a trusted comment\n"
    "VFXOnLXSP360tFPUt7eqzsSHMo0p1bPS9fRkoO0MOvNy8kHZu0k9okhkkORQyQv79DEl+OdNXurVl1Qt+AMEAQ==\n";

/* Parses a public key file. */
static inline minisign_public_key key_of(const char *text)
{
    minisign_public_key key;

    memset(&key, 0, sizeof key);
    CHECK(minisign_read_public_key(bytes_of(text), strlen(text), &key) == MINISIGN_OK);
    return key;
}

/* Parses a signature file. */
static inline minisign_signature signature_of(const char *text)
{
    minisign_signature signature;

    memset(&signature, 0, sizeof signature);
    CHECK(minisign_read_signature(bytes_of(text), strlen(text), &signature) == MINISIGN_OK);
    return signature;
}

/* Returns a state to which this data was passed. */
static inline minisign_state state_with(const char *data)
{
    minisign_state state;

    minisign_init(&state);
    CHECK(minisign_update(&state, bytes_of(data), strlen(data)) == MINISIGN_OK);
    return state;
}

/* A secret key that Minisign generated for these tests with -G -W. */
static const char SECRET_KEY[] =
    "untrusted comment: minisign encrypted secret key\n"
    "RWQAAEIyAAAAAAAAAAAAAAAAAAAAAAAAAAAAAAAAAAAAAAAAAAAAAAAAAAAAAAAAAAAAAAAAu82A"
    "eu/lPqv5tw414tB2l3S0AV4BthpWrWHyA+ItsehisjsR8AROg+V8Ng82TAEWPpchqblhFFay7/kQ"
    "ioiXfnOLD1OmyTi9AAAAAAAAAAAAAAAAAAAAAAAAAAAAAAAAAAAAAAAAAAA=\n";

/* Reads a secret key file and opens it. If password is NULL, the key must not be encrypted. */
static inline enum minisign_error read_and_open(const char *text, const char *password, minisign_unopened_key *unopened,
                                                minisign_secret_key *key)
{
    enum minisign_error error = minisign_read_secret_key(bytes_of(text), strlen(text), unopened);

    if (error != MINISIGN_OK || password == NULL) {
        return error != MINISIGN_OK ? error : minisign_open_unsealed_key(unopened, key);
    }
    return minisign_open_sealed_key(unopened, bytes_of(password), strlen(password), MINISIGN_KEEP_EVERY_ROW,
                                    MINISIGN_USUAL_ROWS, key);
}

/* Writes an encrypted secret key file. scrypt uses `memory` bytes. With its parameter r = 8, N is the number of KiB, and
 * the operations limit is 4 * N * r * p. */
static inline enum minisign_error seal(const minisign_secret_key *key, const char *password, size_t memory, uint64_t p,
                                       uint8_t *text, size_t capacity, size_t *text_len)
{
    const minisign_sealing sealing = { .operations_limit = memory / 32 * p, .memory_limit = memory };

    return minisign_secret_key_text_with_any_limits(key, MINISIGN_PASSWORD, bytes_of(password), strlen(password), &sealing,
                                                    MINISIGN_KEEP_EVERY_ROW, bytes_of("c"), 1, text, capacity, text_len);
}

/* Makes a secret key from a key ID and 64 secret bytes. */
static inline void make_secret_key(const uint8_t key_id[8], const uint8_t secret[64], minisign_secret_key *key)
{
    minisign_new_key new_key;

    memcpy(new_key.key_id, key_id, sizeof new_key.key_id);
    memcpy(new_key.secret, secret, sizeof new_key.secret);
    minisign_take_secret_key(&new_key, key);
}

/* Writes a signature file with these signatures and comments, and with the key ID of a secret key. */
static inline enum minisign_error make_signature_file(const minisign_secret_key *key, const uint8_t signature[64],
                                                      const uint8_t comment_signature[64], const uint8_t *trusted,
                                                      size_t trusted_len, const uint8_t *untrusted, size_t untrusted_len,
                                                      uint8_t *text, size_t capacity, size_t *text_len)
{
    minisign_signed_parts parts = { .trusted_comment = trusted, .trusted_comment_len = trusted_len,
                                    .untrusted_comment = untrusted, .untrusted_comment_len = untrusted_len };
    minisign_public_key public_key;
    enum minisign_error error = minisign_public_key_of(key, &public_key);

    if (error != MINISIGN_OK) {
        return error;
    }
    memcpy(parts.signature, signature, sizeof parts.signature);
    memcpy(parts.comment_signature, comment_signature, sizeof parts.comment_signature);
    return minisign_signed_text(&public_key, &parts, text, capacity, text_len);
}

#endif
