/*
 * Makes one call of the library under valgrind, with its secret bytes marked as undefined. valgrind reports each branch
 * and each memory address that depends on them.
 *
 *     constant_time [CALL]
 *
 * constant_time.py writes secret_texts.h and runs this program. It prints the result of the call. If the output of the call
 * is public, it also prints `public`, or the offset of the first output byte that depends on a secret. Without CALL, it
 * prints the names of all calls.
 */
#include <stdio.h>
#include <stdlib.h>
#include <string.h>
#include <valgrind/memcheck.h>

#include "minisign.h"
#include "secret_texts.h"

#define MARK_SECRET(bytes, len) ((void) VALGRIND_MAKE_MEM_UNDEFINED(bytes, len))
#define MARK_PUBLIC(bytes, len) ((void) VALGRIND_MAKE_MEM_DEFINED(bytes, len))
#define MAX_ROWS (1 << 20)
#define TEXT(words) (const uint8_t *) (words), sizeof(words) - 1

static uint8_t text[4096], password[sizeof PASSWORD], output[4096];
static minisign_new_key new_key;
static size_t text_len, output_len;
static minisign_unopened_key unopened;
static minisign_secret_key key;
static minisign_public_key public_key;
static minisign_sealing sealing = { .operations_limit = OPERATIONS_LIMIT, .memory_limit = MEMORY_LIMIT };

static void require_ok(enum minisign_error error)
{
    if (error != MINISIGN_OK) {
        fprintf(stderr, "a call that prepares this one failed: %d\n", (int) error);
        exit(2);
    }
}

/* ---- Preparing a call ---- */

static void set_text(const unsigned char *bytes, size_t len)
{
    memcpy(text, bytes, len);
    text_len = len;
}

/* Marks the base64 characters that encode these bytes of the record as undefined. */
static void mark_record_secret(size_t from, size_t to)
{
    const size_t first = from / 3 * 4, end = (to + 2) / 3 * 4;

    MARK_SECRET(text + FIRST_LINE + first, end - first);
}

static void read_text(const unsigned char *bytes, size_t len)
{
    set_text(bytes, len);
    require_ok(minisign_read_secret_key(text, text_len, &unopened));
}

static void mark_password_secret(void)
{
    MARK_SECRET(password, sizeof password);
}

/* Makes the secret key. The first half of its secret is marked as undefined; the second half is the public key. */
static void make_key(void)
{
    minisign_take_secret_key(&new_key, &key);
    MARK_SECRET(key.secret, 32);
}

/* ---- The calls ---- */

static enum minisign_error read_unsealed(void)
{
    set_text(UNSEALED, sizeof UNSEALED);
    mark_record_secret(62, 94);
    mark_record_secret(126, 158);
    return minisign_read_secret_key(text, text_len, &unopened);
}

static enum minisign_error read_sealed(void)
{
    set_text(SEALED, sizeof SEALED);
    mark_record_secret(54, 158);
    return minisign_read_secret_key(text, text_len, &unopened);
}

static enum minisign_error open_text(const unsigned char *bytes, size_t len)
{
    read_text(bytes, len);
    MARK_SECRET(unopened.bytes + 62, 32);
    MARK_SECRET(unopened.bytes + 126, 32);
    return minisign_open_unsealed_key(&unopened, &key);
}

static enum minisign_error open_unsealed(void)
{
    return open_text(UNSEALED, sizeof UNSEALED);
}

/* In these calls, the first or the last byte of the checksum is wrong. */
static enum minisign_error open_wrong_first(void)
{
    return open_text(UNSEALED_WRONG_FIRST, sizeof UNSEALED_WRONG_FIRST);
}

static enum minisign_error open_wrong_last(void)
{
    return open_text(UNSEALED_WRONG_LAST, sizeof UNSEALED_WRONG_LAST);
}

static enum minisign_error open_with_password(const unsigned char *bytes, size_t len, uint64_t keep_every)
{
    read_text(bytes, len);
    mark_password_secret();
    return minisign_open_sealed_key(&unopened, password, sizeof password, keep_every, MAX_ROWS, &key);
}

static enum minisign_error open_sealed(void)
{
    return open_with_password(SEALED, sizeof SEALED, MINISIGN_KEEP_EVERY_ROW);
}

static enum minisign_error open_sealed_few_rows(void)
{
    return open_with_password(SEALED, sizeof SEALED, MINISIGN_KEEP_FEW_ROWS);
}

static enum minisign_error open_sealed_wrong_first(void)
{
    return open_with_password(SEALED_WRONG_FIRST, sizeof SEALED_WRONG_FIRST, MINISIGN_KEEP_EVERY_ROW);
}

static enum minisign_error open_sealed_wrong_last(void)
{
    return open_with_password(SEALED_WRONG_LAST, sizeof SEALED_WRONG_LAST, MINISIGN_KEEP_EVERY_ROW);
}

static enum minisign_error open_in_place(void)
{
    uint64_t words_wanted, bytes_wanted;
    enum minisign_error error;
    uint32_t *words;
    uint8_t *bytes;

    read_text(SEALED, sizeof SEALED);
    minisign_opening_memory(&unopened, MINISIGN_KEEP_EVERY_ROW, MAX_ROWS, &words_wanted, &bytes_wanted);
    words = malloc(words_wanted * sizeof *words);
    bytes = malloc(bytes_wanted);
    if (words == NULL || bytes == NULL) {
        exit(2);
    }
    mark_password_secret();
    error = minisign_open_sealed_key_in_place(&unopened, password, sizeof password, MINISIGN_KEEP_EVERY_ROW, MAX_ROWS,
                                              words, words_wanted, bytes, bytes_wanted, &key);
    free(words);
    free(bytes);
    return error;
}

static enum minisign_error take(void)
{
    MARK_SECRET(new_key.secret, 32);
    minisign_take_secret_key(&new_key, &key);
    return MINISIGN_OK;
}

static enum minisign_error make_public_key(void)
{
    enum minisign_error error;

    make_key();
    error = minisign_public_key_of(&key, &public_key);
    memcpy(output, &public_key, sizeof public_key);
    output_len = sizeof public_key;
    return error;
}

static enum minisign_error write_public_key(void)
{
    make_key();
    return minisign_public_key_text(&key, TEXT("a comment"), output, sizeof output, &output_len);
}

static enum minisign_error write_signature(void)
{
    minisign_signed_parts parts = { .trusted_comment = (const uint8_t *) "trusted", .trusted_comment_len = 7,
                                    .untrusted_comment = (const uint8_t *) "untrusted", .untrusted_comment_len = 9 };
    static uint8_t message[64 + 7], digest[64];
    static minisign_state state;

    make_key();
    require_ok(minisign_public_key_of(&key, &public_key));
    minisign_init(&state);
    require_ok(minisign_update(&state, TEXT("data")));
    require_ok(minisign_digest(&state, digest));
    require_ok(minisign_comment_message(parts.signature, parts.trusted_comment, parts.trusted_comment_len, message,
                                        sizeof message));
    return minisign_signed_text(&public_key, &parts, output, sizeof output, &output_len);
}

static enum minisign_error write_key(uint32_t with_password)
{
    make_key();
    mark_password_secret();
    return minisign_secret_key_text_with_any_limits(&key, with_password, password, sizeof password, &sealing,
                                                    MINISIGN_KEEP_EVERY_ROW, TEXT("a comment"), output, sizeof output, &output_len);
}

static enum minisign_error write_unsealed(void)
{
    return write_key(0);
}

static enum minisign_error write_sealed(void)
{
    return write_key(1);
}

/* Has a branch and an address that depend on a secret, which valgrind must report. */
static enum minisign_error leak(void)
{
    static const uint8_t table[256] = { 1 };

    MARK_SECRET(new_key.secret, 2);
    if (new_key.secret[0] > 7) {
        output[0] = table[new_key.secret[1]];
    }
    return output[0] == 77 ? MINISIGN_OK : MINISIGN_NO_ROOM;
}

static const struct {
    const char *name;
    enum minisign_error (*call)(void);
} calls[] = {
    { "read_unsealed", read_unsealed },
    { "read_sealed", read_sealed },
    { "open_unsealed", open_unsealed },
    { "open_wrong_first", open_wrong_first },
    { "open_wrong_last", open_wrong_last },
    { "open_sealed", open_sealed },
    { "open_sealed_few_rows", open_sealed_few_rows },
    { "open_sealed_wrong_first", open_sealed_wrong_first },
    { "open_sealed_wrong_last", open_sealed_wrong_last },
    { "open_in_place", open_in_place },
    { "take", take },
    { "make_public_key", make_public_key },
    { "write_public_key", write_public_key },
    { "write_signature", write_signature },
    { "write_unsealed", write_unsealed },
    { "write_sealed", write_sealed },
    { "leak", leak },
};

/* Prints the offset of the first byte that depends on a secret, or `public`. */
static void print_public(const uint8_t *bytes, size_t len)
{
    const uintptr_t undefined = VALGRIND_CHECK_MEM_IS_DEFINED(bytes, len);

    if (undefined == 0) {
        puts("public");
    } else {
        printf("secret from byte %lu\n", (unsigned long) (undefined - (uintptr_t) bytes));
    }
}

int main(int argc, char **argv)
{
    enum minisign_error error;

    memcpy(password, PASSWORD, sizeof PASSWORD);
    memcpy(new_key.secret, SECRET, sizeof new_key.secret);
    memcpy(new_key.key_id, KEY_ID, sizeof new_key.key_id);
    memset(sealing.salt, 7, sizeof sealing.salt);
    for (size_t i = 0; argc == 2 && i < sizeof calls / sizeof *calls; i++) {
        if (strcmp(argv[1], calls[i].name) == 0) {
            error = calls[i].call();
            MARK_PUBLIC(&error, sizeof error);
            MARK_PUBLIC(&output_len, sizeof output_len);
            printf("result %d\n", (int) error);
            print_public(output, output_len);
            return 0;
        }
    }
    for (size_t i = 0; i < sizeof calls / sizeof *calls; i++) {
        puts(calls[i].name);
    }
    return 0;
}
