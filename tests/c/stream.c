/*
 * Verifies and signs with the calls of minisign_stream.h. installed.py runs this program:
 *
 *     stream PUBLIC_KEY DATA SIGNATURE           verifies, and prints the trusted comment
 *     stream SECRET_KEY DATA SIGNATURE COMMENT   signs with an unencrypted key, and writes the signature file
 *     stream misuse PUBLIC_KEY DATA SIGNATURE    makes wrong calls, and checks their errors; the files are valid
 */
#include <stdio.h>
#include <stdlib.h>

#include <sodium.h>

#include <minisign_stream.h>

enum { PIECE_BYTES = 1000 };

static uint8_t texts[3][1 << 20];
static size_t lens[3];

static int fail(const char *message)
{
    fprintf(stderr, "stream: %s\n", message);
    return 1;
}

static int fail_with_error(enum minisign_error error)
{
    char message[MINISIGN_ERROR_TEXT_BYTES];

    minisign_error_text(error, message, sizeof message);
    return fail(message);
}

static int read_file(const char *name, int at)
{
    FILE *file = fopen(name, "rb");

    lens[at] = file == NULL ? 0 : fread(texts[at], 1, sizeof texts[at], file);
    return file != NULL && !ferror(file) && fclose(file) == 0;
}

static size_t piece_len(size_t at)
{
    return lens[1] - at < PIECE_BYTES ? lens[1] - at : PIECE_BYTES;
}

/* Starts a verification of the three files, and passes the data. */
static void start_and_feed(minisign_verifier *verifier)
{
    minisign_verify_start(verifier, texts[0], lens[0], texts[2], lens[2], crypto_sign_verify_detached);
    for (size_t at = 0; at < lens[1]; at += PIECE_BYTES) {
        minisign_verify_feed(verifier, texts[1] + at, piece_len(at));
    }
}

static int verify(void)
{
    static minisign_verifier verifier;
    const char *comment = "";
    size_t len = 1;
    enum minisign_error error;

    start_and_feed(&verifier);
    error = minisign_verify_finish(&verifier, &comment, &len);
    if (error != MINISIGN_OK) {
        return comment == NULL && len == 0 ? fail_with_error(error) : fail("an error left a comment");
    }
    if (strlen(comment) != len) {
        return fail("the comment has another length");
    }
    puts(comment);
    return 0;
}

/* Checks the results of finishing after each mistake. */
static int check_misuse(void)
{
    static minisign_verifier verifier;
    const char *comment = "";

    if (minisign_verify_finish(&verifier, &comment, NULL) != MINISIGN_NOT_BEGUN || comment != NULL) {
        return fail("finish without start");
    }
    minisign_verify_feed(&verifier, texts[1], lens[1]);
    if (minisign_verify_finish(&verifier, NULL, NULL) != MINISIGN_NOT_BEGUN) {
        return fail("feed without start");
    }
    start_and_feed(&verifier);
    if (minisign_verify_finish(&verifier, &comment, NULL) != MINISIGN_OK || comment == NULL) {
        return fail("valid files");
    }
    if (minisign_verify_finish(&verifier, &comment, NULL) != MINISIGN_NOT_BEGUN || comment != NULL) {
        return fail("finish twice");
    }
    start_and_feed(&verifier);
    minisign_verify_feed(&verifier, "x", 1);
    if (minisign_verify_finish(&verifier, &comment, NULL) != MINISIGN_SIGNATURE_REFUSED || comment != NULL) {
        return fail("more data");
    }
    minisign_verify_feed(&verifier, "x", 1);
    if (minisign_verify_finish(&verifier, NULL, NULL) != MINISIGN_SIGNATURE_REFUSED) {
        return fail("the first error does not stick");
    }
    minisign_verify_start(&verifier, texts[2], lens[2], texts[0], lens[0], crypto_sign_verify_detached);
    minisign_verify_feed(&verifier, texts[1], lens[1]);
    if (minisign_verify_finish(&verifier, NULL, NULL) != MINISIGN_PUBLIC_KEY_LENGTH) {
        return fail("key and signature swapped");
    }
    minisign_verify_start(&verifier, NULL, 0, NULL, 0, crypto_sign_verify_detached);
    if (minisign_verify_finish(&verifier, NULL, NULL) != MINISIGN_BARE_PUBLIC_KEY_LENGTH) {
        return fail("no key");
    }
    return 0;
}

static int sign(const char *name, const char *comment)
{
    static const uint8_t zeros[192];
    static minisign_signer signer;
    minisign_unopened_key unopened = { 0 };
    minisign_secret_key key = { 0 };
    minisign_signed_parts parts = { .trusted_comment = (const uint8_t *) comment, .trusted_comment_len = strlen(comment),
                                    .untrusted_comment = (const uint8_t *) "u", .untrusted_comment_len = 1 };
    size_t len = 1;
    FILE *file;
    enum minisign_error error = minisign_read_secret_key(texts[0], lens[0], &unopened);

    if (error == MINISIGN_OK) {
        error = minisign_open_unsealed_key(&unopened, &key);
    }
    if (error != MINISIGN_OK) {
        return fail_with_error(error);
    }
    minisign_sign_start(&signer, &key, crypto_sign_detached, crypto_sign_verify_detached);
    for (size_t at = 0; at < lens[1]; at += PIECE_BYTES) {
        minisign_sign_feed(&signer, texts[1] + at, piece_len(at));
    }
    error = minisign_sign_finish(&signer, &parts, texts[2], MINISIGN_TEXT_BYTES(strlen(comment), 1), &len);
    if (error != MINISIGN_OK) {
        return len == 0 && memcmp(texts[2], zeros, sizeof zeros) == 0 && memcmp(parts.signature, zeros, 128) == 0
                   ? fail_with_error(error)
                   : fail("an error left something of a signature");
    }
    file = fopen(name, "wb");
    if (file == NULL || fwrite(texts[2], 1, len, file) != len || fclose(file) != 0) {
        return fail("the signature cannot be written");
    }
    return minisign_sign_finish(&signer, &parts, texts[2], sizeof texts[2], &len) == MINISIGN_NOT_BEGUN && len == 0
               ? 0
               : fail("a second signature was made");
}

int main(int argc, char **argv)
{
    const int is_misuse = argc > 1 && strcmp(argv[1], "misuse") == 0;

    argv += is_misuse;
    argc -= is_misuse;
    if ((argc != 4 && argc != 5) || sodium_init() < 0 || !read_file(argv[1], 0) || !read_file(argv[2], 1)
        || (argc == 4 && !read_file(argv[3], 2))) {
        return fail("a file cannot be read");
    }
    return is_misuse ? check_misuse() : argc == 4 ? verify() : sign(argv[3], argv[4]);
}
