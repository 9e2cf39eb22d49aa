// SPDX-License-Identifier: MIT
// Verifies a file with the calls of minisign.h and libsodium's Ed25519.
//
//     verify PUBLIC_KEY DATA SIGNATURE
//
// If the signature is valid, prints the trusted comment and exits with status 0. Otherwise exits with status 1.
#include <stdio.h>
#include <stdlib.h>

#include <sodium.h>

#include <minisign.h>

enum { TEXT_BYTES = 65536 };

static uint8_t text[TEXT_BYTES], message[TEXT_BYTES];

static void fail(const char *error_text)
{
    fprintf(stderr, "verify: %s\n", error_text);
    exit(1);
}

static void expect(enum minisign_error error)
{
    if (error != MINISIGN_OK) {
        char error_text[MINISIGN_ERROR_TEXT_BYTES];

        minisign_error_text(error, error_text, sizeof error_text);
        fail(error_text);
    }
}

// Reads the next TEXT_BYTES bytes of a file into `text`, or what is left of it.
static size_t read_piece(FILE *file)
{
    size_t len = file == NULL ? 0 : fread(text, 1, sizeof text, file);

    if (file == NULL || ferror(file)) {
        fail("a file cannot be read");
    }
    return len;
}

// Reads a key file or signature file of fewer than TEXT_BYTES bytes into `text`.
static size_t read_text(const char *name)
{
    size_t len = read_piece(fopen(name, "rb"));

    if (len == TEXT_BYTES) {
        fail("a text is too long");
    }
    return len;
}

// Makes one of the two Ed25519 checks. libsodium returns 0 if the signature is valid.
static enum minisign_answer answer(const uint8_t *signature, const uint8_t *bytes, size_t len, const uint8_t *key)
{
    return crypto_sign_verify_detached(signature, bytes, len, key) == 0 ? MINISIGN_ANSWER_YES : MINISIGN_ANSWER_NO;
}

int main(int argc, char **argv)
{
    minisign_public_key key = { 0 };
    minisign_signature signature = { 0 };
    minisign_questions q;
    minisign_state state;
    FILE *data;
    size_t len;

    if (argc != 4 || sodium_init() < 0) {
        fail("usage: verify PUBLIC_KEY DATA SIGNATURE");
    }
    // The key and the signature are read first, so that errors in them are found before the data is read.
    expect(minisign_read_public_key(text, read_text(argv[1]), &key));
    len = read_text(argv[3]);
    expect(minisign_read_signature(text, len, &signature));
    minisign_init(&state);
    // The argument 0 rejects legacy signatures, which cover the data itself. The message is never longer than the
    // signature file.
    expect(minisign_ask(&state, &key, &signature, text, len, 0, &q, message, sizeof message));
    data = fopen(argv[2], "rb");
    while ((len = read_piece(data)) > 0) {
        expect(minisign_update(&state, text, len));
    }
    expect(minisign_digest(&state, q.digest));
    expect(minisign_verdict(&state, answer(q.signature, q.digest, sizeof q.digest, q.public_key),
                            answer(q.comment_signature, message, q.message_len, q.public_key)));
    // The signature is valid. Take the trusted comment from the message, which was verified.
    len = q.comment_len;
    if (fwrite(message + q.comment_offset, 1, len, stdout) != len || putchar('\n') == EOF || fflush(stdout) != 0) {
        fail("the comment cannot be written");
    }
    return 0;
}
