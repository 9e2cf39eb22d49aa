// SPDX-License-Identifier: MIT
// Signs a file with the calls of minisign.h and libsodium's Ed25519.
//
//     sign SECRET_KEY DATA SIGNATURE COMMENT [PASSWORD_FILE]
//
// The key is one that `minisign -G` made, or `minisign -GW` if there is no PASSWORD_FILE. The signature file is written
// after both signatures were verified.
//
// The library passes the decrypted secret key to the caller, who signs with it. The caller has to clear its copies of
// secrets, and what its Ed25519 leaves behind. The library leaves nothing: see "No secret stays behind" in minisign.h.
#include <stdio.h>
#include <stdlib.h>
#include <string.h>

#include <sodium.h>

#include <minisign.h>

enum { TEXT_BYTES = 65536 };

static const char UNTRUSTED_COMMENT[] = MINISIGN_SIGNATURE_COMMENT;

static uint8_t text[TEXT_BYTES], password[TEXT_BYTES], message[TEXT_BYTES];
static minisign_unopened_key unopened;
static minisign_secret_key key;

// Clears all secrets, which are in static variables, and ends the program.
static void clear_and_exit(int status, const char *error_text)
{
    sodium_memzero(&unopened, sizeof unopened);
    sodium_memzero(&key, sizeof key);
    sodium_memzero(text, sizeof text);
    sodium_memzero(password, sizeof password);
    if (error_text != NULL) {
        fprintf(stderr, "sign: %s\n", error_text);
    }
    exit(status);
}

static void expect(enum minisign_error error)
{
    if (error != MINISIGN_OK) {
        char error_text[MINISIGN_ERROR_TEXT_BYTES];

        minisign_error_text(error, error_text, sizeof error_text);
        clear_and_exit(1, error_text);
    }
}

// Opens a file without a buffer, which would keep a copy of secrets.
static FILE *open_file(const char *name, const char *mode)
{
    FILE *file = fopen(name, mode);

    if (file == NULL || setvbuf(file, NULL, _IONBF, 0) != 0) {
        clear_and_exit(1, "a file cannot be opened");
    }
    return file;
}

// Reads the next TEXT_BYTES bytes of a file, or what is left of it.
static size_t read_piece(FILE *file, uint8_t *to)
{
    size_t len = fread(to, 1, TEXT_BYTES, file);

    if (ferror(file)) {
        clear_and_exit(1, "a file cannot be read");
    }
    return len;
}

// Signs, and verifies the signature under the public half of the key. If the halves do not match, because the key is
// damaged, nobody can verify the signature, and together with a correct signature of the same bytes it reveals the key.
static void sign(uint8_t *signature, const uint8_t *bytes, size_t len)
{
    if (crypto_sign_detached(signature, NULL, bytes, len, key.secret) != 0
        || crypto_sign_verify_detached(signature, bytes, len, key.secret + 32) != 0) {
        clear_and_exit(1, "the key does not sign: its halves do not belong together");
    }
}

int main(int argc, char **argv)
{
    uint8_t digest[64], *line_end = password;
    minisign_public_key public_key = { 0 };
    minisign_signed_parts parts;
    size_t password_len, len;
    minisign_state state;
    FILE *file;

    if ((argc != 5 && argc != 6) || sodium_init() < 0) {
        clear_and_exit(1, "usage: sign SECRET_KEY DATA SIGNATURE COMMENT [PASSWORD_FILE]");
    }
    if (argc == 6) {
        // The password is the first line.
        line_end = memchr(password, '\n', read_piece(open_file(argv[5], "rb"), password));
        if (line_end == NULL) {
            clear_and_exit(1, "the password cannot be read");
        }
    }
    password_len = (size_t) (line_end - password);
    len = read_piece(open_file(argv[1], "rb"), text);
    expect(minisign_read_secret_key(text, len, &unopened));
    if (argc == 6) {
        expect(minisign_open_sealed_key(&unopened, password, password_len, MINISIGN_KEEP_EVERY_ROW, MINISIGN_USUAL_ROWS,
                                        &key));
    } else {
        expect(minisign_open_unsealed_key(&unopened, &key));
    }
    minisign_init(&state);
    file = open_file(argv[2], "rb");
    while ((len = read_piece(file, text)) > 0) {
        expect(minisign_update(&state, text, len));
    }
    expect(minisign_digest(&state, digest));
    parts.trusted_comment = (const uint8_t *) argv[4];
    parts.trusted_comment_len = strlen(argv[4]);
    parts.untrusted_comment = (const uint8_t *) UNTRUSTED_COMMENT;
    parts.untrusted_comment_len = strlen(UNTRUSTED_COMMENT);
    sign(parts.signature, digest, sizeof digest);
    expect(minisign_comment_message(parts.signature, parts.trusted_comment, parts.trusted_comment_len, message,
                                    sizeof message));
    sign(parts.comment_signature, message, 64 + parts.trusted_comment_len);
    // The signature file contains the key ID, which this copies from the key.
    expect(minisign_public_key_of(&key, &public_key));
    expect(minisign_signed_text(&public_key, &parts, text, sizeof text, &len));
    file = open_file(argv[3], "wb");
    if (fwrite(text, 1, len, file) != len || fclose(file) != 0) {
        clear_and_exit(1, "the signature cannot be written");
    }
    clear_and_exit(0, NULL);
}
