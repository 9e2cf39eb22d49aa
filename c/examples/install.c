// SPDX-License-Identifier: MIT
// Installs an update with the call of minisign_installing.h and libsodium's Ed25519.
//
//     install PUBLIC_KEY DATA SIGNATURE TARGET
//
// The trusted comment must contain the file name of TARGET and a version number, in the field "version:". Exits with
// the result of the call: 0 if the update was installed, 10 if it was installed already, and another number if it is
// rejected.
#include <stdio.h>
#include <stdlib.h>

#include <sodium.h>

#include <minisign_installing.h>

enum { TEXT_BYTES = 65536 };

static uint8_t key_text[TEXT_BYTES], signature[TEXT_BYTES];

static void print_message(void *context, const minisign_installing_message *message)
{
    static const char *const kinds[] = { "", "error", "error", "hint", "warning" };

    (void) context;
    // A program that prints names from others should escape control characters in message->file.
    fprintf(stderr, "%s: %s%s%s\n", kinds[message->kind], message->file == NULL ? "" : message->file,
            message->file == NULL ? "" : ": ", message->text);
}

// Reads a key file or signature file of fewer than TEXT_BYTES bytes.
static size_t read_text(const char *name, uint8_t *text)
{
    FILE *file = fopen(name, "rb");
    size_t len = file == NULL ? TEXT_BYTES : fread(text, 1, TEXT_BYTES, file);

    if (len == TEXT_BYTES || ferror(file)) {
        fprintf(stderr, "error: %s: this file cannot be read, or is too long\n", name);
        exit(MINISIGN_STATUS_FAILED);
    }
    fclose(file);
    return len;
}

int main(int argc, char **argv)
{
    minisign_installing_options options = { 0 };
    minisign_public_key key = { 0 };

    if (argc != 5 || sodium_init() < 0) {
        fputs("usage: install PUBLIC_KEY DATA SIGNATURE TARGET\n", stderr);
        return MINISIGN_STATUS_MISUSE;
    }
    if (minisign_read_public_key(key_text, read_text(argv[1], key_text), &key) != MINISIGN_OK) {
        fprintf(stderr, "error: %s: this is not a public key\n", argv[1]);
        return MINISIGN_STATUS_REJECTED;
    }
    options.key = &key;
    options.data = argv[2];
    options.signature = signature;
    options.signature_len = read_text(argv[3], signature);
    options.signature_name = argv[3];
    options.target = argv[4];
    options.choices.numbering = MINISIGN_NUMBERING_VERSION;
    options.verify = crypto_sign_verify_detached;
    options.message = print_message;
    return (int) minisign_install_file(&options, NULL);
}
