// SPDX-License-Identifier: MIT
// Verifies a download under a built-in public key, as an updater does, with the calls of minisign_stream.h.
//
//     check DATA SIGNATURE
//
// Prints the trusted comment and exits with status 0 if the signature is valid, with 1 if it is not, and with 2 if a
// file cannot be read.
#include <stdio.h>
#include <string.h>

#include <sodium.h>

#include <minisign_stream.h>

static const char KEY[] = "RWQf6LRCGA9i53mlYecO4IzT51TGPpvWucNSCh1CBM0QTaLn73Y7GFO3";

// Reads a file of fewer than `size` bytes, and returns its length, or `size` if it is too long or cannot be read.
static size_t read_file(FILE *file, char *to, size_t size)
{
    size_t len = file == NULL ? size : fread(to, 1, size, file);

    return file == NULL || ferror(file) ? size : len;
}

int main(int argc, char **argv)
{
    static minisign_verifier verifier;
    static char signature[1 << 16], piece[1 << 16];
    const char *comment;
    size_t len;
    FILE *file;

    if (argc != 3 || sodium_init() < 0
        || (len = read_file(fopen(argv[2], "rb"), signature, sizeof signature)) == sizeof signature
        || (file = fopen(argv[1], "rb")) == NULL) {
        return 2;
    }
    minisign_verify_start(&verifier, KEY, strlen(KEY), signature, len, crypto_sign_verify_detached);
    while ((len = fread(piece, 1, sizeof piece, file)) > 0) {
        minisign_verify_feed(&verifier, piece, len);
    }
    if (ferror(file)) {
        return 2;
    }
    if (minisign_verify_finish(&verifier, &comment, NULL) != MINISIGN_OK) {
        return 1;
    }
    return puts(comment) < 0 || fflush(stdout) != 0 ? 2 : 0;
}
