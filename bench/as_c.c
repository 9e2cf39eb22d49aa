/*
 * Hashes this many MiB in pieces of 64 KiB, for bench/as_c.py: with the library (`library`), with libsodium's code for
 * the processor (`sodium`), or with libsodium's portable code (`plain`), which it uses before sodium_init. Prints the
 * processor seconds and the first byte of the digest.
 */
#include <stdio.h>
#include <stdlib.h>
#include <string.h>
#include <time.h>

#include <sodium.h>

#include "minisign.h"

enum { PIECE = 65536 };

static uint8_t data[PIECE], digest[64];

static void hash_by_library(size_t pieces)
{
    minisign_state state;

    minisign_init(&state);
    for (size_t i = 0; i < pieces; i++) {
        if (minisign_update(&state, data, sizeof data) != MINISIGN_OK) {
            exit(1);
        }
    }
    if (minisign_digest(&state, digest) != MINISIGN_OK) {
        exit(1);
    }
}

static void hash_by_sodium(size_t pieces)
{
    crypto_generichash_state state;

    crypto_generichash_init(&state, NULL, 0, sizeof digest);
    for (size_t i = 0; i < pieces; i++) {
        crypto_generichash_update(&state, data, sizeof data);
    }
    crypto_generichash_final(&state, digest, sizeof digest);
}

int main(int argc, char **argv)
{
    size_t pieces = argc == 3 ? (size_t) atoi(argv[2]) * 16 : 0;
    clock_t begun;

    if (pieces == 0 || (strcmp(argv[1], "sodium") == 0 && sodium_init() < 0)) {
        return 1;
    }
    memset(data, 0x5a, sizeof data);
    begun = clock();
    if (strcmp(argv[1], "library") == 0) {
        hash_by_library(pieces);
    } else {
        hash_by_sodium(pieces);
    }
    printf("%f %02x\n", (double) (clock() - begun) / CLOCKS_PER_SEC, digest[0]);
    return 0;
}
