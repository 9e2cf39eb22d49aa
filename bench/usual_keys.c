/*
 * Makes one key derivation with the limits of `minisign -G`, for bench/usual_keys.py: with the library, which encrypts a
 * key (`make`) or decrypts the one in a file (`open KEY_FILE`), or with libsodium (`sodium`). Prints the elapsed and
 * processor seconds of the call.
 */
#define _DEFAULT_SOURCE

#include <stdio.h>
#include <string.h>
#include <time.h>

#include <sodium.h>

#include "minisign.h"

static const uint8_t PASSWORD[] = "a password", COMMENT[] = "c";
static const minisign_new_key NEW_KEY = { .key_id = { 1, 2, 3, 4, 5, 6, 7, 8 } };
static uint8_t text[4096];
static size_t text_len;

static double now(clockid_t clock)
{
    struct timespec time;

    clock_gettime(clock, &time);
    return (double) time.tv_sec + (double) time.tv_nsec / 1e9;
}

/* Encrypts a key with these limits. */
static int make(uint64_t operations_limit, uint64_t memory_limit)
{
    minisign_sealing sealing;
    minisign_secret_key key = { 0 };

    minisign_take_secret_key(&NEW_KEY, &key);
    memset(&sealing, 0, sizeof sealing);
    sealing.operations_limit = operations_limit;
    sealing.memory_limit = memory_limit;
    return minisign_secret_key_text_with_any_limits(&key, MINISIGN_PASSWORD, PASSWORD, sizeof PASSWORD - 1, &sealing,
                                                    MINISIGN_KEEP_EVERY_ROW, COMMENT, 1, text, sizeof text, &text_len)
           == MINISIGN_OK;
}

static int open_key(void)
{
    minisign_unopened_key unopened = { 0 };
    minisign_secret_key key = { 0 };

    return minisign_read_secret_key(text, text_len, &unopened) == MINISIGN_OK
           && minisign_open_sealed_key(&unopened, PASSWORD, sizeof PASSWORD - 1, MINISIGN_KEEP_EVERY_ROW,
                                       MINISIGN_USUAL_ROWS, &key) == MINISIGN_OK;
}

static int derive(void)
{
    /* Minisign derives as many bytes: they encrypt the key ID, the secret key and the checksum. */
    uint8_t stream[104], salt[crypto_pwhash_scryptsalsa208sha256_SALTBYTES] = { 0 };

    return crypto_pwhash_scryptsalsa208sha256(stream, sizeof stream, (const char *) PASSWORD, sizeof PASSWORD - 1, salt,
                                              crypto_pwhash_scryptsalsa208sha256_OPSLIMIT_SENSITIVE,
                                              crypto_pwhash_scryptsalsa208sha256_MEMLIMIT_SENSITIVE) == 0;
}

int main(int argc, char **argv)
{
    double began, cpu_began;
    int good, is_opening = argc == 3 && strcmp(argv[1], "open") == 0;
    FILE *key = is_opening ? fopen(argv[2], "rb") : NULL;

    if (sodium_init() < 0 || argc < 2) {
        return 1;
    }
    if (!is_opening && strcmp(argv[1], "make") != 0 && strcmp(argv[1], "sodium") != 0) {
        return 1;
    }
    if (key != NULL) {
        text_len = fread(text, 1, sizeof text, key);
        fclose(key);
    }
    began = now(CLOCK_MONOTONIC);
    cpu_began = now(CLOCK_PROCESS_CPUTIME_ID);
    if (is_opening) {
        good = open_key();
    } else if (strcmp(argv[1], "make") == 0) {
        good = make(MINISIGN_OPERATIONS_LIMIT, MINISIGN_MEMORY_LIMIT);
    } else {
        good = derive();
    }
    printf("%f %f\n", now(CLOCK_MONOTONIC) - began, now(CLOCK_PROCESS_CPUTIME_ID) - cpu_began);
    return !good;
}
