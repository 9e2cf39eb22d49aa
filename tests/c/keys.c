/*
 * Writes and opens key files with the calls of minisign.h. key_compatibility.py runs this program.
 *
 *     keys secret KEY_ID SECRET SALT OPERATIONS MEMORY EVERY COMMENT [PASSWORD]
 *     keys public KEY_ID SECRET COMMENT
 *     keys open EVERY ROWS TEXT [PASSWORD]
 *     keys place EVERY ROWS TEXT [PASSWORD]
 *     keys memory EVERY TEXT
 *
 * `secret` and `public` print a key file. `open` and `place` print the key ID and the secret in hexadecimal. `place` opens
 * the key in memory of exactly the size that `memory` prints, as numbers of words and bytes. This memory is filled before,
 * and must consist of zeros afterwards. After an error, the program prints its number and exits with status 1.
 *
 * EVERY and ROWS are the arguments keep_every and most_rows in the header. KEY_ID, SECRET and SALT are in hexadecimal. TEXT
 * is the content of a secret key file.
 */
#include <inttypes.h>
#include <stdlib.h>

#include "texts_for_tests.h"

static uint64_t number_of(const char *digits)
{
    return strtoull(digits, NULL, 10);
}

static void read_hexadecimal(uint8_t *to, size_t len, const char *digits)
{
    for (size_t i = 0; i < len; i++) {
        unsigned int byte = 0;

        sscanf(digits + 2 * i, "%2x", &byte);
        to[i] = (uint8_t) byte;
    }
}

static void write_hexadecimal(const uint8_t *from, size_t len, const char *end)
{
    for (size_t i = 0; i < len; i++) {
        printf("%02x", from[i]);
    }
    printf("%s", end);
}

static int status_of(uint32_t error)
{
    if (error != MINISIGN_OK) {
        printf("%" PRIu32 "\n", error);
    }
    return error != MINISIGN_OK;
}

/* Prints a secret key file, which is encrypted if there is a password, or a public key file. */
static int print_key_file(int argc, char **argv, int is_secret)
{
    static uint8_t text[4096];
    const char *password = argc > 9 ? argv[9] : "", *comment = argv[is_secret ? 8 : 4];
    size_t text_len = 0;
    uint8_t key_id[8], secret[64];
    minisign_new_key new_key;
    minisign_secret_key key;
    minisign_sealing sealing;
    uint32_t error;

    read_hexadecimal(key_id, sizeof key_id, argv[2]);
    read_hexadecimal(secret, sizeof secret, argv[3]);
    memcpy(new_key.key_id, key_id, sizeof key_id);
    memcpy(new_key.secret, secret, sizeof secret);
    minisign_take_secret_key(&new_key, &key);
    if (is_secret) {
        read_hexadecimal(sealing.salt, sizeof sealing.salt, argv[4]);
        sealing.operations_limit = number_of(argv[5]);
        sealing.memory_limit = number_of(argv[6]);
        error = minisign_secret_key_text_with_any_limits(&key, argc > 9 ? MINISIGN_ANY_PASSWORD : MINISIGN_NO_PASSWORD,
                                                         bytes_of(password), strlen(password), &sealing, number_of(argv[7]),
                                                         bytes_of(comment), strlen(comment), text, sizeof text, &text_len);
    } else {
        error = minisign_public_key_text(&key, bytes_of(comment), strlen(comment), text, sizeof text, &text_len);
    }
    fwrite(text, 1, text_len, stdout);
    return status_of(error);
}

/* Allocates `len` bytes and fills them with a value other than 0. */
static void *allocate_filled(uint64_t len)
{
    void *block = malloc((size_t) len);

    return block == NULL ? NULL : memset(block, 0x5a, (size_t) len);
}

static uint32_t open_in_place(const minisign_unopened_key *unopened, const char *password, uint64_t keep_every, uint64_t rows,
                              minisign_secret_key *key)
{
    uint64_t words_wanted, bytes_wanted;
    uint32_t *words, error;
    uint8_t *parts;

    minisign_opening_memory(unopened, keep_every, rows, &words_wanted, &bytes_wanted);
    words = allocate_filled(words_wanted * sizeof *words);
    parts = allocate_filled(bytes_wanted);
    error = minisign_open_sealed_key_in_place(unopened, bytes_of(password), strlen(password), keep_every, rows, words,
                                              (size_t) words_wanted, parts, (size_t) bytes_wanted, key);
    if (!is_zeros(words, (size_t) words_wanted * sizeof *words) || !is_zeros(parts, (size_t) bytes_wanted)) {
        printf("the memory was not cleared\n");
        exit(2);
    }
    free(words);
    free(parts);
    return error;
}

static int print_memory(char **argv)
{
    minisign_unopened_key unopened;
    uint64_t words, parts;
    uint32_t error = minisign_read_secret_key(bytes_of(argv[3]), strlen(argv[3]), &unopened);

    if (error == MINISIGN_OK) {
        minisign_opening_memory(&unopened, number_of(argv[2]), MINISIGN_ANY_ROWS, &words, &parts);
        printf("%" PRIu64 " %" PRIu64 "\n", words, parts);
    }
    return status_of(error);
}

static int open_key(int argc, char **argv)
{
    const uint64_t keep_every = number_of(argv[2]), rows = number_of(argv[3]);
    const char *password = argc > 5 ? argv[5] : "";
    minisign_unopened_key unopened;
    minisign_secret_key key;
    uint32_t error = minisign_read_secret_key(bytes_of(argv[4]), strlen(argv[4]), &unopened);

    if (error == MINISIGN_OK) {
        error = strcmp(argv[1], "place") == 0 ? open_in_place(&unopened, password, keep_every, rows, &key)
                : argc > 5 ? minisign_open_sealed_key(&unopened, bytes_of(password), strlen(password), keep_every, rows, &key)
                           : (uint32_t) minisign_open_unsealed_key(&unopened, &key);
    }
    if (error == MINISIGN_OK) {
        write_hexadecimal(key.key_id, sizeof key.key_id, " ");
        write_hexadecimal(key.secret, sizeof key.secret, "\n");
    }
    return status_of(error);
}

int main(int argc, char **argv)
{
    const char *command = argc > 1 ? argv[1] : "";

    return argc >= 9 && strcmp(command, "secret") == 0                                    ? print_key_file(argc, argv, 1)
           : argc == 5 && strcmp(command, "public") == 0                                  ? print_key_file(argc, argv, 0)
           : argc >= 5 && (strcmp(command, "open") == 0 || strcmp(command, "place") == 0) ? open_key(argc, argv)
           : argc == 4 && strcmp(command, "memory") == 0                                  ? print_memory(argv)
                                                                                          : 2;
}
