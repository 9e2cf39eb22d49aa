/*
 * Verifies legacy signatures with the library and the Ed25519 implementation of OpenSSL or libsodium. ed25519_inputs.py runs
 * this program:
 *
 *     verify_legacy openssl|libsodium
 *
 * Each line of standard input is a case: the public key file, the data and the signature file, in hexadecimal, or "-" if
 * empty. For each case, the program prints the error number that the library returns, and 1 if the Ed25519 function by itself
 * accepts the data signature, or 0.
 */
#include <stdint.h>
#include <stdio.h>
#include <string.h>

#include <openssl/evp.h>
#include <sodium.h>

#include <minisign.h>

enum { MAX_BYTES = 1 << 18, MESSAGE_BYTES = 1000 };

typedef int verify_detached(const unsigned char *sig, const unsigned char *m, unsigned long long m_len, const unsigned char *pk);

struct file {
    uint8_t bytes[MAX_BYTES];
    size_t len;
};

static struct file key_file, data, signature_file;

static int verify_by_openssl(const unsigned char *sig, const unsigned char *m, unsigned long long m_len, const unsigned char *pk)
{
    EVP_PKEY *key = EVP_PKEY_new_raw_public_key(EVP_PKEY_ED25519, NULL, pk, 32);
    EVP_MD_CTX *context = EVP_MD_CTX_new();
    const int is_valid = key != NULL && context != NULL && EVP_DigestVerifyInit(context, NULL, NULL, NULL, key) == 1
                         && EVP_DigestVerify(context, sig, 64, m, (size_t) m_len) == 1;

    EVP_MD_CTX_free(context);
    EVP_PKEY_free(key);
    return is_valid ? 0 : -1;
}

/* Decodes a word of hexadecimal digits. Returns 0 if it is invalid or too long. */
static int decode(const char *digits, struct file *file)
{
    const size_t len = digits == NULL ? 0 : strlen(digits);

    file->len = 0;
    if (len != 0 && strcmp(digits, "-") == 0) {
        return 1;
    }
    return len != 0 && sodium_hex2bin(file->bytes, sizeof file->bytes, digits, len, NULL, &file->len, NULL) == 0
           && len == 2 * file->len;
}

static enum minisign_answer answer_of(int status)
{
    return status == 0 ? MINISIGN_ANSWER_YES : MINISIGN_ANSWER_NO;
}

/* Verifies the files as an application does. A legacy signature signs the data itself. */
static enum minisign_error verify_files(const minisign_public_key *key, const minisign_signature *signature,
                                        verify_detached *verify)
{
    uint8_t message[MESSAGE_BYTES];
    minisign_questions questions;
    minisign_state state;
    enum minisign_error error;

    minisign_init(&state);
    error = minisign_ask(&state, key, signature, signature_file.bytes, signature_file.len, 1, &questions, message, sizeof message);
    if (error == MINISIGN_OK) {
        error = minisign_update(&state, data.bytes, data.len);
    }
    if (error == MINISIGN_OK) {
        error = minisign_digest(&state, questions.digest);
    }
    if (error != MINISIGN_OK) {
        return error;
    }
    return minisign_verdict(&state, answer_of(verify(questions.signature, data.bytes, data.len, questions.public_key)),
                            answer_of(verify(questions.comment_signature, message, questions.message_len, questions.public_key)));
}

/* Prints the result for a line. Returns 0 if the line is invalid or the signature is not a legacy one. */
static int print_result(char *line, verify_detached *verify)
{
    minisign_public_key key;
    minisign_signature signature;

    memset(&signature, 0, sizeof signature);
    if (!decode(strtok(line, " \n"), &key_file) || !decode(strtok(NULL, " \n"), &data)
        || !decode(strtok(NULL, " \n"), &signature_file)
        || minisign_read_public_key(key_file.bytes, key_file.len, &key) != MINISIGN_OK
        || minisign_read_signature(signature_file.bytes, signature_file.len, &signature) != MINISIGN_OK || !signature.legacy) {
        return 0;
    }
    printf("%d %d\n", (int) verify_files(&key, &signature, verify),
           verify(signature.signature, data.bytes, data.len, key.key) == 0);
    return 1;
}

int main(int argc, char **argv)
{
    static char line[4 * MAX_BYTES];
    verify_detached *verify = argc == 2 && strcmp(argv[1], "openssl") == 0     ? verify_by_openssl
                              : argc == 2 && strcmp(argv[1], "libsodium") == 0 ? crypto_sign_verify_detached
                                                                               : NULL;

    if (verify == NULL || sodium_init() < 0) {
        return 2;
    }
    while (fgets(line, sizeof line, stdin) != NULL) {
        if (!print_result(line, verify)) {
            return 1;
        }
    }
    return ferror(stdin) || fflush(stdout) != 0;
}
