// Verifies a file from C++. installed.py compiles this program with the installed header and pkg-config's flags, to check
// that the header can be used from C++.
//
//     installed_verify PUBLIC_KEY DATA SIGNATURE
//
// Like c/examples/verify.c: if the signature is valid, prints the trusted comment and exits with status 0. Otherwise
// prints an error and exits with status 1. The library does not contain Ed25519: minisign_ask returns two signatures to
// check (minisign_questions), the program checks them with libsodium, and passes the two results to minisign_verdict.
#include <cstdio>
#include <fstream>
#include <iterator>
#include <string>

#include <sodium.h>

#include <minisign.h>

namespace {

const std::uint8_t *bytes(const std::string &text)
{
    return reinterpret_cast<const std::uint8_t *>(text.data());
}

bool read(const char *name, std::string &text)
{
    std::ifstream file(name, std::ios::binary);
    text.assign(std::istreambuf_iterator<char>(file), std::istreambuf_iterator<char>());
    return file.good() || file.eof();
}

// Returns the result of one check with Ed25519, for minisign_verdict.
minisign_answer answer(const std::uint8_t *signature, const std::uint8_t *message, std::size_t len, const std::uint8_t *key)
{
    return crypto_sign_verify_detached(signature, message, len, key) == 0 ? MINISIGN_ANSWER_YES : MINISIGN_ANSWER_NO;
}

}

int main(int argc, char **argv)
{
    std::string key, data, signature, message;
    minisign_public_key pk;
    minisign_signature read_signature;
    minisign_state state;
    minisign_questions q;

    if (argc != 4 || sodium_init() < 0) {
        std::fputs("usage: installed_verify PUBLIC_KEY DATA SIGNATURE\n", stderr);
        return 1;
    }
    if (!read(argv[1], key) || !read(argv[2], data) || !read(argv[3], signature)) {
        std::fputs("a file cannot be read\n", stderr);
        return 1;
    }
    message.resize(signature.size());
    minisign_init(&state);
    minisign_error error = minisign_read_public_key(bytes(key), key.size(), &pk);
    if (error == MINISIGN_OK) {
        error = minisign_read_signature(bytes(signature), signature.size(), &read_signature);
    }
    if (error == MINISIGN_OK) {
        const std::uint32_t allow_legacy = 0;

        error = minisign_ask(&state, &pk, &read_signature, bytes(signature), signature.size(), allow_legacy, &q,
                             reinterpret_cast<std::uint8_t *>(&message[0]), message.size());
    }
    if (error == MINISIGN_OK) {
        error = minisign_update(&state, bytes(data), data.size());
    }
    if (error == MINISIGN_OK) {
        error = minisign_digest(&state, q.digest);
    }
    if (error == MINISIGN_OK) {
        error = minisign_verdict(&state, answer(q.signature, q.digest, sizeof q.digest, q.public_key),
                                 answer(q.comment_signature, bytes(message), q.message_len, q.public_key));
    }
    if (error != MINISIGN_OK) {
        char error_text[MINISIGN_ERROR_TEXT_BYTES];
        minisign_error_text(error, error_text, sizeof error_text);
        std::fprintf(stderr, "%s\n", error_text);
        return 1;
    }
    std::printf("%.*s\n", static_cast<int>(q.comment_len), message.data() + q.comment_offset);
    return 0;
}
