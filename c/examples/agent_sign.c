// SPDX-License-Identifier: MIT
// Signs a file with a key that an ssh-agent holds. The secret key never enters this program. A token or a signing
// service is used in the same way.
//
//     agent_sign PUBLIC_KEY DATA SIGNATURE TRUSTED_COMMENT
//
// The signature file is written after the signature was verified under the public key.
#include <stdio.h>
#include <stdlib.h>
#include <string.h>
#include <sys/socket.h>
#include <sys/un.h>
#include <unistd.h>

#include <sodium.h>

#include <minisign_stream.h>

// Message numbers of the ssh-agent protocol (draft-miller-ssh-agent, section 5.1).
enum { SIGN_REQUEST = 13, SIGN_RESPONSE = 14 };

// The maximum size of a key file, a signature file, a piece of the data, and a message that the agent signs.
enum { TEXT_BYTES = 65536 };

static const char ALGORITHM[] = "ssh-ed25519";
static const char UNTRUSTED_COMMENT[] = "signature from an ssh-agent";

static void fail(const char *error_text)
{
    fprintf(stderr, "agent_sign: %s\n", error_text);
    exit(1);
}

static void expect(enum minisign_error error)
{
    if (error != MINISIGN_OK) {
        char error_text[MINISIGN_ERROR_TEXT_BYTES];

        minisign_error_text(error, error_text, sizeof error_text);
        fail(error_text);
    }
}

// A connection to an agent, and the public key to sign with.
struct agent {
    int socket;
    uint8_t public_key[32];
};

static void connect_to_agent(struct agent *agent)
{
    struct sockaddr_un address = { .sun_family = AF_UNIX };
    const char *path = getenv("SSH_AUTH_SOCK");

    if (path == NULL || strlen(path) >= sizeof address.sun_path) {
        fail("SSH_AUTH_SOCK does not name the socket of an agent");
    }
    strcpy(address.sun_path, path);
    agent->socket = socket(AF_UNIX, SOCK_STREAM, 0);
    if (agent->socket < 0 || connect(agent->socket, (struct sockaddr *) &address, sizeof address) != 0) {
        fail("the agent cannot be reached");
    }
}

// Appends a number or a string as the SSH protocol encodes them (RFC 4251, section 5). Returns the new end.
static uint8_t *put_number(uint8_t *to, size_t number)
{
    for (int shift = 24; shift >= 0; shift -= 8) {
        *to++ = (uint8_t) (number >> shift);
    }
    return to;
}

static uint8_t *put_string(uint8_t *to, const void *bytes, size_t len)
{
    to = put_number(to, len);
    memcpy(to, bytes, len);
    return to + len;
}

static int write_all(int file, const uint8_t *bytes, size_t len)
{
    while (len > 0) {
        ssize_t count = write(file, bytes, len);

        if (count <= 0) {
            return -1;
        }
        bytes += count;
        len -= (size_t) count;
    }
    return 0;
}

static int read_all(int file, uint8_t *to, size_t len)
{
    while (len > 0) {
        ssize_t count = read(file, to, len);

        if (count <= 0) {
            return -1;
        }
        to += count;
        len -= (size_t) count;
    }
    return 0;
}

// Asks the agent to sign `len` bytes. Returns 0 on success, as minisign_sign_elsewhere requires.
static int sign_by_agent(void *context, uint8_t sig[64], const uint8_t *message, size_t len)
{
    const struct agent *agent = context;
    uint8_t key[4 + sizeof ALGORITHM - 1 + 4 + 32], expected[4 + 1 + 4 + 4 + sizeof ALGORITHM - 1 + 4];
    uint8_t response[sizeof expected + 64], request[128 + TEXT_BYTES], *end = request + 4, *expected_end;

    if (len > TEXT_BYTES) {
        return -1;
    }
    put_string(put_string(key, ALGORITHM, sizeof ALGORITHM - 1), agent->public_key, sizeof agent->public_key);
    *end++ = SIGN_REQUEST;
    end = put_string(put_string(end, key, sizeof key), message, len);
    end = put_number(end, 0); // no flags
    put_number(request, (size_t) (end - request) - 4);
    if (write_all(agent->socket, request, (size_t) (end - request)) != 0) {
        return -1;
    }
    // The response to a successful request begins with: its length, SIGN_RESPONSE, the length of the signature with its
    // algorithm, the algorithm, and the length of the Ed25519 signature, 64. If the agent does not hold the key, or its
    // user refuses, the response has fewer bytes, so the length is checked before more is read.
    expected_end = put_number(expected, sizeof response - 4);
    *expected_end++ = SIGN_RESPONSE;
    expected_end = put_number(expected_end, sizeof response - 4 - 1 - 4);
    expected_end = put_string(expected_end, ALGORITHM, sizeof ALGORITHM - 1);
    put_number(expected_end, 64);
    if (read_all(agent->socket, response, 4) != 0 || memcmp(response, expected, 4) != 0
        || read_all(agent->socket, response + 4, sizeof response - 4) != 0
        || memcmp(response, expected, sizeof expected) != 0) {
        return -1;
    }
    memcpy(sig, response + sizeof expected, 64);
    return 0;
}

static FILE *open_file(const char *name, const char *mode)
{
    FILE *file = fopen(name, mode);

    if (file == NULL) {
        fail("a file cannot be opened");
    }
    return file;
}

// Reads the next TEXT_BYTES bytes of a file, or what is left of it.
static size_t read_piece(FILE *file, uint8_t *to)
{
    size_t len = fread(to, 1, TEXT_BYTES, file);

    if (ferror(file)) {
        fail("a file cannot be read");
    }
    return len;
}

int main(int argc, char **argv)
{
    static minisign_signer signer;
    static uint8_t text[TEXT_BYTES];
    minisign_signed_parts parts = { .untrusted_comment = (const uint8_t *) UNTRUSTED_COMMENT,
                                    .untrusted_comment_len = sizeof UNTRUSTED_COMMENT - 1 };
    minisign_public_key key = { 0 };
    struct agent agent;
    size_t len;
    FILE *file;

    if (argc != 5) {
        fail("usage: agent_sign PUBLIC_KEY DATA SIGNATURE TRUSTED_COMMENT");
    }
    if (sodium_init() < 0) {
        fail("libsodium cannot be initialized");
    }
    expect(minisign_read_public_key(text, read_piece(open_file(argv[1], "rb"), text), &key));
    memcpy(agent.public_key, key.key, sizeof agent.public_key);
    connect_to_agent(&agent);
    minisign_sign_start_elsewhere(&signer, &key, sign_by_agent, &agent, crypto_sign_verify_detached);
    file = open_file(argv[2], "rb");
    while ((len = read_piece(file, text)) > 0) {
        minisign_sign_feed(&signer, text, len);
    }
    parts.trusted_comment = (const uint8_t *) argv[4];
    parts.trusted_comment_len = strlen(argv[4]);
    expect(minisign_sign_finish(&signer, &parts, text, sizeof text, &len));
    file = open_file(argv[3], "wb");
    if (fwrite(text, 1, len, file) != len || fclose(file) != 0) {
        fail("the signature cannot be written");
    }
    return 0;
}
