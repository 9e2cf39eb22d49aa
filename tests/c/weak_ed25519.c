/*
 * Checks that minisign_ask rejects weak and malformed Ed25519 inputs with MINISIGN_WEAK_ED25519: a public key, or an R in
 * either signature, that is a point of small order or not canonically encoded, and an S that is not below the group order.
 * libsodium 1.0.18 rejects the same points. This error is reported after all others, and changes nothing.
 */
#include "texts_for_tests.h"

static minisign_questions questions;
static uint8_t message[MESSAGE_LEN];

/* The arguments of minisign_ask. Each case changes one of the arguments for the published signature. */
struct arguments {
    minisign_public_key key;
    minisign_signature signature;
    const char *text;
    uint32_t allow_legacy;
    size_t message_size;
};

static struct arguments published_arguments(void)
{
    return (struct arguments) { key_of(KEY), signature_of(SIGNATURE), SIGNATURE, 0, sizeof message };
}

/* Calls minisign_ask with a new state. Checks that an error leaves the state, the questions and the message unchanged. */
static enum minisign_error ask(const struct arguments *arguments)
{
    minisign_state state = state_with("test"), before = state;
    uint8_t untouched[sizeof questions];
    enum minisign_error error;

    memset(untouched, 0xaa, sizeof untouched);
    memset(&questions, 0xaa, sizeof questions);
    memset(message, 0xaa, sizeof message);
    error = minisign_ask(&state, &arguments->key, &arguments->signature, bytes_of(arguments->text),
                         strlen(arguments->text), arguments->allow_legacy, &questions, message, arguments->message_size);
    if (error != MINISIGN_OK) {
        CHECK(memcmp(&state, &before, sizeof state) == 0 && memcmp(&questions, untouched, sizeof questions) == 0);
        CHECK(memcmp(message, untouched, sizeof message) == 0);
    }
    return error;
}

/* Decodes 64 hexadecimal digits to 32 bytes. */
static void decode_hex(uint8_t *to, const char *digits)
{
    for (size_t i = 0; i < 32; i++) {
        unsigned byte = 0;

        CHECK(sscanf(digits + 2 * i, "%2x", &byte) == 1);
        to[i] = (uint8_t) byte;
    }
}

/* Uses each point as the public key, and as the R of each signature. */
static void rejects_weak_points(void)
{
    static const struct {
        const char *digits;
        enum minisign_error error;
    } cases[] = {
        { "0000000000000000000000000000000000000000000000000000000000000000", MINISIGN_WEAK_ED25519 }, /* order 4 */
        { "0000000000000000000000000000000000000000000000000000000000000080", MINISIGN_WEAK_ED25519 },
        { "0100000000000000000000000000000000000000000000000000000000000000", MINISIGN_WEAK_ED25519 }, /* order 1 */
        { "0100000000000000000000000000000000000000000000000000000000000080", MINISIGN_WEAK_ED25519 },
        { "ecffffffffffffffffffffffffffffffffffffffffffffffffffffffffffff7f", MINISIGN_WEAK_ED25519 }, /* order 2 */
        { "ecffffffffffffffffffffffffffffffffffffffffffffffffffffffffffffff", MINISIGN_WEAK_ED25519 },
        { "26e8958fc2b227b045c3f489f2ef98f0d5dfac05d3c63339b13802886d53fc05", MINISIGN_WEAK_ED25519 }, /* order 8 */
        { "26e8958fc2b227b045c3f489f2ef98f0d5dfac05d3c63339b13802886d53fc85", MINISIGN_WEAK_ED25519 },
        { "c7176a703d4dd84fba3c0b760d10670f2a2053fa2c39ccc64ec7fd7792ac037a", MINISIGN_WEAK_ED25519 },
        { "c7176a703d4dd84fba3c0b760d10670f2a2053fa2c39ccc64ec7fd7792ac03fa", MINISIGN_WEAK_ED25519 },
        { "edffffffffffffffffffffffffffffffffffffffffffffffffffffffffffff7f", MINISIGN_WEAK_ED25519 }, /* the prime */
        { "eeffffffffffffffffffffffffffffffffffffffffffffffffffffffffffff7f", MINISIGN_WEAK_ED25519 },
        { "efffffffffffffffffffffffffffffffffffffffffffffffffffffffffffffff", MINISIGN_WEAK_ED25519 },
        { "ffffffffffffffffffffffffffffffffffffffffffffffffffffffffffffffff", MINISIGN_WEAK_ED25519 },
        { "ebffffffffffffffffffffffffffffffffffffffffffffffffffffffffffff7f", MINISIGN_OK },
        { "0200000000000000000000000000000000000000000000000000000000000000", MINISIGN_OK },
        { "d75a980182b10ab7d54bfed3c964073a0ee172f3daa62325af021a68f707511a", MINISIGN_OK }, /* RFC 8032, 7.1, test 1 */
    };

    for (size_t i = 0; i < sizeof cases / sizeof cases[0]; i++) {
        struct arguments key = published_arguments(), first = published_arguments(), second = published_arguments(),
                         truncated = published_arguments();

        decode_hex(key.key.key, cases[i].digits);
        decode_hex(first.signature.signature, cases[i].digits);
        decode_hex(second.signature.comment_signature, cases[i].digits);
        decode_hex(truncated.signature.comment_signature, cases[i].digits);
        truncated.signature.whole = 0;
        check(ask(&key) == cases[i].error, "%s as the key: expected error %u", cases[i].digits, cases[i].error);
        check(ask(&first) == cases[i].error, "%s in the signature: expected error %u", cases[i].digits, cases[i].error);
        check(ask(&second) == cases[i].error, "%s in the comment signature: expected error %u", cases[i].digits,
              cases[i].error);
        check(ask(&truncated) == MINISIGN_OK, "%s: a comment signature of fewer than 64 bytes", cases[i].digits);
    }
}

/* Uses each number as the S of each signature. */
static void rejects_large_s(void)
{
    static const struct {
        const char *digits;
        enum minisign_error error;
    } cases[] = {
        { "0000000000000000000000000000000000000000000000000000000000000000", MINISIGN_OK },
        { "ecd3f55c1a631258d69cf7a2def9de1400000000000000000000000000000010", MINISIGN_OK },
        { "edd3f55c1a631258d69cf7a2def9de1400000000000000000000000000000010", MINISIGN_WEAK_ED25519 }, /* the order */
        { "eed3f55c1a631258d69cf7a2def9de1400000000000000000000000000000010", MINISIGN_WEAK_ED25519 },
        { "0000000000000000000000000000000000000000000000000000000000000011", MINISIGN_WEAK_ED25519 },
        { "0000000000000000000000000000000000000000000000000000000000000080", MINISIGN_WEAK_ED25519 },
        { "ffffffffffffffffffffffffffffffffffffffffffffffffffffffffffffffff", MINISIGN_WEAK_ED25519 },
    };

    for (size_t i = 0; i < sizeof cases / sizeof cases[0]; i++) {
        struct arguments first = published_arguments(), second = published_arguments();

        decode_hex(first.signature.signature + 32, cases[i].digits);
        decode_hex(second.signature.comment_signature + 32, cases[i].digits);
        check(ask(&first) == cases[i].error, "%s in the signature: expected error %u", cases[i].digits, cases[i].error);
        check(ask(&second) == cases[i].error, "%s in the comment signature: expected error %u", cases[i].digits,
              cases[i].error);
    }
}

/* If a key is weak and there is another error, the other error is reported. */
static void reports_other_errors_first(void)
{
    struct arguments weak = published_arguments(), changed;
    minisign_state state;

    memset(weak.key.key, 0, sizeof weak.key.key);
    CHECK(ask(&weak) == MINISIGN_WEAK_ED25519);
    changed = weak, changed.allow_legacy = 2;
    CHECK(ask(&changed) == MINISIGN_BAD_LEGACY_FLAG);
    changed = weak, changed.signature.mark = 0;
    CHECK(ask(&changed) == MINISIGN_SIGNATURE_NOT_READ);
    changed = weak, changed.text = OTHER_KEY_SIGNATURE;
    CHECK(ask(&changed) == MINISIGN_OTHER_SIGNATURE_TEXT);
    changed = weak, changed.key.key_id[0] ^= 1;
    CHECK(ask(&changed) == MINISIGN_DIFFERENT_KEY_IDS);
    changed = weak, changed.signature = signature_of(LEGACY_SIGNATURE), changed.text = LEGACY_SIGNATURE;
    CHECK(ask(&changed) == MINISIGN_LEGACY_NOT_ACCEPTED);
    changed = weak, changed.message_size = sizeof message - 1;
    CHECK(ask(&changed) == MINISIGN_NO_ROOM);

    memset(&state, 0, sizeof state);
    CHECK(minisign_ask(&state, &weak.key, &weak.signature, bytes_of(weak.text), strlen(weak.text), 0, &questions, message,
                       sizeof message) == MINISIGN_NOT_BEGUN);
    state = state_with("test");
    CHECK(minisign_digest(&state, questions.digest) == MINISIGN_OK);
    CHECK(minisign_ask(&state, &weak.key, &weak.signature, bytes_of(weak.text), strlen(weak.text), 0, &questions, message,
                       sizeof message) == MINISIGN_ALREADY_ASKED);
}

/* minisign_ask accepts a comment signature with fewer than 64 bytes; minisign_verdict rejects it. */
static void leaves_short_comment_signature_to_verdict(void)
{
    static const char truncated[] = SIGNATURE_COMMENT RECORD "\ntrusted comment: " COMMENT "\nAAAA\n";
    const minisign_public_key key = key_of(KEY);
    const minisign_signature signature = signature_of(truncated);
    minisign_state state = state_with("test");

    CHECK(signature.whole == 0 && is_zeros(signature.comment_signature, sizeof signature.comment_signature));
    CHECK(minisign_ask(&state, &key, &signature, bytes_of(truncated), sizeof truncated - 1, 0, &questions, message, sizeof message)
          == MINISIGN_OK);
    CHECK(minisign_digest(&state, questions.digest) == MINISIGN_OK);
    CHECK(minisign_verdict(&state, MINISIGN_ANSWER_YES, MINISIGN_ANSWER_YES) == MINISIGN_COMMENT_SIGNATURE_REFUSED);
}

int main(void)
{
    rejects_weak_points();
    rejects_large_s();
    reports_other_errors_first();
    leaves_short_comment_signature_to_verdict();
    return print_summary();
}
