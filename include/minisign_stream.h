/*
 * minisign_stream.h: verifies and signs data that arrives in pieces.
 *
 * Verifying takes three calls, and so does signing: start, feed and finish. After the first error the later calls do
 * nothing, and finish returns that error. So of these calls you only have to check finish. Also check, as the example
 * does, that reading the data did not fail.
 *
 *     static minisign_verifier verifier;
 *     const char *comment;
 *
 *     minisign_verify_start(&verifier, key, key_len, sig, sig_len, crypto_sign_verify_detached);
 *     while ((len = fread(piece, 1, sizeof piece, file)) > 0) {
 *         minisign_verify_feed(&verifier, piece, len);
 *     }
 *     if (ferror(file) || minisign_verify_finish(&verifier, &comment, NULL) != MINISIGN_OK) {
 *         reject();
 *     }
 *
 * The calls are inline functions that use those of minisign.h, and the "Requirements" there apply, with one exception:
 * from start to finish, these calls keep pointers. A minisign_signer keeps the pointer to your secret key, or the
 * context of your signing function. A minisign_signer and a minisign_verifier both keep the pointers to your
 * functions. You pass the functions of your Ed25519 library: crypto_sign_verify_detached and crypto_sign_detached of
 * libsodium, or functions of the same types. No call allocates, except minisign_sign_finish and
 * minisign_signature_file.
 *
 * SPDX-License-Identifier: MIT
 */
#ifndef MINISIGN_STREAM_H
#define MINISIGN_STREAM_H

#include <string.h>

#include "minisign.h"

/* The longest trusted comment that these calls accept, in bytes. It is the longest that Minisign 0.11 reads. */
#define MINISIGN_STREAM_COMMENT_BYTES 8173

/*
 * Verifies an Ed25519 signature. Returns 0 if it is valid, any other number if not.
 *
 * The function need not reject a public key or a point R (the first 32 bytes of sig) of small order, a public key or
 * R that is not canonically encoded, or a number S (the last 32 bytes of sig) that is not below the group order.
 * minisign_ask rejects all three before these calls use the function, and finish then returns MINISIGN_WEAK_ED25519.
 * "Ed25519" under "Requirements" in minisign.h says more.
 */
typedef int minisign_verify_detached(const unsigned char *sig, const unsigned char *m, unsigned long long m_len,
                                     const unsigned char *pk);

/* Signs with the 64 bytes of a secret key. Returns 0 on success. minisign_sign_finish passes NULL as sig_len. */
typedef int minisign_sign_detached(unsigned char *sig, unsigned long long *sig_len, const unsigned char *m,
                                   unsigned long long m_len, const unsigned char *sk);

/* Signs len bytes with a key that this program does not hold, such as that of a token or an agent. Returns 0 on
 * success. context is the pointer that was passed with the function. */
typedef int minisign_sign_elsewhere(void *context, uint8_t sig[64], const uint8_t *m, size_t len);

/* Returns from the calling function if the call fails. */
#define MINISIGN_TRY(call) do { enum minisign_error error_ = (call); if (error_ != MINISIGN_OK) { return error_; } } while (0)

/* ---- Verifying ---- */

/* One verification. It has a fixed size of about 9 KiB, and keeps no pointer to the key, the signature file or the
 * data. Its fields are private. */
typedef struct minisign_verifier {
    enum minisign_error error;
    minisign_verify_detached *verify;
    minisign_state state;
    minisign_questions questions;
    /* The message of the comment signature: 64 bytes, then the trusted comment. A 0 byte follows the message. */
    uint8_t message[64 + MINISIGN_STREAM_COMMENT_BYTES + 1];
} minisign_verifier;

static inline enum minisign_error minisign_verify_start_(minisign_verifier *verifier, const void *key, size_t key_len,
                                                         const void *sig, size_t sig_len)
{
    const uint8_t *key_text = (const uint8_t *) key, *sig_text = (const uint8_t *) sig;
    minisign_public_key public_key;
    minisign_signature signature;

    memset(&public_key, 0, sizeof public_key);
    memset(&signature, 0, sizeof signature);
    if (key_len != 0 && memchr(key, '\n', key_len) != NULL) {
        MINISIGN_TRY(minisign_read_public_key(key_text, key_len, &public_key));
    } else {
        MINISIGN_TRY(minisign_read_bare_public_key(key_text, key_len, &public_key));
    }
    MINISIGN_TRY(minisign_read_signature(sig_text, sig_len, &signature));
    return minisign_ask(&verifier->state, &public_key, &signature, sig_text, sig_len, 0, &verifier->questions,
                        verifier->message, sizeof verifier->message - 1);
}

/*
 * Starts a verification. key is a public key: both lines of a file such as minisign.pub, or only the 56 characters of
 * its second line, without a line feed. If key contains a line feed, it is read as a file. sig is the whole signature
 * file. You may free both when the call has returned. Legacy signatures, which are over the data itself and not over
 * its hash, are rejected.
 *
 * minisign_verify_finish returns the errors in the public key and in the signature file. They are, in this order:
 * those of minisign_read_public_key or minisign_read_bare_public_key, those of minisign_read_signature, and those of
 * minisign_ask. MINISIGN_NO_ROOM means that the trusted comment is longer than MINISIGN_STREAM_COMMENT_BYTES. Since
 * 0.3.
 */
static inline void minisign_verify_start(minisign_verifier *verifier, const void *key, size_t key_len, const void *sig,
                                         size_t sig_len, minisign_verify_detached *verify)
{
    memset(verifier, 0, sizeof *verifier);
    verifier->verify = verify;
    minisign_init(&verifier->state);
    verifier->error = minisign_verify_start_(verifier, key, key_len, sig, sig_len);
}

/* Hashes the next len bytes of the data. A piece may have any length; 64 KiB and more are fastest. Since 0.3. */
static inline void minisign_verify_feed(minisign_verifier *verifier, const void *data, size_t len)
{
    if (verifier->error == MINISIGN_OK) {
        verifier->error = minisign_update(&verifier->state, (const uint8_t *) data, len);
    }
}

static inline enum minisign_error minisign_verify_finish_(minisign_verifier *verifier)
{
    static const enum minisign_answer answers[2] = { MINISIGN_ANSWER_YES, MINISIGN_ANSWER_NO };
    minisign_questions *q = &verifier->questions;

    MINISIGN_TRY(verifier->error);
    MINISIGN_TRY(minisign_digest(&verifier->state, q->digest));
    return minisign_verdict(
        &verifier->state,
        answers[verifier->verify(q->signature, q->digest, sizeof q->digest, q->public_key) != 0],
        answers[verifier->verify(q->comment_signature, verifier->message, q->message_len, q->public_key) != 0]);
}

/*
 * Finishes a verification. Returns MINISIGN_OK exactly if the signature file is a valid signature of all the data that
 * was fed, under this key. Otherwise returns the first error: that of an earlier call, or MINISIGN_SIGNATURE_REFUSED
 * or MINISIGN_COMMENT_SIGNATURE_REFUSED. Called again, it returns MINISIGN_NOT_BEGUN after success, and the same error
 * after an error.
 *
 * On success *trusted_comment points to the verified trusted comment, and *trusted_comment_len is its length. A 0 byte
 * follows the comment. The comment is part of *verifier, so it is valid as long as *verifier is not changed. After an
 * error they are NULL and 0. Both pointers may be NULL. Since 0.3.
 */
MINISIGN_MUST_USE static inline enum minisign_error minisign_verify_finish(
    minisign_verifier *verifier, const char **trusted_comment, size_t *trusted_comment_len)
{
    enum minisign_error error = minisign_verify_finish_(verifier);
    const int is_valid = error == MINISIGN_OK;

    verifier->error = is_valid ? MINISIGN_NOT_BEGUN : error;
    if (trusted_comment != NULL) {
        *trusted_comment = is_valid ? (const char *) verifier->message + verifier->questions.comment_offset : NULL;
    }
    if (trusted_comment_len != NULL) {
        *trusted_comment_len = is_valid ? (size_t) verifier->questions.comment_len : 0;
    }
    return error;
}

/* ---- Signing ---- */

/* The state of signing one file. Its fields are private. It contains no secret, but a pointer to the secret key, or to
 * the context of the signing function. */
typedef struct minisign_signer {
    enum minisign_error error;
    minisign_public_key public_key;
    const minisign_secret_key *secret_key; /* NULL if the signatures are made elsewhere */
    minisign_sign_detached *sign;
    minisign_sign_elsewhere *sign_elsewhere;
    void *context;
    minisign_verify_detached *verify;
    minisign_state state;
    uint8_t message[64 + MINISIGN_STREAM_COMMENT_BYTES];
} minisign_signer;

/* Starts signing with an opened secret key. sign makes both signatures with it. minisign_sign_finish then verifies
 * them under the public half of the key with verify, and returns no signature file if they are not valid: an invalid
 * signature, as from a damaged key, may reveal the secret key. Do not change or clear the key until
 * minisign_sign_finish has returned. Since 0.3. */
static inline void minisign_sign_start(minisign_signer *signer, const minisign_secret_key *key,
                                       minisign_sign_detached *sign, minisign_verify_detached *verify)
{
    memset(signer, 0, sizeof *signer);
    signer->secret_key = key;
    signer->sign = sign;
    signer->verify = verify;
    minisign_init(&signer->state);
    signer->error = minisign_public_key_of(key, &signer->public_key);
}

/* Starts signing with a key that this program does not hold. minisign_sign_finish calls sign twice, with this context.
 * sign has to sign with the secret key that belongs to key, the public key. minisign_sign_finish verifies both
 * signatures under key with verify, as after minisign_sign_start. Since 0.3. */
static inline void minisign_sign_start_elsewhere(minisign_signer *signer, const minisign_public_key *key,
                                                 minisign_sign_elsewhere *sign, void *context,
                                                 minisign_verify_detached *verify)
{
    memset(signer, 0, sizeof *signer);
    signer->public_key = *key;
    signer->sign_elsewhere = sign;
    signer->context = context;
    signer->verify = verify;
    minisign_init(&signer->state);
    signer->error = MINISIGN_OK;
}

/* Hashes the next len bytes of the data. A piece may have any length; 64 KiB and more are fastest. Since 0.3. */
static inline void minisign_sign_feed(minisign_signer *signer, const void *data, size_t len)
{
    if (signer->error == MINISIGN_OK) {
        signer->error = minisign_update(&signer->state, (const uint8_t *) data, len);
    }
}

static inline enum minisign_error minisign_signature_file_(
    const minisign_state *fed, const minisign_public_key *key, const minisign_signed_parts *parts,
    minisign_verify_detached *verify, uint8_t *message, uint8_t *text, size_t text_size, size_t *text_len)
{
    static const enum minisign_answer answers[2] = { MINISIGN_ANSWER_YES, MINISIGN_ANSWER_NO };
    minisign_state state = *fed;
    minisign_signature signature;
    minisign_questions q;

    memset(&signature, 0, sizeof signature);
    MINISIGN_TRY(minisign_signed_text(key, parts, text, text_size, text_len));
    MINISIGN_TRY(minisign_read_signature(text, *text_len, &signature));
    MINISIGN_TRY(minisign_ask(&state, key, &signature, text, *text_len, 0, &q, message, 64 + MINISIGN_STREAM_COMMENT_BYTES));
    MINISIGN_TRY(minisign_digest(&state, q.digest));
    return minisign_verdict(&state, answers[verify(q.signature, q.digest, sizeof q.digest, q.public_key) != 0],
                            answers[verify(q.comment_signature, message, q.message_len, q.public_key) != 0]);
}

/*
 * Writes the signature file for a public key and two signatures, and verifies it before it returns. The signatures may
 * come from a token, an agent or another machine: this program needs no secret key. *fed is a state to which you fed
 * all of the data: initialize it with minisign_init and pass the data to minisign_update. Do not call minisign_digest
 * on it; to get the digest that is to be signed, call minisign_digest on a copy of the state. *fed is unchanged.
 * verify is called for both signatures, under key. parts has both signatures and both comments. The file is written to
 * text, a buffer of text_size bytes, and its length to text_len. MINISIGN_TEXT_BYTES is a size that is enough.
 *
 * After an error *text_len is 0, and text holds nothing of the signatures: an invalid signature may reveal the secret
 * key. The errors, in this order: those of minisign_signed_text, those of minisign_ask, then
 * MINISIGN_SIGNATURE_REFUSED and MINISIGN_COMMENT_SIGNATURE_REFUSED, if verify does not accept the signature of the
 * data or that of the comment. Since 0.3.
 */
MINISIGN_MUST_USE static inline enum minisign_error minisign_signature_file(
    const minisign_state *fed, const minisign_public_key *key, const minisign_signed_parts *parts,
    minisign_verify_detached *verify, uint8_t *text, size_t text_size, size_t *text_len)
{
    uint8_t message[64 + MINISIGN_STREAM_COMMENT_BYTES];
    enum minisign_error error;

    *text_len = 0;
    error = minisign_signature_file_(fed, key, parts, verify, message, text, text_size, text_len);
    if (error != MINISIGN_OK) {
        memset(text, 0, *text_len);
        *text_len = 0;
    }
    return error;
}

static inline enum minisign_error minisign_sign_message_(minisign_signer *signer, uint8_t *sig, const uint8_t *m, size_t len)
{
    const int status = signer->sign_elsewhere != NULL ? signer->sign_elsewhere(signer->context, sig, m, len)
                                                      : signer->sign(sig, NULL, m, len, signer->secret_key->secret);

    return status == 0 ? MINISIGN_OK : MINISIGN_SIGNATURE_REFUSED;
}

static inline enum minisign_error minisign_sign_finish_(minisign_signer *signer, minisign_signed_parts *parts, uint8_t *text,
                                                        size_t text_size, size_t *text_len)
{
    minisign_state state = signer->state;
    uint8_t digest[64];

    MINISIGN_TRY(signer->error);
    MINISIGN_TRY(minisign_digest(&state, digest));
    if (parts->trusted_comment_len > MINISIGN_STREAM_COMMENT_BYTES) {
        return MINISIGN_UNREADABLE_COMMENT;
    }
    MINISIGN_TRY(minisign_sign_message_(signer, parts->signature, digest, sizeof digest));
    MINISIGN_TRY(minisign_comment_message(parts->signature, parts->trusted_comment, parts->trusted_comment_len,
                                          signer->message, sizeof signer->message));
    MINISIGN_TRY(minisign_sign_message_(signer, parts->comment_signature, signer->message, 64 + parts->trusted_comment_len));
    return minisign_signature_file(&signer->state, &signer->public_key, parts, signer->verify, text, text_size, text_len);
}

/*
 * Signs the data that was fed, and writes the signature file and verifies it as minisign_signature_file does. parts
 * has both comments; the call writes both signatures to it. Called again, it returns MINISIGN_NOT_BEGUN after success,
 * and the same error after an error.
 *
 * After an error *text_len is 0, and text and parts contain no signature. The errors, in this order: the first error
 * of start and feed; MINISIGN_UNREADABLE_COMMENT, for a trusted comment longer than MINISIGN_STREAM_COMMENT_BYTES;
 * MINISIGN_SIGNATURE_REFUSED, if the signing function fails; those of minisign_signature_file, which rejects the
 * signatures of a damaged key. So MINISIGN_SIGNATURE_REFUSED means either that nothing was signed or that the
 * signature is not valid. Since 0.3.
 */
MINISIGN_MUST_USE static inline enum minisign_error minisign_sign_finish(
    minisign_signer *signer, minisign_signed_parts *parts, uint8_t *text, size_t text_size, size_t *text_len)
{
    enum minisign_error error;

    *text_len = 0;
    error = minisign_sign_finish_(signer, parts, text, text_size, text_len);
    if (error != MINISIGN_OK) {
        memset(parts->signature, 0, sizeof parts->signature);
        memset(parts->comment_signature, 0, sizeof parts->comment_signature);
    }
    signer->error = error == MINISIGN_OK ? MINISIGN_NOT_BEGUN : error;
    return error;
}

#undef MINISIGN_TRY
#endif
