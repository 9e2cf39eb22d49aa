/*
 * Defines the functions of the headers, which call the proved functions of the crate minisign_c. tools/header.py
 * generates the part after minisign_version.
 *
 * Each function does three things:
 *
 * - It replaces a NULL pointer whose length is 0, because the proved functions do not accept NULL.
 * - It chooses a build of the proved function. On x86-64, this is the build for x86-64-v3 if the processor supports it,
 *   otherwise the build for x86-64-v2 if the processor supports that, otherwise the C code of dist/calls.c.
 * - After a call with a secret, it clears what the call has left on the stack and in registers.
 *
 * SPDX-License-Identifier: MIT
 */
#if !defined(MINISIGN_PORTABLE) \
    && (!(defined(__x86_64__) || defined(__aarch64__)) || !defined(__LP64__) || __BYTE_ORDER__ != __ORDER_LITTLE_ENDIAN__)
#error "the archives of dist/ are for x86-64 and AArch64, little-endian and with pointers of 64 bits: build with PORTABLE=1"
#endif

#include <stddef.h>
#include <stdint.h>

#include "clearing.h"
#include "minisign_install.h"
#include "minisign_list.h"

#if defined(MINISIGN_PORTABLE)

#define PROVED(kind, name, parameters) kind portable_##name parameters
#define CALL(name) portable_##name

#elif defined(__x86_64__)

#include <cpuid.h>

/* PROVED declares all builds of a function, and CALL selects one of them. */
#define PROVED(kind, name, parameters) \
    kind v2_##name parameters; kind v3_##name parameters; kind portable_##name parameters
#ifdef MINISIGN_ARCHIVES_ONLY
#define CALL(name) (has_v3 ? v3_##name : v2_##name)
#else
#define CALL(name) (has_v3 ? v3_##name : has_v2 ? v2_##name : portable_##name)
#endif

static int has_v2, has_v3;

/* True if the processor and the system support x86-64-v2 and x86-64-v3. Set once, before main. */
__attribute__((constructor)) static void detect_processor(void)
{
    const unsigned v2_bits = bit_SSE3 | bit_SSSE3 | bit_CMPXCHG16B | bit_SSE4_1 | bit_SSE4_2 | bit_POPCNT;
    const unsigned v3_bits = bit_FMA | bit_MOVBE | bit_OSXSAVE | bit_AVX | bit_F16C;
    const unsigned v3_leaf7_bits = bit_BMI | bit_AVX2 | bit_BMI2;
    unsigned a, b, c, d, extended, xcr0, xcr0_high;

    if (!__get_cpuid(0x80000001, &a, &b, &extended, &d) || !__get_cpuid(1, &a, &b, &c, &d)) {
        return;
    }
    has_v2 = (c & v2_bits) == v2_bits && (extended & bit_LAHF_LM) == bit_LAHF_LM;
    if (!has_v2 || (c & v3_bits) != v3_bits) {
        return;
    }
    /* XCR0, bits 1 and 2: the system saves the SSE and AVX registers. */
    __asm__ __volatile__("xgetbv" : "=a"(xcr0), "=d"(xcr0_high) : "c"(0));
    has_v3 = (xcr0 & 6) == 6 && __get_cpuid_count(7, 0, &a, &b, &c, &d) && (b & v3_leaf7_bits) == v3_leaf7_bits
             && (extended & bit_LZCNT) == bit_LZCNT;
}

#else

#define PROVED(kind, name, parameters) kind aarch64_##name parameters
#define CALL(name) aarch64_##name

#endif

/* The targets of pointers that replace a NULL pointer with length 0. They are never accessed. */
static const uint8_t nothing;
static const uint32_t no_words;
static const minisign_list_entry no_entries;

/* Each macro returns `pointer`, or if it is NULL and `length` is 0, the address of one of the constants above. READ is for bytes
 * that a call reads; WRITTEN, WORDS and ENTRIES are for bytes, 32-bit words and entries of lists that it writes. */
#define READ(pointer, length) ((pointer) == NULL && (length) == 0 ? &nothing : (const uint8_t *) (pointer))
#define WRITTEN(pointer, length) ((pointer) == NULL && (length) == 0 ? (uint8_t *) &nothing : (uint8_t *) (pointer))
#define WORDS(pointer, length) ((pointer) == NULL && (length) == 0 ? (uint32_t *) &no_words : (pointer))
#define ENTRIES(pointer, length) ((pointer) == NULL && (length) == 0 ? (minisign_list_entry *) &no_entries : (pointer))

uint32_t minisign_version(void)
{
    return MINISIGN_VERSION;
}

PROVED(size_t, minisign_error_text, (uint32_t, uint8_t *, size_t));

size_t minisign_error_text(uint32_t error, char *text, size_t room)
{
    return CALL(minisign_error_text)(error, WRITTEN(text, room), room);
}

PROVED(uint32_t, minisign_error_kind, (uint32_t));

enum minisign_kind minisign_error_kind(uint32_t error)
{
    return (enum minisign_kind) CALL(minisign_error_kind)(error);
}

PROVED(void, minisign_init, (minisign_state *));

void minisign_init(minisign_state *state)
{
    CALL(minisign_init)(state);
}

PROVED(uint32_t, minisign_update, (minisign_state *, const uint8_t *, size_t));

enum minisign_error minisign_update(minisign_state *state, const uint8_t *data, size_t len)
{
    return (enum minisign_error) CALL(minisign_update)(state, READ(data, len), len);
}

PROVED(uint32_t, minisign_digest, (minisign_state *, uint8_t *));

enum minisign_error minisign_digest(minisign_state *state, uint8_t digest[64])
{
    return (enum minisign_error) CALL(minisign_digest)(state, digest);
}

PROVED(void, minisign_clear, (uint8_t *, size_t));

void minisign_clear(void *value, size_t size)
{
    CALL(minisign_clear)(WRITTEN(value, size), size);
}

PROVED(uint32_t, minisign_read_public_key, (const uint8_t *, size_t, minisign_public_key *));

enum minisign_error minisign_read_public_key(const uint8_t *pk_text, size_t pk_text_len, minisign_public_key *key)
{
    return (enum minisign_error) CALL(minisign_read_public_key)(READ(pk_text, pk_text_len), pk_text_len, key);
}

PROVED(uint32_t, minisign_read_bare_public_key, (const uint8_t *, size_t, minisign_public_key *));

enum minisign_error minisign_read_bare_public_key(const uint8_t *base64, size_t base64_len,
                                                  minisign_public_key *key)
{
    return (enum minisign_error) CALL(minisign_read_bare_public_key)(READ(base64, base64_len), base64_len, key);
}

PROVED(uint32_t, minisign_read_public_key_record, (const uint8_t *, size_t, minisign_public_key *));

enum minisign_error minisign_read_public_key_record(const uint8_t *record, size_t record_len,
                                                    minisign_public_key *key)
{
    return (enum minisign_error) CALL(minisign_read_public_key_record)(READ(record, record_len), record_len, key);
}

PROVED(uint32_t, minisign_public_key_record, (const minisign_public_key *, uint8_t *));

enum minisign_error minisign_public_key_record(const minisign_public_key *key, uint8_t record[42])
{
    return (enum minisign_error) CALL(minisign_public_key_record)(key, record);
}

PROVED(uint32_t, minisign_read_signature, (const uint8_t *, size_t, minisign_signature *));

enum minisign_error minisign_read_signature(const uint8_t *sig_text, size_t sig_text_len,
                                            minisign_signature *signature)
{
    return (enum minisign_error) CALL(minisign_read_signature)(READ(sig_text, sig_text_len), sig_text_len,
                                                               signature);
}

PROVED(uint32_t, minisign_read_signature_record, (const uint8_t *, size_t, minisign_signature *));

enum minisign_error minisign_read_signature_record(const uint8_t *record, size_t record_len,
                                                   minisign_signature *signature)
{
    return (enum minisign_error) CALL(minisign_read_signature_record)(READ(record, record_len), record_len,
                                                                      signature);
}

PROVED(uint32_t, minisign_signature_record, (const minisign_signature *, uint8_t *));

enum minisign_error minisign_signature_record(const minisign_signature *signature, uint8_t record[74])
{
    return (enum minisign_error) CALL(minisign_signature_record)(signature, record);
}

PROVED(uint32_t, minisign_ask, (minisign_state *, const minisign_public_key *, const minisign_signature *,
                                const uint8_t *, size_t, uint32_t, minisign_questions *, uint8_t *, size_t));

enum minisign_error minisign_ask(minisign_state *state, const minisign_public_key *key,
                                 const minisign_signature *signature, const uint8_t *sig_text, size_t sig_text_len,
                                 uint32_t allow_legacy, minisign_questions *questions, uint8_t *message,
                                 size_t room)
{
    return (enum minisign_error) CALL(minisign_ask)(state, key, signature, READ(sig_text, sig_text_len),
                                                    sig_text_len, allow_legacy, questions, WRITTEN(message, room),
                                                    room);
}

PROVED(uint32_t, minisign_comment_verdict, (const minisign_state *, uint32_t));

enum minisign_error minisign_comment_verdict(const minisign_state *state, enum minisign_answer second)
{
    return (enum minisign_error) CALL(minisign_comment_verdict)(state, second);
}

PROVED(uint32_t, minisign_verdict, (minisign_state *, uint32_t, uint32_t));

enum minisign_error minisign_verdict(minisign_state *state, enum minisign_answer first,
                                     enum minisign_answer second)
{
    return (enum minisign_error) CALL(minisign_verdict)(state, first, second);
}

PROVED(uint32_t, minisign_ask_bare, (minisign_state *, const minisign_public_key *, const minisign_signature *,
                                     uint32_t, minisign_questions *));

enum minisign_error minisign_ask_bare(minisign_state *state, const minisign_public_key *key,
                                      const minisign_signature *signature, uint32_t allow_legacy,
                                      minisign_questions *questions)
{
    return (enum minisign_error) CALL(minisign_ask_bare)(state, key, signature, allow_legacy, questions);
}

PROVED(uint32_t, minisign_bare_verdict, (minisign_state *, uint32_t));

enum minisign_error minisign_bare_verdict(minisign_state *state, enum minisign_answer first)
{
    return (enum minisign_error) CALL(minisign_bare_verdict)(state, first);
}

PROVED(uint32_t, minisign_read_secret_key, (const uint8_t *, size_t, minisign_unopened_key *));

enum minisign_error minisign_read_secret_key(const uint8_t *sk_text, size_t sk_text_len,
                                             minisign_unopened_key *unopened)
{
    enum minisign_error result;

    result = (enum minisign_error) CALL(minisign_read_secret_key)(READ(sk_text, sk_text_len), sk_text_len,
                                                                  unopened);
    minisign_clear_used();
    return result;
}

PROVED(uint32_t, minisign_read_secret_key_record, (const uint8_t *, size_t, minisign_unopened_key *));

enum minisign_error minisign_read_secret_key_record(const uint8_t *secret_record, size_t secret_record_len,
                                                    minisign_unopened_key *unopened)
{
    enum minisign_error result;

    result = (enum minisign_error) CALL(minisign_read_secret_key_record)(READ(secret_record, secret_record_len),
                                                                         secret_record_len, unopened);
    minisign_clear_used();
    return result;
}

PROVED(uint32_t, minisign_encode_unopened_key, (const minisign_unopened_key *, const uint8_t *, size_t, uint8_t *,
                                                size_t, size_t *));

enum minisign_error minisign_encode_unopened_key(const minisign_unopened_key *unopened, const uint8_t *comment,
                                                 size_t comment_len, uint8_t *text, size_t room, size_t *text_len)
{
    enum minisign_error result;

    result = (enum minisign_error) CALL(minisign_encode_unopened_key)(unopened, READ(comment, comment_len),
                                                                      comment_len, WRITTEN(text, room), room,
                                                                      text_len);
    minisign_clear_used();
    return result;
}

PROVED(uint32_t, minisign_test_sealed_key, (const minisign_unopened_key *, uint64_t));

enum minisign_error minisign_test_sealed_key(const minisign_unopened_key *unopened, uint64_t most_rows)
{
    enum minisign_error result;

    result = (enum minisign_error) CALL(minisign_test_sealed_key)(unopened, most_rows);
    minisign_clear_used();
    return result;
}

PROVED(uint32_t, minisign_open_unsealed_key, (const minisign_unopened_key *, minisign_secret_key *));

enum minisign_error minisign_open_unsealed_key(const minisign_unopened_key *unopened, minisign_secret_key *key)
{
    enum minisign_error result;

    result = (enum minisign_error) CALL(minisign_open_unsealed_key)(unopened, key);
    minisign_clear_used();
    return result;
}

PROVED(uint32_t, minisign_open_sealed_key, (const minisign_unopened_key *, const uint8_t *, size_t, uint64_t,
                                            uint64_t, minisign_secret_key *));

enum minisign_error minisign_open_sealed_key(const minisign_unopened_key *unopened, const uint8_t *password,
                                             size_t password_len, uint64_t keep_every, uint64_t most_rows,
                                             minisign_secret_key *key)
{
    enum minisign_error result;

    result = (enum minisign_error) CALL(minisign_open_sealed_key)(unopened, READ(password, password_len),
                                                                  password_len, keep_every, most_rows, key);
    minisign_clear_used();
    return result;
}

PROVED(void, minisign_opening_memory, (const minisign_unopened_key *, uint64_t, uint64_t, uint64_t *, uint64_t *));

void minisign_opening_memory(const minisign_unopened_key *unopened, uint64_t keep_every, uint64_t most_rows,
                             uint64_t *words_wanted, uint64_t *bytes_wanted)
{
    CALL(minisign_opening_memory)(unopened, keep_every, most_rows, words_wanted, bytes_wanted);
    minisign_clear_used();
}

PROVED(uint32_t, minisign_open_sealed_key_in_place, (const minisign_unopened_key *, const uint8_t *, size_t,
                                                     uint64_t, uint64_t, uint32_t *, size_t, uint8_t *, size_t,
                                                     minisign_secret_key *));

enum minisign_error minisign_open_sealed_key_in_place(const minisign_unopened_key *unopened,
                                                      const uint8_t *password, size_t password_len,
                                                      uint64_t keep_every, uint64_t most_rows, uint32_t *words,
                                                      size_t words_len, uint8_t *bytes, size_t bytes_len,
                                                      minisign_secret_key *key)
{
    enum minisign_error result;

    result = (enum minisign_error) CALL(minisign_open_sealed_key_in_place)(unopened, READ(password, password_len),
                                                                           password_len, keep_every, most_rows,
                                                                           WORDS(words, words_len), words_len,
                                                                           WRITTEN(bytes, bytes_len), bytes_len,
                                                                           key);
    minisign_clear_used();
    return result;
}

PROVED(void, minisign_take_secret_key, (const minisign_new_key *, minisign_secret_key *));

void minisign_take_secret_key(const minisign_new_key *new_key, minisign_secret_key *key)
{
    CALL(minisign_take_secret_key)(new_key, key);
    minisign_clear_used();
}

PROVED(uint32_t, minisign_public_key_of, (const minisign_secret_key *, minisign_public_key *));

enum minisign_error minisign_public_key_of(const minisign_secret_key *key, minisign_public_key *public_key)
{
    enum minisign_error result;

    result = (enum minisign_error) CALL(minisign_public_key_of)(key, public_key);
    minisign_clear_used();
    return result;
}

PROVED(uint32_t, minisign_secret_key_record, (const minisign_secret_key *, uint8_t *));

enum minisign_error minisign_secret_key_record(const minisign_secret_key *key, uint8_t secret_record[158])
{
    enum minisign_error result;

    result = (enum minisign_error) CALL(minisign_secret_key_record)(key, secret_record);
    minisign_clear_used();
    return result;
}

PROVED(uint32_t, minisign_comment_message, (const uint8_t *, const uint8_t *, size_t, uint8_t *, size_t));

enum minisign_error minisign_comment_message(const uint8_t first[64], const uint8_t *trusted, size_t trusted_len,
                                             uint8_t *message, size_t room)
{
    return (enum minisign_error) CALL(minisign_comment_message)(first, READ(trusted, trusted_len), trusted_len,
                                                                WRITTEN(message, room), room);
}

PROVED(uint32_t, minisign_signed_text, (const minisign_public_key *, const uint8_t *, const uint8_t *,
                                        const uint8_t *, size_t, const uint8_t *, size_t, uint8_t *, size_t,
                                        size_t *));

enum minisign_error minisign_signed_text(const minisign_public_key *key, const minisign_signed_parts *parts,
                                         uint8_t *text, size_t room, size_t *text_len)
{
    return (enum minisign_error) CALL(minisign_signed_text)(key, parts->signature, parts->comment_signature,
            READ(parts->trusted_comment, parts->trusted_comment_len), parts->trusted_comment_len,
            READ(parts->untrusted_comment, parts->untrusted_comment_len), parts->untrusted_comment_len,
            WRITTEN(text, room), room, text_len);
}

PROVED(uint32_t, minisign_secret_key_text, (const minisign_secret_key *, uint32_t, const uint8_t *, size_t,
                                            const minisign_sealing *, uint64_t, const uint8_t *, size_t, uint8_t *,
                                            size_t, size_t *));

enum minisign_error minisign_secret_key_text(const minisign_secret_key *key, uint32_t with_password,
                                             const uint8_t *password, size_t password_len,
                                             const minisign_sealing *sealing, uint64_t keep_every,
                                             const uint8_t *comment, size_t comment_len, uint8_t *text,
                                             size_t room, size_t *text_len)
{
    enum minisign_error result;

    result = (enum minisign_error) CALL(minisign_secret_key_text)(key, with_password, READ(password, password_len),
                                                                  password_len, sealing, keep_every,
                                                                  READ(comment, comment_len), comment_len,
                                                                  WRITTEN(text, room), room, text_len);
    minisign_clear_used();
    return result;
}

PROVED(uint32_t, minisign_secret_key_text_with_any_limits, (const minisign_secret_key *, uint32_t, const uint8_t *,
                                                            size_t, const minisign_sealing *, uint64_t,
                                                            const uint8_t *, size_t, uint8_t *, size_t, size_t *));

enum minisign_error minisign_secret_key_text_with_any_limits(const minisign_secret_key *key,
                                                             uint32_t with_password, const uint8_t *password,
                                                             size_t password_len, const minisign_sealing *sealing,
                                                             uint64_t keep_every, const uint8_t *comment,
                                                             size_t comment_len, uint8_t *text, size_t room,
                                                             size_t *text_len)
{
    enum minisign_error result;

    result = (enum minisign_error) CALL(minisign_secret_key_text_with_any_limits)(key, with_password,
                                                                                  READ(password, password_len),
                                                                                  password_len, sealing,
                                                                                  keep_every,
                                                                                  READ(comment, comment_len),
                                                                                  comment_len, WRITTEN(text, room),
                                                                                  room, text_len);
    minisign_clear_used();
    return result;
}

PROVED(uint32_t, minisign_public_key_text, (const minisign_secret_key *, const uint8_t *, size_t, uint8_t *,
                                            size_t, size_t *));

enum minisign_error minisign_public_key_text(const minisign_secret_key *key, const uint8_t *comment,
                                             size_t comment_len, uint8_t *text, size_t room, size_t *text_len)
{
    enum minisign_error result;

    result = (enum minisign_error) CALL(minisign_public_key_text)(key, READ(comment, comment_len), comment_len,
                                                                  WRITTEN(text, room), room, text_len);
    minisign_clear_used();
    return result;
}

PROVED(uint32_t, minisign_encode_public_key, (const minisign_public_key *, const uint8_t *, size_t, uint8_t *,
                                              size_t, size_t *));

enum minisign_error minisign_encode_public_key(const minisign_public_key *key, const uint8_t *comment,
                                               size_t comment_len, uint8_t *text, size_t room, size_t *text_len)
{
    return (enum minisign_error) CALL(minisign_encode_public_key)(key, READ(comment, comment_len), comment_len,
                                                                  WRITTEN(text, room), room, text_len);
}

PROVED(uint32_t, minisign_install_init, (minisign_installation *, const minisign_public_key *,
                                         const minisign_public_key *, const minisign_install_options *));

enum minisign_error minisign_install_init(minisign_installation *installation, const minisign_public_key *key,
                                          const minisign_public_key *other,
                                          const minisign_install_options *options)
{
    return (enum minisign_error) CALL(minisign_install_init)(installation, key, other, options);
}

PROVED(uint32_t, minisign_install_due, (const minisign_installation *));

enum minisign_due minisign_install_due(const minisign_installation *installation)
{
    return (enum minisign_due) CALL(minisign_install_due)(installation);
}

PROVED(uint32_t, minisign_install_done, (minisign_installation *));

enum minisign_error minisign_install_done(minisign_installation *installation)
{
    return (enum minisign_error) CALL(minisign_install_done)(installation);
}

PROVED(uint32_t, minisign_install_copied, (minisign_installation *, size_t));

enum minisign_error minisign_install_copied(minisign_installation *installation, size_t piece_len)
{
    return (enum minisign_error) CALL(minisign_install_copied)(installation, piece_len);
}

PROVED(uint32_t, minisign_install_failed, (minisign_installation *, uint32_t));

enum minisign_error minisign_install_failed(minisign_installation *installation, enum minisign_error why)
{
    return (enum minisign_error) CALL(minisign_install_failed)(installation, why);
}

PROVED(uint32_t, minisign_install_record, (minisign_installation *, const uint8_t *, size_t));

enum minisign_error minisign_install_record(minisign_installation *installation, const uint8_t *record,
                                            size_t record_len)
{
    return (enum minisign_error) CALL(minisign_install_record)(installation, READ(record, record_len), record_len);
}

PROVED(uint32_t, minisign_install_no_record, (minisign_installation *));

enum minisign_error minisign_install_no_record(minisign_installation *installation)
{
    return (enum minisign_error) CALL(minisign_install_no_record)(installation);
}

PROVED(uint32_t, minisign_install_piece, (minisign_installation *, const uint8_t *, size_t));

enum minisign_error minisign_install_piece(minisign_installation *installation, const uint8_t *piece,
                                           size_t piece_len)
{
    return (enum minisign_error) CALL(minisign_install_piece)(installation, READ(piece, piece_len), piece_len);
}

PROVED(uint32_t, minisign_install_no_target, (minisign_installation *));

enum minisign_error minisign_install_no_target(minisign_installation *installation)
{
    return (enum minisign_error) CALL(minisign_install_no_target)(installation);
}

PROVED(uint32_t, minisign_install_signature, (minisign_installation *, const uint8_t *, size_t, const uint8_t *,
                                              size_t, int64_t, uint8_t *, size_t, size_t *));

enum minisign_error minisign_install_signature(minisign_installation *installation, const uint8_t *sig_text,
                                               size_t sig_text_len, const uint8_t *file, size_t file_len,
                                               int64_t now, uint8_t *message, size_t room, size_t *message_len)
{
    return (enum minisign_error) CALL(minisign_install_signature)(installation, READ(sig_text, sig_text_len),
                                                                  sig_text_len, READ(file, file_len), file_len,
                                                                  now, WRITTEN(message, room), room, message_len);
}

PROVED(uint32_t, minisign_install_list, (minisign_installation *, const uint8_t *, size_t, const uint8_t *,
                                         size_t));

enum minisign_error minisign_install_list(minisign_installation *installation, const uint8_t *list,
                                          size_t list_len, const uint8_t *name, size_t name_len)
{
    return (enum minisign_error) CALL(minisign_install_list)(installation, READ(list, list_len), list_len,
                                                             READ(name, name_len), name_len);
}

PROVED(uint32_t, minisign_install_question, (const minisign_installation *, uint8_t *, uint8_t *, uint8_t *));

enum minisign_error minisign_install_question(const minisign_installation *installation, uint8_t public_key[32],
                                              uint8_t signature[64], uint8_t digest[64])
{
    return (enum minisign_error) CALL(minisign_install_question)(installation, public_key, signature, digest);
}

PROVED(uint32_t, minisign_install_answer, (minisign_installation *, uint32_t));

enum minisign_error minisign_install_answer(minisign_installation *installation, enum minisign_answer answer)
{
    return (enum minisign_error) CALL(minisign_install_answer)(installation, answer);
}

PROVED(uint32_t, minisign_install_is_signed, (const minisign_installation *));

uint32_t minisign_install_is_signed(const minisign_installation *installation)
{
    return CALL(minisign_install_is_signed)(installation);
}

PROVED(uint64_t, minisign_install_version, (const minisign_installation *));

uint64_t minisign_install_version(const minisign_installation *installation)
{
    return CALL(minisign_install_version)(installation);
}

PROVED(uint32_t, minisign_install_size, (const minisign_installation *, uint64_t *));

uint32_t minisign_install_size(const minisign_installation *installation, uint64_t *size)
{
    return CALL(minisign_install_size)(installation, size);
}

PROVED(size_t, minisign_install_record_text, (const minisign_installation *, uint8_t *, size_t));

size_t minisign_install_record_text(const minisign_installation *installation, uint8_t *text, size_t room)
{
    return CALL(minisign_install_record_text)(installation, WRITTEN(text, room), room);
}

PROVED(uint32_t, minisign_install_error, (const minisign_installation *));

enum minisign_error minisign_install_error(const minisign_installation *installation)
{
    return (enum minisign_error) CALL(minisign_install_error)(installation);
}

PROVED(uint64_t, minisign_install_line, (const minisign_installation *));

uint64_t minisign_install_line(const minisign_installation *installation)
{
    return CALL(minisign_install_line)(installation);
}

PROVED(uint32_t, minisign_judge_comment, (const uint8_t *, size_t, const uint8_t *, size_t, uint32_t, uint64_t,
                                          uint64_t, uint64_t *));

enum minisign_error minisign_judge_comment(const uint8_t *comment, size_t comment_len, const uint8_t *file,
                                           size_t file_len, uint32_t numbering, uint64_t now, uint64_t kept,
                                           uint64_t *number)
{
    return (enum minisign_error) CALL(minisign_judge_comment)(READ(comment, comment_len), comment_len,
                                                              READ(file, file_len), file_len, numbering, now, kept,
                                                              number);
}

PROVED(uint32_t, minisign_list_ask, (minisign_list *, const minisign_public_key *, const minisign_signature *,
                                     const uint8_t *, size_t, const uint8_t *, size_t, const uint8_t *, size_t,
                                     minisign_questions *, uint8_t *, size_t));

enum minisign_error minisign_list_ask(minisign_list *list, const minisign_public_key *key,
                                      const minisign_signature *signature, const uint8_t *sig_text,
                                      size_t sig_text_len, const uint8_t *list_name, size_t list_name_len,
                                      const uint8_t *text, size_t text_len, minisign_questions *questions,
                                      uint8_t *message, size_t room)
{
    return (enum minisign_error) CALL(minisign_list_ask)(list, key, signature, READ(sig_text, sig_text_len),
                                                         sig_text_len, READ(list_name, list_name_len),
                                                         list_name_len, READ(text, text_len), text_len, questions,
                                                         WRITTEN(message, room), room);
}

PROVED(uint32_t, minisign_list_ask_any, (minisign_list *, const minisign_public_key *, const minisign_signature *,
                                         const uint8_t *, size_t, const uint8_t *, size_t, minisign_questions *,
                                         uint8_t *, size_t));

enum minisign_error minisign_list_ask_any(minisign_list *list, const minisign_public_key *key,
                                          const minisign_signature *signature, const uint8_t *sig_text,
                                          size_t sig_text_len, const uint8_t *text, size_t text_len,
                                          minisign_questions *questions, uint8_t *message, size_t room)
{
    return (enum minisign_error) CALL(minisign_list_ask_any)(list, key, signature, READ(sig_text, sig_text_len),
                                                             sig_text_len, READ(text, text_len), text_len,
                                                             questions, WRITTEN(message, room), room);
}

PROVED(uint32_t, minisign_list_verdict, (minisign_list *, uint32_t, uint32_t));

enum minisign_error minisign_list_verdict(minisign_list *list, enum minisign_answer first,
                                          enum minisign_answer second)
{
    return (enum minisign_error) CALL(minisign_list_verdict)(list, first, second);
}

PROVED(uint32_t, minisign_list_find, (const minisign_list *, const uint8_t *, size_t, uint32_t, const uint8_t *,
                                      size_t, minisign_list_entry *, uint64_t *));

enum minisign_error minisign_list_find(const minisign_list *list, const uint8_t *text, size_t text_len,
                                       enum minisign_hash long_digest, const uint8_t *name, size_t name_len,
                                       minisign_list_entry *entry, uint64_t *line)
{
    return (enum minisign_error) CALL(minisign_list_find)(list, READ(text, text_len), text_len, long_digest,
                                                          READ(name, name_len), name_len, entry, line);
}

PROVED(uint32_t, minisign_list_entries, (const minisign_list *, const uint8_t *, size_t, uint32_t,
                                         minisign_list_entry *, size_t, size_t *, uint64_t *));

enum minisign_error minisign_list_entries(const minisign_list *list, const uint8_t *text, size_t text_len,
                                          enum minisign_hash long_digest, minisign_list_entry *entries,
                                          size_t entries_len, size_t *count, uint64_t *line)
{
    return (enum minisign_error) CALL(minisign_list_entries)(list, READ(text, text_len), text_len, long_digest,
                                                             ENTRIES(entries, entries_len), entries_len, count,
                                                             line);
}

PROVED(uint32_t, minisign_list_begin, (const minisign_list_entry *, minisign_list_file *));

enum minisign_error minisign_list_begin(const minisign_list_entry *entry, minisign_list_file *file)
{
    return (enum minisign_error) CALL(minisign_list_begin)(entry, file);
}

PROVED(uint32_t, minisign_list_update, (minisign_list_file *, const uint8_t *, size_t));

enum minisign_error minisign_list_update(minisign_list_file *file, const uint8_t *data, size_t len)
{
    return (enum minisign_error) CALL(minisign_list_update)(file, READ(data, len), len);
}

PROVED(uint32_t, minisign_list_finish, (minisign_list_file *));

enum minisign_error minisign_list_finish(minisign_list_file *file)
{
    return (enum minisign_error) CALL(minisign_list_finish)(file);
}

PROVED(uint32_t, minisign_list_compare_trusting_your_hash, (const minisign_list_entry *, uint32_t, const uint8_t *,
                                                            size_t));

enum minisign_error minisign_list_compare_trusting_your_hash(const minisign_list_entry *entry,
                                                             enum minisign_hash hash, const uint8_t *digest,
                                                             size_t digest_len)
{
    return (enum minisign_error) CALL(minisign_list_compare_trusting_your_hash)(entry, hash,
                                                                                READ(digest, digest_len),
                                                                                digest_len);
}

PROVED(uint32_t, minisign_list_append, (uint32_t, const uint8_t *, size_t, const uint8_t *, size_t, uint8_t *,
                                        size_t, size_t *));

enum minisign_error minisign_list_append(enum minisign_hash hash, const uint8_t *digest, size_t digest_len,
                                         const uint8_t *name, size_t name_len, uint8_t *text, size_t room,
                                         size_t *text_len)
{
    return (enum minisign_error) CALL(minisign_list_append)(hash, READ(digest, digest_len), digest_len,
                                                            READ(name, name_len), name_len, WRITTEN(text, room),
                                                            room, text_len);
}
