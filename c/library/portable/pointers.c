/*
 * Calls the functions of dist/calls.c for boundary.c. dist/calls.c takes addresses as 64-bit numbers, and expects
 * numbers in memory to be little-endian. On a big-endian processor, the numbers in structs and behind pointers are
 * therefore converted before each call, and converted back after it. The part after this head is made by
 * tools/header.py.
 *
 * SPDX-License-Identifier: MIT
 */
#include "machine.h"

#include "minisign_install.h"
#include "minisign_list.h"

/* Returns the pointer to pass for a struct that the call must not change: `original` or, on a big-endian processor,
 * `copy`, to which the struct is copied with converted numbers. */
#define CONVERTED(kind, original, copy)                  \
    (IS_LITTLE_ENDIAN || (original) == NULL ? (original) \
                                            : (*(copy) = *(original), to_little_endian_##kind(copy), (copy)))

/* ---- Made by tools/header.py ---- */

static inline void to_little_endian_minisign_public_key(minisign_public_key *object)
{
    store64(address(&object->mark), object->mark);
}

static inline void from_little_endian_minisign_public_key(minisign_public_key *object)
{
    object->mark = load64(address(&object->mark));
}

static inline void to_little_endian_minisign_signature(minisign_signature *object)
{
    store64(address(&object->mark), object->mark);
    store64(address(&object->comment_offset), object->comment_offset);
    store64(address(&object->comment_len), object->comment_len);
    store32(address(&object->reserved), object->reserved);
}

static inline void from_little_endian_minisign_signature(minisign_signature *object)
{
    object->mark = load64(address(&object->mark));
    object->comment_offset = load64(address(&object->comment_offset));
    object->comment_len = load64(address(&object->comment_len));
    object->reserved = load32(address(&object->reserved));
}

static inline void to_little_endian_minisign_questions(minisign_questions *object)
{
    store64(address(&object->message_len), object->message_len);
    store64(address(&object->comment_offset), object->comment_offset);
    store64(address(&object->comment_len), object->comment_len);
    store32(address(&object->legacy), object->legacy);
    store32(address(&object->reserved), object->reserved);
}

static inline void from_little_endian_minisign_questions(minisign_questions *object)
{
    object->message_len = load64(address(&object->message_len));
    object->comment_offset = load64(address(&object->comment_offset));
    object->comment_len = load64(address(&object->comment_len));
    object->legacy = load32(address(&object->legacy));
    object->reserved = load32(address(&object->reserved));
}

static inline void to_little_endian_minisign_unopened_key(minisign_unopened_key *object)
{
    store64(address(&object->mark), object->mark);
    store32(address(&object->work), object->work);
    store32(address(&object->reserved), object->reserved);
}

static inline void from_little_endian_minisign_unopened_key(minisign_unopened_key *object)
{
    object->mark = load64(address(&object->mark));
    object->work = load32(address(&object->work));
    object->reserved = load32(address(&object->reserved));
}

static inline void to_little_endian_minisign_secret_key(minisign_secret_key *object)
{
    store64(address(&object->mark), object->mark);
}

static inline void from_little_endian_minisign_secret_key(minisign_secret_key *object)
{
    object->mark = load64(address(&object->mark));
}

static inline void to_little_endian_minisign_sealing(minisign_sealing *object)
{
    store64(address(&object->operations_limit), object->operations_limit);
    store64(address(&object->memory_limit), object->memory_limit);
}

static inline void to_little_endian_minisign_install_options(minisign_install_options *object)
{
    store32(address(&object->numbering), object->numbering);
    store32(address(&object->is_first), object->is_first);
    store32(address(&object->again), object->again);
    store32(address(&object->is_check), object->is_check);
    store32(address(&object->must_expire), object->must_expire);
    store32(address(&object->new_key), object->new_key);
    store32(address(&object->roll_back), object->roll_back);
    store32(address(&object->is_list), object->is_list);
    store32(address(&object->long_digest), object->long_digest);
}

static inline void to_little_endian_minisign_list(minisign_list *object)
{
    store64(address(&object->mark), object->mark);
    store32(address(&object->whole), object->whole);
    store32(address(&object->is_named), object->is_named);
}

static inline void from_little_endian_minisign_list(minisign_list *object)
{
    object->mark = load64(address(&object->mark));
    object->whole = load32(address(&object->whole));
    object->is_named = load32(address(&object->is_named));
}

static inline void to_little_endian_minisign_list_entry(minisign_list_entry *object)
{
    store64(address(&object->mark), object->mark);
    store64(address(&object->line), object->line);
    store64(address(&object->name_offset), object->name_offset);
    store64(address(&object->name_len), object->name_len);
    store32(address(&object->hash), object->hash);
    store32(address(&object->is_escaped), object->is_escaped);
}

static inline void from_little_endian_minisign_list_entry(minisign_list_entry *object)
{
    object->mark = load64(address(&object->mark));
    object->line = load64(address(&object->line));
    object->name_offset = load64(address(&object->name_offset));
    object->name_len = load64(address(&object->name_len));
    object->hash = load32(address(&object->hash));
    object->is_escaped = load32(address(&object->is_escaped));
}

uint64_t machine_minisign_error_text(uint32_t, uint64_t, uint64_t);

size_t portable_minisign_error_text(uint32_t error, uint8_t *text, size_t room)
{
    return (size_t) machine_minisign_error_text(error, address(text), room);
}

uint32_t machine_minisign_error_kind(uint32_t);

uint32_t portable_minisign_error_kind(uint32_t error)
{
    return machine_minisign_error_kind(error);
}

void machine_minisign_init(uint64_t);

void portable_minisign_init(minisign_state *state)
{
    machine_minisign_init(address(state));
}

uint32_t machine_minisign_update(uint64_t, uint64_t, uint64_t);

uint32_t portable_minisign_update(minisign_state *state, const uint8_t *data, size_t len)
{
    return machine_minisign_update(address(state), address(data), len);
}

uint32_t machine_minisign_digest(uint64_t, uint64_t);

uint32_t portable_minisign_digest(minisign_state *state, uint8_t *digest)
{
    return machine_minisign_digest(address(state), address(digest));
}

void machine_minisign_clear(uint64_t, uint64_t);

void portable_minisign_clear(uint8_t *value, size_t size)
{
    machine_minisign_clear(address(value), size);
}

uint32_t machine_minisign_read_public_key(uint64_t, uint64_t, uint64_t);

uint32_t portable_minisign_read_public_key(const uint8_t *pk_text, size_t pk_text_len, minisign_public_key *key)
{
    to_little_endian_minisign_public_key(key);
    const uint32_t result = machine_minisign_read_public_key(address(pk_text), pk_text_len, address(key));
    from_little_endian_minisign_public_key(key);
    return result;
}

uint32_t machine_minisign_read_bare_public_key(uint64_t, uint64_t, uint64_t);

uint32_t portable_minisign_read_bare_public_key(const uint8_t *base64, size_t base64_len, minisign_public_key *key)
{
    to_little_endian_minisign_public_key(key);
    const uint32_t result = machine_minisign_read_bare_public_key(address(base64), base64_len, address(key));
    from_little_endian_minisign_public_key(key);
    return result;
}

uint32_t machine_minisign_read_public_key_record(uint64_t, uint64_t, uint64_t);

uint32_t portable_minisign_read_public_key_record(const uint8_t *record, size_t record_len,
                                                  minisign_public_key *key)
{
    to_little_endian_minisign_public_key(key);
    const uint32_t result = machine_minisign_read_public_key_record(address(record), record_len, address(key));
    from_little_endian_minisign_public_key(key);
    return result;
}

uint32_t machine_minisign_public_key_record(uint64_t, uint64_t);

uint32_t portable_minisign_public_key_record(const minisign_public_key *key, uint8_t *record)
{
    minisign_public_key key_copy;
    const minisign_public_key *key_passed = CONVERTED(minisign_public_key, key, &key_copy);
    return machine_minisign_public_key_record(address(key_passed), address(record));
}

uint32_t machine_minisign_read_signature(uint64_t, uint64_t, uint64_t);

uint32_t portable_minisign_read_signature(const uint8_t *sig_text, size_t sig_text_len,
                                          minisign_signature *signature)
{
    to_little_endian_minisign_signature(signature);
    const uint32_t result = machine_minisign_read_signature(address(sig_text), sig_text_len, address(signature));
    from_little_endian_minisign_signature(signature);
    return result;
}

uint32_t machine_minisign_read_signature_record(uint64_t, uint64_t, uint64_t);

uint32_t portable_minisign_read_signature_record(const uint8_t *record, size_t record_len,
                                                 minisign_signature *signature)
{
    to_little_endian_minisign_signature(signature);
    const uint32_t result = machine_minisign_read_signature_record(address(record), record_len,
                                                                   address(signature));
    from_little_endian_minisign_signature(signature);
    return result;
}

uint32_t machine_minisign_signature_record(uint64_t, uint64_t);

uint32_t portable_minisign_signature_record(const minisign_signature *signature, uint8_t *record)
{
    minisign_signature signature_copy;
    const minisign_signature *signature_passed = CONVERTED(minisign_signature, signature, &signature_copy);
    return machine_minisign_signature_record(address(signature_passed), address(record));
}

uint32_t machine_minisign_ask(uint64_t, uint64_t, uint64_t, uint64_t, uint64_t, uint32_t, uint64_t, uint64_t,
                              uint64_t);

uint32_t portable_minisign_ask(minisign_state *state, const minisign_public_key *key,
                               const minisign_signature *signature, const uint8_t *sig_text, size_t sig_text_len,
                               uint32_t allow_legacy, minisign_questions *questions, uint8_t *message, size_t room)
{
    minisign_public_key key_copy;
    const minisign_public_key *key_passed = CONVERTED(minisign_public_key, key, &key_copy);
    minisign_signature signature_copy;
    const minisign_signature *signature_passed = CONVERTED(minisign_signature, signature, &signature_copy);
    to_little_endian_minisign_questions(questions);
    const uint32_t result = machine_minisign_ask(address(state), address(key_passed), address(signature_passed),
                                                 address(sig_text), sig_text_len, allow_legacy, address(questions),
                                                 address(message), room);
    from_little_endian_minisign_questions(questions);
    return result;
}

uint32_t machine_minisign_comment_verdict(uint64_t, uint32_t);

uint32_t portable_minisign_comment_verdict(const minisign_state *state, uint32_t second)
{
    return machine_minisign_comment_verdict(address(state), second);
}

uint32_t machine_minisign_verdict(uint64_t, uint32_t, uint32_t);

uint32_t portable_minisign_verdict(minisign_state *state, uint32_t first, uint32_t second)
{
    return machine_minisign_verdict(address(state), first, second);
}

uint32_t machine_minisign_ask_bare(uint64_t, uint64_t, uint64_t, uint32_t, uint64_t);

uint32_t portable_minisign_ask_bare(minisign_state *state, const minisign_public_key *key,
                                    const minisign_signature *signature, uint32_t allow_legacy,
                                    minisign_questions *questions)
{
    minisign_public_key key_copy;
    const minisign_public_key *key_passed = CONVERTED(minisign_public_key, key, &key_copy);
    minisign_signature signature_copy;
    const minisign_signature *signature_passed = CONVERTED(minisign_signature, signature, &signature_copy);
    to_little_endian_minisign_questions(questions);
    const uint32_t result = machine_minisign_ask_bare(address(state), address(key_passed),
                                                      address(signature_passed), allow_legacy, address(questions));
    from_little_endian_minisign_questions(questions);
    return result;
}

uint32_t machine_minisign_bare_verdict(uint64_t, uint32_t);

uint32_t portable_minisign_bare_verdict(minisign_state *state, uint32_t first)
{
    return machine_minisign_bare_verdict(address(state), first);
}

uint32_t machine_minisign_read_secret_key(uint64_t, uint64_t, uint64_t);

uint32_t portable_minisign_read_secret_key(const uint8_t *sk_text, size_t sk_text_len,
                                           minisign_unopened_key *unopened)
{
    to_little_endian_minisign_unopened_key(unopened);
    const uint32_t result = machine_minisign_read_secret_key(address(sk_text), sk_text_len, address(unopened));
    from_little_endian_minisign_unopened_key(unopened);
    return result;
}

uint32_t machine_minisign_read_secret_key_record(uint64_t, uint64_t, uint64_t);

uint32_t portable_minisign_read_secret_key_record(const uint8_t *secret_record, size_t secret_record_len,
                                                  minisign_unopened_key *unopened)
{
    to_little_endian_minisign_unopened_key(unopened);
    const uint32_t result = machine_minisign_read_secret_key_record(address(secret_record), secret_record_len,
                                                                    address(unopened));
    from_little_endian_minisign_unopened_key(unopened);
    return result;
}

uint32_t machine_minisign_encode_unopened_key(uint64_t, uint64_t, uint64_t, uint64_t, uint64_t, uint64_t);

uint32_t portable_minisign_encode_unopened_key(const minisign_unopened_key *unopened, const uint8_t *comment,
                                               size_t comment_len, uint8_t *text, size_t room, size_t *text_len)
{
    minisign_unopened_key unopened_copy;
    const minisign_unopened_key *unopened_passed = CONVERTED(minisign_unopened_key, unopened, &unopened_copy);
    uint64_t text_len_copy = 0;
    store64(address(&text_len_copy), *text_len);
    const uint32_t result = machine_minisign_encode_unopened_key(address(unopened_passed), address(comment),
                                                                 comment_len, address(text), room,
                                                                 address(&text_len_copy));
    *text_len = (size_t) load64(address(&text_len_copy));
    return result;
}

uint32_t machine_minisign_test_sealed_key(uint64_t, uint64_t);

uint32_t portable_minisign_test_sealed_key(const minisign_unopened_key *unopened, uint64_t most_rows)
{
    minisign_unopened_key unopened_copy;
    const minisign_unopened_key *unopened_passed = CONVERTED(minisign_unopened_key, unopened, &unopened_copy);
    return machine_minisign_test_sealed_key(address(unopened_passed), most_rows);
}

uint32_t machine_minisign_open_unsealed_key(uint64_t, uint64_t);

uint32_t portable_minisign_open_unsealed_key(const minisign_unopened_key *unopened, minisign_secret_key *key)
{
    minisign_unopened_key unopened_copy;
    const minisign_unopened_key *unopened_passed = CONVERTED(minisign_unopened_key, unopened, &unopened_copy);
    to_little_endian_minisign_secret_key(key);
    const uint32_t result = machine_minisign_open_unsealed_key(address(unopened_passed), address(key));
    from_little_endian_minisign_secret_key(key);
    return result;
}

uint32_t machine_minisign_open_sealed_key(uint64_t, uint64_t, uint64_t, uint64_t, uint64_t, uint64_t);

uint32_t portable_minisign_open_sealed_key(const minisign_unopened_key *unopened, const uint8_t *password,
                                           size_t password_len, uint64_t keep_every, uint64_t most_rows,
                                           minisign_secret_key *key)
{
    minisign_unopened_key unopened_copy;
    const minisign_unopened_key *unopened_passed = CONVERTED(minisign_unopened_key, unopened, &unopened_copy);
    to_little_endian_minisign_secret_key(key);
    const uint32_t result = machine_minisign_open_sealed_key(address(unopened_passed), address(password),
                                                             password_len, keep_every, most_rows, address(key));
    from_little_endian_minisign_secret_key(key);
    return result;
}

void machine_minisign_opening_memory(uint64_t, uint64_t, uint64_t, uint64_t, uint64_t);

void portable_minisign_opening_memory(const minisign_unopened_key *unopened, uint64_t keep_every,
                                      uint64_t most_rows, uint64_t *words_wanted, uint64_t *bytes_wanted)
{
    minisign_unopened_key unopened_copy;
    const minisign_unopened_key *unopened_passed = CONVERTED(minisign_unopened_key, unopened, &unopened_copy);
    uint64_t words_wanted_copy = 0;
    uint64_t bytes_wanted_copy = 0;
    store64(address(&words_wanted_copy), *words_wanted);
    store64(address(&bytes_wanted_copy), *bytes_wanted);
    machine_minisign_opening_memory(address(unopened_passed), keep_every, most_rows, address(&words_wanted_copy),
                                    address(&bytes_wanted_copy));
    *words_wanted = (uint64_t) load64(address(&words_wanted_copy));
    *bytes_wanted = (uint64_t) load64(address(&bytes_wanted_copy));
}

uint32_t machine_minisign_open_sealed_key_in_place(uint64_t, uint64_t, uint64_t, uint64_t, uint64_t, uint64_t,
                                                   uint64_t, uint64_t, uint64_t, uint64_t);

uint32_t portable_minisign_open_sealed_key_in_place(const minisign_unopened_key *unopened, const uint8_t *password,
                                                    size_t password_len, uint64_t keep_every, uint64_t most_rows,
                                                    uint32_t *words, size_t words_len, uint8_t *bytes,
                                                    size_t bytes_len, minisign_secret_key *key)
{
    minisign_unopened_key unopened_copy;
    const minisign_unopened_key *unopened_passed = CONVERTED(minisign_unopened_key, unopened, &unopened_copy);
    to_little_endian_minisign_secret_key(key);
    const uint32_t result = machine_minisign_open_sealed_key_in_place(address(unopened_passed), address(password),
                                                                      password_len, keep_every, most_rows,
                                                                      address(words), words_len, address(bytes),
                                                                      bytes_len, address(key));
    from_little_endian_minisign_secret_key(key);
    return result;
}

void machine_minisign_take_secret_key(uint64_t, uint64_t);

void portable_minisign_take_secret_key(const minisign_new_key *new_key, minisign_secret_key *key)
{
    to_little_endian_minisign_secret_key(key);
    machine_minisign_take_secret_key(address(new_key), address(key));
    from_little_endian_minisign_secret_key(key);
}

uint32_t machine_minisign_public_key_of(uint64_t, uint64_t);

uint32_t portable_minisign_public_key_of(const minisign_secret_key *key, minisign_public_key *public_key)
{
    minisign_secret_key key_copy;
    const minisign_secret_key *key_passed = CONVERTED(minisign_secret_key, key, &key_copy);
    to_little_endian_minisign_public_key(public_key);
    const uint32_t result = machine_minisign_public_key_of(address(key_passed), address(public_key));
    from_little_endian_minisign_public_key(public_key);
    return result;
}

uint32_t machine_minisign_secret_key_record(uint64_t, uint64_t);

uint32_t portable_minisign_secret_key_record(const minisign_secret_key *key, uint8_t *secret_record)
{
    minisign_secret_key key_copy;
    const minisign_secret_key *key_passed = CONVERTED(minisign_secret_key, key, &key_copy);
    return machine_minisign_secret_key_record(address(key_passed), address(secret_record));
}

uint32_t machine_minisign_comment_message(uint64_t, uint64_t, uint64_t, uint64_t, uint64_t);

uint32_t portable_minisign_comment_message(const uint8_t *first, const uint8_t *trusted, size_t trusted_len,
                                           uint8_t *message, size_t room)
{
    return machine_minisign_comment_message(address(first), address(trusted), trusted_len, address(message), room);
}

uint32_t machine_minisign_signed_text(uint64_t, uint64_t, uint64_t, uint64_t, uint64_t, uint64_t, uint64_t,
                                      uint64_t, uint64_t, uint64_t);

uint32_t portable_minisign_signed_text(const minisign_public_key *key, const uint8_t *signature,
                                       const uint8_t *comment_signature, const uint8_t *trusted_comment,
                                       size_t trusted_comment_len, const uint8_t *untrusted_comment,
                                       size_t untrusted_comment_len, uint8_t *text, size_t room, size_t *text_len)
{
    minisign_public_key key_copy;
    const minisign_public_key *key_passed = CONVERTED(minisign_public_key, key, &key_copy);
    uint64_t text_len_copy = 0;
    store64(address(&text_len_copy), *text_len);
    const uint32_t result = machine_minisign_signed_text(address(key_passed), address(signature),
                                                         address(comment_signature), address(trusted_comment),
                                                         trusted_comment_len, address(untrusted_comment),
                                                         untrusted_comment_len, address(text), room,
                                                         address(&text_len_copy));
    *text_len = (size_t) load64(address(&text_len_copy));
    return result;
}

uint32_t machine_minisign_secret_key_text(uint64_t, uint32_t, uint64_t, uint64_t, uint64_t, uint64_t, uint64_t,
                                          uint64_t, uint64_t, uint64_t, uint64_t);

uint32_t portable_minisign_secret_key_text(const minisign_secret_key *key, uint32_t with_password,
                                           const uint8_t *password, size_t password_len,
                                           const minisign_sealing *sealing, uint64_t keep_every,
                                           const uint8_t *comment, size_t comment_len, uint8_t *text, size_t room,
                                           size_t *text_len)
{
    minisign_secret_key key_copy;
    const minisign_secret_key *key_passed = CONVERTED(minisign_secret_key, key, &key_copy);
    minisign_sealing sealing_copy;
    const minisign_sealing *sealing_passed = CONVERTED(minisign_sealing, sealing, &sealing_copy);
    uint64_t text_len_copy = 0;
    store64(address(&text_len_copy), *text_len);
    const uint32_t result = machine_minisign_secret_key_text(address(key_passed), with_password, address(password),
                                                             password_len, address(sealing_passed), keep_every,
                                                             address(comment), comment_len, address(text), room,
                                                             address(&text_len_copy));
    *text_len = (size_t) load64(address(&text_len_copy));
    return result;
}

uint32_t machine_minisign_secret_key_text_with_any_limits(uint64_t, uint32_t, uint64_t, uint64_t, uint64_t,
                                                          uint64_t, uint64_t, uint64_t, uint64_t, uint64_t,
                                                          uint64_t);

uint32_t portable_minisign_secret_key_text_with_any_limits(const minisign_secret_key *key, uint32_t with_password,
                                                           const uint8_t *password, size_t password_len,
                                                           const minisign_sealing *sealing, uint64_t keep_every,
                                                           const uint8_t *comment, size_t comment_len,
                                                           uint8_t *text, size_t room, size_t *text_len)
{
    minisign_secret_key key_copy;
    const minisign_secret_key *key_passed = CONVERTED(minisign_secret_key, key, &key_copy);
    minisign_sealing sealing_copy;
    const minisign_sealing *sealing_passed = CONVERTED(minisign_sealing, sealing, &sealing_copy);
    uint64_t text_len_copy = 0;
    store64(address(&text_len_copy), *text_len);
    const uint32_t result = machine_minisign_secret_key_text_with_any_limits(address(key_passed), with_password,
                                                                             address(password), password_len,
                                                                             address(sealing_passed), keep_every,
                                                                             address(comment), comment_len,
                                                                             address(text), room,
                                                                             address(&text_len_copy));
    *text_len = (size_t) load64(address(&text_len_copy));
    return result;
}

uint32_t machine_minisign_public_key_text(uint64_t, uint64_t, uint64_t, uint64_t, uint64_t, uint64_t);

uint32_t portable_minisign_public_key_text(const minisign_secret_key *key, const uint8_t *comment,
                                           size_t comment_len, uint8_t *text, size_t room, size_t *text_len)
{
    minisign_secret_key key_copy;
    const minisign_secret_key *key_passed = CONVERTED(minisign_secret_key, key, &key_copy);
    uint64_t text_len_copy = 0;
    store64(address(&text_len_copy), *text_len);
    const uint32_t result = machine_minisign_public_key_text(address(key_passed), address(comment), comment_len,
                                                             address(text), room, address(&text_len_copy));
    *text_len = (size_t) load64(address(&text_len_copy));
    return result;
}

uint32_t machine_minisign_encode_public_key(uint64_t, uint64_t, uint64_t, uint64_t, uint64_t, uint64_t);

uint32_t portable_minisign_encode_public_key(const minisign_public_key *key, const uint8_t *comment,
                                             size_t comment_len, uint8_t *text, size_t room, size_t *text_len)
{
    minisign_public_key key_copy;
    const minisign_public_key *key_passed = CONVERTED(minisign_public_key, key, &key_copy);
    uint64_t text_len_copy = 0;
    store64(address(&text_len_copy), *text_len);
    const uint32_t result = machine_minisign_encode_public_key(address(key_passed), address(comment), comment_len,
                                                               address(text), room, address(&text_len_copy));
    *text_len = (size_t) load64(address(&text_len_copy));
    return result;
}

uint32_t machine_minisign_install_init(uint64_t, uint64_t, uint64_t, uint64_t);

uint32_t portable_minisign_install_init(minisign_installation *installation, const minisign_public_key *key,
                                        const minisign_public_key *other, const minisign_install_options *options)
{
    minisign_public_key key_copy;
    const minisign_public_key *key_passed = CONVERTED(minisign_public_key, key, &key_copy);
    minisign_public_key other_copy;
    const minisign_public_key *other_passed = CONVERTED(minisign_public_key, other, &other_copy);
    minisign_install_options options_copy;
    const minisign_install_options *options_passed = CONVERTED(minisign_install_options, options, &options_copy);
    return machine_minisign_install_init(address(installation), address(key_passed), address(other_passed),
                                         address(options_passed));
}

uint32_t machine_minisign_install_due(uint64_t);

uint32_t portable_minisign_install_due(const minisign_installation *installation)
{
    return machine_minisign_install_due(address(installation));
}

uint32_t machine_minisign_install_done(uint64_t);

uint32_t portable_minisign_install_done(minisign_installation *installation)
{
    return machine_minisign_install_done(address(installation));
}

uint32_t machine_minisign_install_copied(uint64_t, uint64_t);

uint32_t portable_minisign_install_copied(minisign_installation *installation, size_t piece_len)
{
    return machine_minisign_install_copied(address(installation), piece_len);
}

uint32_t machine_minisign_install_failed(uint64_t, uint32_t);

uint32_t portable_minisign_install_failed(minisign_installation *installation, uint32_t why)
{
    return machine_minisign_install_failed(address(installation), why);
}

uint32_t machine_minisign_install_record(uint64_t, uint64_t, uint64_t);

uint32_t portable_minisign_install_record(minisign_installation *installation, const uint8_t *record,
                                          size_t record_len)
{
    return machine_minisign_install_record(address(installation), address(record), record_len);
}

uint32_t machine_minisign_install_no_record(uint64_t);

uint32_t portable_minisign_install_no_record(minisign_installation *installation)
{
    return machine_minisign_install_no_record(address(installation));
}

uint32_t machine_minisign_install_piece(uint64_t, uint64_t, uint64_t);

uint32_t portable_minisign_install_piece(minisign_installation *installation, const uint8_t *piece,
                                         size_t piece_len)
{
    return machine_minisign_install_piece(address(installation), address(piece), piece_len);
}

uint32_t machine_minisign_install_no_target(uint64_t);

uint32_t portable_minisign_install_no_target(minisign_installation *installation)
{
    return machine_minisign_install_no_target(address(installation));
}

uint32_t machine_minisign_install_signature(uint64_t, uint64_t, uint64_t, uint64_t, uint64_t, uint64_t, uint64_t,
                                            uint64_t, uint64_t);

uint32_t portable_minisign_install_signature(minisign_installation *installation, const uint8_t *sig_text,
                                             size_t sig_text_len, const uint8_t *file, size_t file_len,
                                             int64_t now, uint8_t *message, size_t room, size_t *message_len)
{
    uint64_t message_len_copy = 0;
    store64(address(&message_len_copy), *message_len);
    const uint32_t result = machine_minisign_install_signature(address(installation), address(sig_text),
                                                               sig_text_len, address(file), file_len, now,
                                                               address(message), room, address(&message_len_copy));
    *message_len = (size_t) load64(address(&message_len_copy));
    return result;
}

uint32_t machine_minisign_install_list(uint64_t, uint64_t, uint64_t, uint64_t, uint64_t);

uint32_t portable_minisign_install_list(minisign_installation *installation, const uint8_t *list, size_t list_len,
                                        const uint8_t *name, size_t name_len)
{
    return machine_minisign_install_list(address(installation), address(list), list_len, address(name), name_len);
}

uint32_t machine_minisign_install_question(uint64_t, uint64_t, uint64_t, uint64_t);

uint32_t portable_minisign_install_question(const minisign_installation *installation, uint8_t *public_key,
                                            uint8_t *signature, uint8_t *digest)
{
    return machine_minisign_install_question(address(installation), address(public_key), address(signature),
                                             address(digest));
}

uint32_t machine_minisign_install_answer(uint64_t, uint32_t);

uint32_t portable_minisign_install_answer(minisign_installation *installation, uint32_t answer)
{
    return machine_minisign_install_answer(address(installation), answer);
}

uint32_t machine_minisign_install_is_signed(uint64_t);

uint32_t portable_minisign_install_is_signed(const minisign_installation *installation)
{
    return machine_minisign_install_is_signed(address(installation));
}

uint64_t machine_minisign_install_version(uint64_t);

uint64_t portable_minisign_install_version(const minisign_installation *installation)
{
    return machine_minisign_install_version(address(installation));
}

uint32_t machine_minisign_install_size(uint64_t, uint64_t);

uint32_t portable_minisign_install_size(const minisign_installation *installation, uint64_t *size)
{
    uint64_t size_copy = 0;
    store64(address(&size_copy), *size);
    const uint32_t result = machine_minisign_install_size(address(installation), address(&size_copy));
    *size = (uint64_t) load64(address(&size_copy));
    return result;
}

uint64_t machine_minisign_install_record_text(uint64_t, uint64_t, uint64_t);

size_t portable_minisign_install_record_text(const minisign_installation *installation, uint8_t *text, size_t room)
{
    return (size_t) machine_minisign_install_record_text(address(installation), address(text), room);
}

uint32_t machine_minisign_install_error(uint64_t);

uint32_t portable_minisign_install_error(const minisign_installation *installation)
{
    return machine_minisign_install_error(address(installation));
}

uint64_t machine_minisign_install_line(uint64_t);

uint64_t portable_minisign_install_line(const minisign_installation *installation)
{
    return machine_minisign_install_line(address(installation));
}

uint32_t machine_minisign_judge_comment(uint64_t, uint64_t, uint64_t, uint64_t, uint32_t, uint64_t, uint64_t,
                                        uint64_t);

uint32_t portable_minisign_judge_comment(const uint8_t *comment, size_t comment_len, const uint8_t *file,
                                         size_t file_len, uint32_t numbering, uint64_t now, uint64_t kept,
                                         uint64_t *number)
{
    uint64_t number_copy = 0;
    store64(address(&number_copy), *number);
    const uint32_t result = machine_minisign_judge_comment(address(comment), comment_len, address(file), file_len,
                                                           numbering, now, kept, address(&number_copy));
    *number = (uint64_t) load64(address(&number_copy));
    return result;
}

uint32_t machine_minisign_list_ask(uint64_t, uint64_t, uint64_t, uint64_t, uint64_t, uint64_t, uint64_t, uint64_t,
                                   uint64_t, uint64_t, uint64_t, uint64_t);

uint32_t portable_minisign_list_ask(minisign_list *list, const minisign_public_key *key,
                                    const minisign_signature *signature, const uint8_t *sig_text,
                                    size_t sig_text_len, const uint8_t *list_name, size_t list_name_len,
                                    const uint8_t *text, size_t text_len, minisign_questions *questions,
                                    uint8_t *message, size_t room)
{
    minisign_public_key key_copy;
    const minisign_public_key *key_passed = CONVERTED(minisign_public_key, key, &key_copy);
    minisign_signature signature_copy;
    const minisign_signature *signature_passed = CONVERTED(minisign_signature, signature, &signature_copy);
    to_little_endian_minisign_list(list);
    to_little_endian_minisign_questions(questions);
    const uint32_t result = machine_minisign_list_ask(address(list), address(key_passed),
                                                      address(signature_passed), address(sig_text), sig_text_len,
                                                      address(list_name), list_name_len, address(text), text_len,
                                                      address(questions), address(message), room);
    from_little_endian_minisign_list(list);
    from_little_endian_minisign_questions(questions);
    return result;
}

uint32_t machine_minisign_list_ask_any(uint64_t, uint64_t, uint64_t, uint64_t, uint64_t, uint64_t, uint64_t,
                                       uint64_t, uint64_t, uint64_t);

uint32_t portable_minisign_list_ask_any(minisign_list *list, const minisign_public_key *key,
                                        const minisign_signature *signature, const uint8_t *sig_text,
                                        size_t sig_text_len, const uint8_t *text, size_t text_len,
                                        minisign_questions *questions, uint8_t *message, size_t room)
{
    minisign_public_key key_copy;
    const minisign_public_key *key_passed = CONVERTED(minisign_public_key, key, &key_copy);
    minisign_signature signature_copy;
    const minisign_signature *signature_passed = CONVERTED(minisign_signature, signature, &signature_copy);
    to_little_endian_minisign_list(list);
    to_little_endian_minisign_questions(questions);
    const uint32_t result = machine_minisign_list_ask_any(address(list), address(key_passed),
                                                          address(signature_passed), address(sig_text),
                                                          sig_text_len, address(text), text_len,
                                                          address(questions), address(message), room);
    from_little_endian_minisign_list(list);
    from_little_endian_minisign_questions(questions);
    return result;
}

uint32_t machine_minisign_list_verdict(uint64_t, uint32_t, uint32_t);

uint32_t portable_minisign_list_verdict(minisign_list *list, uint32_t first, uint32_t second)
{
    to_little_endian_minisign_list(list);
    const uint32_t result = machine_minisign_list_verdict(address(list), first, second);
    from_little_endian_minisign_list(list);
    return result;
}

uint32_t machine_minisign_list_find(uint64_t, uint64_t, uint64_t, uint32_t, uint64_t, uint64_t, uint64_t,
                                    uint64_t);

uint32_t portable_minisign_list_find(const minisign_list *list, const uint8_t *text, size_t text_len,
                                     uint32_t long_digest, const uint8_t *name, size_t name_len,
                                     minisign_list_entry *entry, uint64_t *line)
{
    minisign_list list_copy;
    const minisign_list *list_passed = CONVERTED(minisign_list, list, &list_copy);
    uint64_t line_copy = 0;
    to_little_endian_minisign_list_entry(entry);
    store64(address(&line_copy), *line);
    const uint32_t result = machine_minisign_list_find(address(list_passed), address(text), text_len, long_digest,
                                                       address(name), name_len, address(entry),
                                                       address(&line_copy));
    from_little_endian_minisign_list_entry(entry);
    *line = (uint64_t) load64(address(&line_copy));
    return result;
}

uint32_t machine_minisign_list_entries(uint64_t, uint64_t, uint64_t, uint32_t, uint64_t, uint64_t, uint64_t,
                                       uint64_t);

uint32_t portable_minisign_list_entries(const minisign_list *list, const uint8_t *text, size_t text_len,
                                        uint32_t long_digest, minisign_list_entry *entries, size_t entries_len,
                                        size_t *count, uint64_t *line)
{
    minisign_list list_copy;
    const minisign_list *list_passed = CONVERTED(minisign_list, list, &list_copy);
    uint64_t count_copy = 0;
    uint64_t line_copy = 0;
    if (!IS_LITTLE_ENDIAN) {
        for (size_t i = 0; i < entries_len; i++) {
            to_little_endian_minisign_list_entry(&entries[i]);
        }
    }
    store64(address(&count_copy), *count);
    store64(address(&line_copy), *line);
    const uint32_t result = machine_minisign_list_entries(address(list_passed), address(text), text_len,
                                                          long_digest, address(entries), entries_len,
                                                          address(&count_copy), address(&line_copy));
    if (!IS_LITTLE_ENDIAN) {
        for (size_t i = 0; i < entries_len; i++) {
            from_little_endian_minisign_list_entry(&entries[i]);
        }
    }
    *count = (size_t) load64(address(&count_copy));
    *line = (uint64_t) load64(address(&line_copy));
    return result;
}

uint32_t machine_minisign_list_begin(uint64_t, uint64_t);

uint32_t portable_minisign_list_begin(const minisign_list_entry *entry, minisign_list_file *file)
{
    minisign_list_entry entry_copy;
    const minisign_list_entry *entry_passed = CONVERTED(minisign_list_entry, entry, &entry_copy);
    return machine_minisign_list_begin(address(entry_passed), address(file));
}

uint32_t machine_minisign_list_update(uint64_t, uint64_t, uint64_t);

uint32_t portable_minisign_list_update(minisign_list_file *file, const uint8_t *data, size_t len)
{
    return machine_minisign_list_update(address(file), address(data), len);
}

uint32_t machine_minisign_list_finish(uint64_t);

uint32_t portable_minisign_list_finish(minisign_list_file *file)
{
    return machine_minisign_list_finish(address(file));
}

uint32_t machine_minisign_list_compare_trusting_your_hash(uint64_t, uint32_t, uint64_t, uint64_t);

uint32_t portable_minisign_list_compare_trusting_your_hash(const minisign_list_entry *entry, uint32_t hash,
                                                           const uint8_t *digest, size_t digest_len)
{
    minisign_list_entry entry_copy;
    const minisign_list_entry *entry_passed = CONVERTED(minisign_list_entry, entry, &entry_copy);
    return machine_minisign_list_compare_trusting_your_hash(address(entry_passed), hash, address(digest),
                                                            digest_len);
}

uint32_t machine_minisign_list_append(uint32_t, uint64_t, uint64_t, uint64_t, uint64_t, uint64_t, uint64_t,
                                      uint64_t);

uint32_t portable_minisign_list_append(uint32_t hash, const uint8_t *digest, size_t digest_len,
                                       const uint8_t *name, size_t name_len, uint8_t *text, size_t room,
                                       size_t *text_len)
{
    uint64_t text_len_copy = 0;
    store64(address(&text_len_copy), *text_len);
    const uint32_t result = machine_minisign_list_append(hash, address(digest), digest_len, address(name),
                                                         name_len, address(text), room, address(&text_len_copy));
    *text_len = (size_t) load64(address(&text_len_copy));
    return result;
}
