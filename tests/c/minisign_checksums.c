/* Makes random calls to all functions of minisign.h, and prints checksums of all bytes that they return (call_checksums.h). The
 * first calls cover all error numbers, all points that Ed25519 must reject, and files, limits and comments that must be
 * rejected. */
#include "call_checksums.h"

/* The points that Ed25519 must reject, and the smallest S that it must reject. */
#define POINT(first, middle, last) { first, middle, middle, middle, middle, middle, middle, middle, middle, middle, middle, \
                                     middle, middle, middle, middle, middle, middle, middle, middle, middle, middle, middle, \
                                     middle, middle, middle, middle, middle, middle, middle, middle, middle, last }
static const uint8_t weak_points[][32] = {
    POINT(0, 0, 0), POINT(0, 0, 0x80), POINT(1, 0, 0), POINT(1, 0, 0x80), POINT(0xec, 0xff, 0x7f), POINT(0xec, 0xff, 0xff),
    POINT(0xed, 0xff, 0x7f), POINT(0xee, 0xff, 0x7f), POINT(0xff, 0xff, 0xff), POINT(0xeb, 0xff, 0x7f), POINT(2, 0, 0),
    { 0x26, 0xe8, 0x95, 0x8f, 0xc2, 0xb2, 0x27, 0xb0, 0x45, 0xc3, 0xf4, 0x89, 0xf2, 0xef, 0x98, 0xf0,
      0xd5, 0xdf, 0xac, 0x05, 0xd3, 0xc6, 0x33, 0x39, 0xb1, 0x38, 0x02, 0x88, 0x6d, 0x53, 0xfc, 0x05 },
    { 0xc7, 0x17, 0x6a, 0x70, 0x3d, 0x4d, 0xd8, 0x4f, 0xba, 0x3c, 0x0b, 0x76, 0x0d, 0x10, 0x67, 0x0f,
      0x2a, 0x20, 0x53, 0xfa, 0x2c, 0x39, 0xcc, 0xc6, 0x4e, 0xc7, 0xfd, 0x77, 0x92, 0xac, 0x03, 0x7a },
};
static const uint8_t group_order[32] = { 0xed, 0xd3, 0xf5, 0x5c, 0x1a, 0x63, 0x12, 0x58, 0xd6, 0x9c, 0xf7,
                                         0xa2, 0xde, 0xf9, 0xde, 0x14, [31] = 0x10 };

/* The maximum number of scrypt rows for encrypted keys. Under an emulator, rows are slow. */
enum { MAX_ROWS = 2048, WORDS = (MAX_ROWS + 8) * 256, BYTES = 1 << 21 };

/* ---- The objects on which the calls work ---- */

static minisign_state states[OBJECT_COUNT];
static minisign_public_key public_keys[OBJECT_COUNT];
static minisign_signature signatures[OBJECT_COUNT];
/* The file from which each signature was read. */
static struct text signature_texts[OBJECT_COUNT];
static minisign_questions questions[OBJECT_COUNT];
static minisign_unopened_key unopened_keys[OBJECT_COUNT];
static minisign_secret_key secret_keys[OBJECT_COUNT];

static struct text public_key_files[OBJECT_COUNT], bare_keys[OBJECT_COUNT], signature_files[OBJECT_COUNT],
    secret_key_files[OBJECT_COUNT];
static struct text public_key_records[OBJECT_COUNT], signature_records[OBJECT_COUNT], secret_key_records[OBJECT_COUNT];

static uint8_t data[70000], output[BUFFER_BYTES];
static uint32_t words[WORDS];
static uint8_t bytes[BYTES];

/* ---- Adding structs to the checksum ---- */

static void add_state(const minisign_state *state)
{
    add_bytes(state, sizeof *state);
}

static void add_public_key(const minisign_public_key *key)
{
    add_number(key->mark);
    add_bytes(key->key, sizeof key->key);
    add_bytes(key->key_id, sizeof key->key_id);
}

static void add_signature(const minisign_signature *signature)
{
    add_number(signature->mark);
    add_bytes(signature->key_id, sizeof signature->key_id);
    add_bytes(signature->signature, sizeof signature->signature);
    add_bytes(signature->comment_signature, sizeof signature->comment_signature);
    add_number(signature->comment_offset);
    add_number(signature->comment_len);
    add_bytes(signature->text_digest, sizeof signature->text_digest);
    add_bytes(signature->algorithm, sizeof signature->algorithm);
    add_number(signature->legacy);
    add_number(signature->whole);
    add_number(signature->reserved);
}

static void add_unopened_key(const minisign_unopened_key *key)
{
    add_number(key->mark);
    add_bytes(key->bytes, sizeof key->bytes);
    add_number(key->is_sealed);
    add_number(key->log2_rows);
    add_number(key->work);
    add_number(key->reserved);
}

static void add_secret_key(const minisign_secret_key *key)
{
    add_number(key->mark);
    add_bytes(key->key_id, sizeof key->key_id);
    add_bytes(key->secret, sizeof key->secret);
}

/* Adds the whole output buffer to the checksum, and stores the written text. */
static void add_output(struct text *text, uint32_t error, size_t len)
{
    add_bytes(output, sizeof output);
    add_number(error == MINISIGN_OK ? len : 0);
    if (error == MINISIGN_OK) {
        set_text(text, output, len);
    }
}

/* ---- Random arguments ---- */

/* Overwrites the output buffer, and returns the size to pass for it. */
static size_t any_output_size(void)
{
    memset(output, 0x5a, sizeof output);
    return one_in(50) ? 0 : one_in(9) ? random_below(500) : sizeof output;
}

/* Returns the pointer to pass for the output buffer. It may be NULL if the size is 0. */
static uint8_t *output_or_null(size_t capacity)
{
    return capacity == 0 ? NULL : output;
}

static struct text any_password(void)
{
    static const char *const passwords[] = { "a", "b", "p\xc3\xa4\xe2\x82\xac", "" };
    struct text password = { .len = 0 };
    const char *rare = passwords[random_below(LENGTH(passwords))], *chosen = one_in(3) ? rare : passwords[0];

    set_text(&password, chosen, strlen(chosen));
    if (one_in(20)) {
        fill(password.bytes, password.len = random_below(70));
    }
    return password;
}

/* Returns one of a small set of key IDs, so that a signature and a key often have the same key ID. */
static void any_key_id(uint8_t key_id[8])
{
    static const uint8_t published[8] = { 0x1f, 0xe8, 0xb4, 0x42, 0x18, 0x0f, 0x62, 0xe7 };

    memset(key_id, (int) random_below(2), 8);
    if (one_in(4)) {
        memcpy(key_id, published, sizeof published);
    }
}

/* Writes a point, which is rarely a weak one. */
static void any_point(uint8_t point[32])
{
    fill(point, 32);
    if (one_in(8)) {
        memcpy(point, weak_points[random_below(LENGTH(weak_points))], 32);
    }
}

static void any_ed25519_signature(uint8_t signature[64])
{
    any_point(signature);
    fill(signature + 32, 32);
    signature[63] &= 0x0f;
    if (one_in(12)) {
        memcpy(signature + 32, group_order, sizeof group_order);
        signature[32] = (uint8_t) (signature[32] + random_below(3) - 1);
    }
}

/* Returns one of the unopened keys. In three of four calls it is an encrypted one, if there is any. */
static const minisign_unopened_key *any_unopened_key(void)
{
    int i = any_object();

    for (int n = 0, is_any = one_in(4); n < OBJECT_COUNT && !is_any && unopened_keys[i].is_sealed != 1; n++) {
        i = (i + 1) % OBJECT_COUNT;
    }
    return &unopened_keys[i];
}

/* Returns the maximum number of rows to compute for a key. If the key needs few rows, this is sometimes enough. Otherwise the
 * key is not derived, because that would take most of the time. */
static uint64_t any_rows(const minisign_unopened_key *key)
{
    uint64_t required = key->log2_rows > 20 ? UINT64_MAX : (UINT64_C(1) << key->log2_rows) * key->work;
    uint64_t edge = edge_number(), rows = one_in(16) ? MINISIGN_ANY_ROWS : one_in(2) ? required - 1 : edge % MAX_ROWS;

    return required > MAX_ROWS && rows >= required ? MAX_ROWS : rows;
}

/* Returns a value for keep_every, usually a small one, because rows that are not stored are computed again. */
static uint64_t any_keep_every(void)
{
    static const uint64_t rare[] = { 3, 7, 16, UINT64_C(1) << 32, UINT64_MAX };
    uint64_t number = rare[random_below(LENGTH(rare))], usual = random_below(3);

    return one_in(8) ? number : usual;
}

/* An opslimit with which nothing can be computed, because the low 32 bits of the work are 0, and a memlimit that is too high. */
static const uint64_t impossible_limits[2] = { UINT64_C(1) << 63, (UINT64_C(1) << 30) + 1 };

/* Returns limits that need few rows or are rejected. Rarely returns limits that minisign_secret_key_text accepts, which need
 * 16384 rows. */
static minisign_sealing any_sealing(int is_strong)
{
    minisign_sealing sealing = { .operations_limit = 32768, .memory_limit = UINT64_C(65536) << random_below(5) };
    uint64_t limit = edge_number();

    fill(sealing.salt, sizeof sealing.salt);
    if (one_in(12)) {
        memset(sealing.salt, 0, sizeof sealing.salt);
    }
    if (is_strong) {
        sealing.operations_limit = MINISIGN_LEAST_OPERATIONS_LIMIT - one_in(12);
        sealing.memory_limit = MINISIGN_LEAST_MEMORY_LIMIT - one_in(12);
    } else {
        /* With less memory, scrypt takes longer. */
        if (one_in(16) && (limit >= 65536 || one_in(4))) {
            sealing.memory_limit = limit;
        }
        if (one_in(16)) {
            sealing.operations_limit = random_below(70000);
        }
    }
    if (!one_in(is_strong ? 6 : 2)) {
        if (one_in(2)) {
            sealing.operations_limit = impossible_limits[0];
        } else {
            sealing.memory_limit = impossible_limits[1];
        }
    }
    return sealing;
}

/* ---- States ---- */

static void call_init(void)
{
    minisign_state *state = &states[any_object()];

    minisign_init(state);
    RECORD_CALL(minisign_init);
    add_state(state);
}

static void call_update(void)
{
    minisign_state *state = &states[any_object()];
    size_t len = one_in(50) ? random_below(sizeof data) : one_in(9) ? 0 : random_below(400);
    size_t at = random_below((uint32_t) (sizeof data - len));

    CALL(minisign_update, state, len == 0 ? NULL : data + at, len);
    add_state(state);
}

static void call_digest(void)
{
    minisign_state *state = &states[any_object()];
    uint8_t *digest = questions[any_object()].digest;

    CALL(minisign_digest, state, digest);
    add_bytes(digest, 64);
    add_state(state);
}

/* Clears, copies or damages an object, as a caller might. */
static void call_clear(void)
{
    minisign_state *state = &states[any_object()], *source = &states[any_object()];
    minisign_public_key *public_key = &public_keys[any_object()];
    minisign_signature *signature = &signatures[any_object()];
    minisign_unopened_key *unopened = &unopened_keys[any_object()];
    minisign_secret_key *secret_key = &secret_keys[any_object()];
    size_t part = random_below(sizeof *state + 1);

    switch (random_below(10)) {
    case 0: minisign_clear(state, sizeof *state); break;
    case 1: minisign_clear(state, part); break;
    case 2: minisign_clear(public_key, sizeof *public_key); break;
    case 3: minisign_clear(unopened, sizeof *unopened); break;
    case 4: minisign_clear(secret_key, sizeof *secret_key); break;
    case 5: signature->mark ^= UINT64_C(1) << random_below(64); break;
    case 6: public_key->mark ^= UINT64_C(1) << random_below(64); break;
    default: *state = *source; break;
    }
    RECORD_CALL(minisign_clear);
    add_state(state);
    add_unopened_key(unopened);
    add_secret_key(secret_key);
}

/* ---- Verifying ---- */

static void call_read_public_key(void)
{
    struct text text = any_text(one_in(9) ? bare_keys : public_key_files);
    minisign_public_key *key = &public_keys[any_object()];

    CALL(minisign_read_public_key, bytes_or_null(&text), text.len, key);
    add_public_key(key);
}

static void call_read_bare_public_key(void)
{
    struct text text = any_text(bare_keys);
    minisign_public_key *key = &public_keys[any_object()];

    CALL(minisign_read_bare_public_key, bytes_or_null(&text), text.len, key);
    add_public_key(key);
}

static void call_read_public_key_record(void)
{
    struct text text = any_text(public_key_records);
    minisign_public_key *key = &public_keys[any_object()];

    CALL(minisign_read_public_key_record, bytes_or_null(&text), text.len, key);
    add_public_key(key);
}

static void call_public_key_record(void)
{
    const minisign_public_key *key = &public_keys[any_object()];
    struct text *record = &public_key_records[any_object()];

    any_output_size();
    CALL(minisign_public_key_record, key, output);
    add_output(record, last_result, MINISIGN_PUBLIC_KEY_RECORD_BYTES);
}

static void call_read_signature(void)
{
    struct text text = any_text(signature_files);
    int i = any_object();

    if (CALL(minisign_read_signature, bytes_or_null(&text), text.len, &signatures[i]) == MINISIGN_OK) {
        signature_texts[i] = text;
    }
    add_signature(&signatures[i]);
}

static void call_read_signature_record(void)
{
    struct text text = any_text(signature_records);
    minisign_signature *signature = &signatures[any_object()];
    size_t at = random_below(2);
    uint8_t new_byte = (uint8_t) random_number();

    if (text.len > at && one_in(6)) {
        text.bytes[at] = new_byte;
    }
    CALL(minisign_read_signature_record, bytes_or_null(&text), text.len, signature);
    add_signature(signature);
}

static void call_signature_record(void)
{
    const minisign_signature *signature = &signatures[any_object()];
    struct text *record = &signature_records[any_object()];

    any_output_size();
    CALL(minisign_signature_record, signature, output);
    add_output(record, last_result, MINISIGN_SIGNATURE_RECORD_BYTES);
}

static uint32_t any_legacy(void)
{
    uint32_t rare = (uint32_t) edge_number();

    return one_in(20) ? rare : !one_in(3);
}

/* Returns one of the public keys. In three of four calls it has the key ID of this signature, if there is such a key. */
static const minisign_public_key *any_key_for(const minisign_signature *signature)
{
    int i = any_object();

    for (int n = 0, is_any = one_in(4);
         n < OBJECT_COUNT && !is_any && memcmp(public_keys[i].key_id, signature->key_id, sizeof signature->key_id) != 0; n++) {
        i = (i + 1) % OBJECT_COUNT;
    }
    return &public_keys[i];
}

static void call_ask(void)
{
    minisign_state *state = &states[any_object()];
    int i = any_object();
    const minisign_public_key *key = any_key_for(&signatures[i]);
    minisign_questions *result = &questions[any_object()];
    struct text text = one_in(16) ? any_text(signature_files) : signature_texts[i];
    uint32_t legacy = any_legacy();
    size_t capacity = any_output_size();

    CALL(minisign_ask, state, key, &signatures[i], bytes_or_null(&text), text.len, legacy, result, output_or_null(capacity),
         capacity);
    add_questions(result);
    add_bytes(output, sizeof output);
    add_state(state);
}

static void call_ask_bare(void)
{
    minisign_state *state = &states[any_object()];
    const minisign_signature *signature = &signatures[any_object()];
    const minisign_public_key *key = any_key_for(signature);
    minisign_questions *result = &questions[any_object()];
    uint32_t legacy = any_legacy();

    CALL(minisign_ask_bare, state, key, signature, legacy, result);
    add_questions(result);
    add_state(state);
}

static void call_verdicts(void)
{
    minisign_state *state = &states[any_object()];
    enum minisign_answer first = any_answer(), second = any_answer();

    switch (random_below(4)) {
    case 0: CALL(minisign_comment_verdict, state, second); break;
    case 1: CALL(minisign_bare_verdict, state, first); break;
    default: CALL(minisign_verdict, state, first, second); break;
    }
    add_state(state);
}

/* Makes all calls that verify a signature. Verifying succeeds if the key IDs are equal and the answers are yes. */
static void verify(minisign_state *state, const minisign_public_key *key, const minisign_signature *signature,
                   const struct text *file, int is_bare, uint32_t legacy, enum minisign_answer first,
                   enum minisign_answer second)
{
    size_t len = random_below(400);
    minisign_questions result;

    memset(&result, 0x5a, sizeof result);
    memset(output, 0x5a, sizeof output);
    minisign_init(state);
    if (is_bare) {
        CALL(minisign_ask_bare, state, key, signature, legacy, &result);
    } else {
        CALL(minisign_ask, state, key, signature, file->bytes, file->len, legacy, &result, output, sizeof output);
    }
    CALL(minisign_update, state, data, len);
    CALL(minisign_digest, state, result.digest);
    add_questions(&result);
    add_bytes(output, sizeof output);
    if (is_bare) {
        CALL(minisign_bare_verdict, state, first);
    } else {
        CALL(minisign_comment_verdict, state, second);
        CALL(minisign_verdict, state, first, second);
    }
    add_state(state);
}

static void call_whole_verification(void)
{
    minisign_state *state = &states[any_object()];
    int i = any_object(), is_bare = one_in(2);
    const minisign_public_key *key = any_key_for(&signatures[i]);
    enum minisign_answer first = any_answer(), second = any_answer();
    uint32_t legacy = any_legacy();

    verify(state, key, &signatures[i], &signature_texts[i], is_bare, legacy, first, second);
}

/* ---- Secret keys ---- */

static void call_read_secret_key(void)
{
    struct text text = any_text(secret_key_files);
    minisign_unopened_key *key = &unopened_keys[any_object()];

    CALL(minisign_read_secret_key, bytes_or_null(&text), text.len, key);
    add_unopened_key(key);
}

/* Reads a record, which sometimes has other limits or another key derivation. */
static void call_read_secret_key_record(void)
{
    struct text text = any_text(secret_key_records);
    minisign_unopened_key *key = &unopened_keys[any_object()], *source = &unopened_keys[any_object()];
    uint64_t limit = edge_number();
    size_t at = one_in(2) ? 38 : 46;

    if (source->is_sealed == 1 && !one_in(3)) {
        set_text(&text, source->bytes, sizeof source->bytes);
    }
    if (text.len >= MINISIGN_SECRET_KEY_RECORD_BYTES && one_in(3)) {
        if (one_in(3)) {
            limit = impossible_limits[at == 46];
        }
        for (size_t i = 0; i < 8; i++) {
            text.bytes[at + i] = (uint8_t) (limit >> 8 * i);
        }
    }
    if (text.len >= MINISIGN_SECRET_KEY_RECORD_BYTES && one_in(20)) {
        at = 2 + random_below(2);
        text.bytes[at] ^= (uint8_t) (1 + random_below(255));
    }
    CALL(minisign_read_secret_key_record, bytes_or_null(&text), text.len, key);
    add_unopened_key(key);
}

static void call_encode_unopened_key(void)
{
    const minisign_unopened_key *key = &unopened_keys[any_object()];
    struct text comment = any_comment(), *file = &secret_key_files[any_object()];
    size_t capacity = any_output_size(), len = 0;

    if (CALL(minisign_encode_unopened_key, key, bytes_or_null(&comment), comment.len, output_or_null(capacity), capacity, &len)
        == MINISIGN_OK) {
        set_text(&secret_key_records[any_object()], key->bytes, sizeof key->bytes);
    }
    add_output(file, last_result, len);
}

static void call_test_sealed_key(void)
{
    const minisign_unopened_key *key = any_unopened_key();
    uint64_t rows = any_rows(key);

    CALL(minisign_test_sealed_key, key, rows);
}

static void call_open_unsealed_key(void)
{
    const minisign_unopened_key *unopened = &unopened_keys[any_object()];
    minisign_secret_key *key = &secret_keys[any_object()];

    CALL(minisign_open_unsealed_key, unopened, key);
    add_secret_key(key);
}

static void call_open_sealed_key(void)
{
    const minisign_unopened_key *unopened = any_unopened_key();
    minisign_secret_key *key = &secret_keys[any_object()];
    struct text password = any_password();
    uint64_t keep_every = any_keep_every(), rows = any_rows(unopened);

    CALL(minisign_open_sealed_key, unopened, bytes_or_null(&password), password.len, keep_every, rows, key);
    add_secret_key(key);
}

/* Decrypts a key in place. The buffers have `excess_words` words and `excess_bytes` bytes more than minisign_opening_memory says;
 * these numbers may be negative. */
static void open_in_place(const minisign_unopened_key *unopened, const struct text *password, uint64_t keep_every,
                          uint64_t rows, int excess_words, int excess_bytes, minisign_secret_key *key)
{
    uint64_t required_words = 7, required_bytes = 7;
    size_t words_len, bytes_len;

    minisign_opening_memory(unopened, keep_every, rows, &required_words, &required_bytes);
    RECORD_CALL(minisign_opening_memory);
    add_number(required_words);
    add_number(required_bytes);
    words_len = required_words > WORDS - 40 ? 0 : (size_t) required_words;
    bytes_len = required_bytes > BYTES - 40 ? 0 : (size_t) required_bytes;
    words_len = excess_words >= 0 || words_len > 0 ? words_len + (size_t) excess_words : 0;
    bytes_len = excess_bytes >= 0 || bytes_len > 0 ? bytes_len + (size_t) excess_bytes : 0;
    memset(words, 0x5a, words_len * sizeof *words);
    memset(bytes, 0x5a, bytes_len);
    CALL(minisign_open_sealed_key_in_place, unopened, bytes_or_null(password), password->len, keep_every, rows,
         words_len == 0 ? NULL : words, words_len, bytes_len == 0 ? NULL : bytes, bytes_len, key);
    add_number((uint64_t) is_zeros(words, words_len * sizeof *words));
    add_number((uint64_t) is_zeros(bytes, bytes_len));
    add_secret_key(key);
}

/* Returns a number of words or bytes by which a buffer is too large or too small. */
static int any_excess(void)
{
    int more = (int) random_below(40);

    return one_in(9) ? -1 : one_in(2) ? more : 0;
}

static void call_open_sealed_key_in_place(void)
{
    const minisign_unopened_key *unopened = any_unopened_key();
    minisign_secret_key *key = &secret_keys[any_object()];
    struct text password = any_password();
    uint64_t keep_every = any_keep_every(), rows = any_rows(unopened);
    int excess_words = any_excess(), excess_bytes = any_excess();

    open_in_place(unopened, &password, keep_every, rows, excess_words, excess_bytes, key);
}

static void call_take_secret_key(void)
{
    minisign_secret_key *key = &secret_keys[any_object()];
    minisign_new_key new_key;

    any_key_id(new_key.key_id);
    fill(new_key.secret, 32);
    any_point(new_key.secret + 32);
    minisign_take_secret_key(&new_key, key);
    RECORD_CALL(minisign_take_secret_key);
    add_secret_key(key);
}

static void call_public_key_of(void)
{
    const minisign_secret_key *key = &secret_keys[any_object()];
    minisign_public_key *public_key = &public_keys[any_object()];

    CALL(minisign_public_key_of, key, public_key);
    add_public_key(public_key);
}

static void call_secret_key_record(void)
{
    const minisign_secret_key *key = &secret_keys[any_object()];
    struct text *record = &secret_key_records[any_object()];

    any_output_size();
    CALL(minisign_secret_key_record, key, output);
    add_output(record, last_result, MINISIGN_SECRET_KEY_RECORD_BYTES);
}

/* ---- Writing files ---- */

static void call_comment_message(void)
{
    struct text comment = any_comment();
    uint8_t first[64];
    size_t capacity = any_output_size();

    fill(first, sizeof first);
    CALL(minisign_comment_message, first, bytes_or_null(&comment), comment.len, output_or_null(capacity), capacity);
    add_bytes(output, sizeof output);
}

static void call_signed_text(void)
{
    const minisign_public_key *key = &public_keys[any_object()];
    struct text trusted = any_comment(), untrusted = any_comment(), *file = &signature_files[any_object()];
    size_t capacity = any_output_size(), len = 0;
    minisign_signed_parts parts = { .trusted_comment = bytes_or_null(&trusted), .trusted_comment_len = trusted.len,
                                    .untrusted_comment = bytes_or_null(&untrusted), .untrusted_comment_len = untrusted.len };

    any_ed25519_signature(parts.signature);
    any_ed25519_signature(parts.comment_signature);
    CALL(minisign_signed_text, key, &parts, output_or_null(capacity), capacity, &len);
    add_output(file, last_result, len);
}

static void call_secret_key_text(void)
{
    const minisign_secret_key *key = &secret_keys[any_object()];
    struct text password = any_password(), comment = any_comment(), *file = &secret_key_files[any_object()];
    int is_strong = one_in(8);
    minisign_sealing sealing = any_sealing(is_strong);
    uint64_t keep_every = is_strong ? MINISIGN_KEEP_EVERY_ROW : any_keep_every();
    uint32_t rare = (uint32_t) edge_number(), with_password = one_in(10) ? 1 : one_in(6) ? rare : 0;
    size_t capacity = any_output_size(), len = 0;

    if (is_strong || one_in(3)) {
        CALL(minisign_secret_key_text, key, with_password, bytes_or_null(&password), password.len, &sealing, keep_every,
             bytes_or_null(&comment), comment.len, output_or_null(capacity), capacity, &len);
    } else {
        CALL(minisign_secret_key_text_with_any_limits, key, with_password, bytes_or_null(&password), password.len, &sealing,
             keep_every, bytes_or_null(&comment), comment.len, output_or_null(capacity), capacity, &len);
    }
    add_output(file, last_result, len);
}

/* Stores the second line of a public key file. */
static void keep_bare_key(void)
{
    const struct text *file = &public_key_files[any_object()];
    const uint8_t *line = memchr(file->bytes, '\n', file->len);

    if (line != NULL) {
        size_t len = file->len - (size_t) (line + 1 - file->bytes);

        set_text(&bare_keys[any_object()], line + 1, len > 0 ? len - 1 : 0);
    }
}

static void call_public_key_text(void)
{
    const minisign_secret_key *key = &secret_keys[any_object()];
    struct text comment = any_comment(), *file = &public_key_files[any_object()];
    size_t capacity = any_output_size(), len = 0;

    CALL(minisign_public_key_text, key, bytes_or_null(&comment), comment.len, output_or_null(capacity), capacity, &len);
    add_output(file, last_result, len);
    keep_bare_key();
}

static void call_encode_public_key(void)
{
    const minisign_public_key *key = &public_keys[any_object()];
    struct text comment = any_comment(), *file = &public_key_files[any_object()];
    size_t capacity = any_output_size(), len = 0;

    CALL(minisign_encode_public_key, key, bytes_or_null(&comment), comment.len, output_or_null(capacity), capacity, &len);
    add_output(file, last_result, len);
}

/* Calls the functions that take an error number, with all numbers that are or may become errors. */
static void call_with_each_number(void)
{
    for (uint32_t number = 0; number < MAX_RESULTS; number++) {
        memset(output, 0x5a, sizeof output);
        add_number(minisign_error_text(number, (char *) output, MINISIGN_ERROR_TEXT_BYTES));
        RECORD_CALL(minisign_error_text);
        add_bytes(output, MINISIGN_ERROR_TEXT_BYTES);
        CALL(minisign_error_kind, number);
    }
}

/* Verifies a legacy signature and a prehashed one with each flag and each pair of answers. */
static void call_with_each_flag(void)
{
    static const char *const files[] = { LEGACY_SIGNATURE, SIGNATURE };

    for (uint32_t i = 0; i < 48; i++) {
        struct text file = { .len = 0 };
        enum minisign_answer first = i / 12 % 2 == 0 ? MINISIGN_ANSWER_YES : MINISIGN_ANSWER_NO;
        enum minisign_answer second = i < 24 ? MINISIGN_ANSWER_YES : MINISIGN_ANSWER_NO;

        public_keys[0] = key_of(KEY);
        append_string(&file, files[i % 2]);
        CALL(minisign_read_signature, file.bytes, file.len, &signatures[0]);
        verify(&states[0], &public_keys[0], &signatures[0], &file, i / 2 % 2, i / 4 % 3, first, second);
    }
}

/* Verifies signatures whose public key or R is each point that Ed25519 must reject, or differs from it in one bit. */
static void call_with_each_point(void)
{
    for (size_t i = 0; i < LENGTH(weak_points); i++) {
        for (int changed = -1; changed < 32; changed++) {
            for (int place = 0; place < 3; place++) {
                minisign_new_key new_key;
                minisign_secret_key secret_key;
                minisign_public_key *key = &public_keys[0];
                minisign_signed_parts parts = { .trusted_comment = data, .trusted_comment_len = 0 };
                uint8_t *point = place == 0 ? new_key.secret + 32 : place == 1 ? parts.signature : parts.comment_signature;
                size_t len = 0;

                memset(&new_key, 0x11, sizeof new_key);
                memset(parts.signature, 0x0a, sizeof parts.signature);
                memset(parts.comment_signature, 0x0b, sizeof parts.comment_signature);
                memcpy(point, weak_points[i], 32);
                if (changed >= 0) {
                    point[changed] ^= (uint8_t) (1 << changed % 8);
                }
                minisign_take_secret_key(&new_key, &secret_key);
                CALL(minisign_public_key_of, &secret_key, key);
                CALL(minisign_signed_text, key, &parts, output, sizeof output, &len);
                if (last_result == MINISIGN_OK) {
                    set_text(&signature_texts[0], output, len);
                    CALL(minisign_read_signature, output, len, &signatures[0]);
                    verify(&states[0], key, &signatures[0], &signature_texts[0], place == 2, 1, MINISIGN_ANSWER_YES,
                           MINISIGN_ANSWER_YES);
                }
            }
        }
    }
}

/* Encrypts and opens a key with each of many limits: with the right and with a wrong password, and with the required amount of
 * memory and with other amounts. */
static void call_with_each_limit(void)
{
    static const uint64_t limits[] = {
        0, 32768, 65536, UINT64_C(1) << 20, UINT64_C(1) << 24, UINT64_C(1) << 30, (UINT64_C(1) << 30) + 1,
        UINT64_C(1) << 63,
    };
    static const int more[][2] = { { 0, 0 }, { 1, 9 }, { -1, 0 }, { 0, -1 } };
    minisign_sealing sealing = { .operations_limit = 32768, .memory_limit = 65536, .salt = { 1 } };
    minisign_new_key new_key;
    minisign_secret_key secret_key;
    minisign_unopened_key *key = &unopened_keys[0];
    struct text password = { .bytes = "a", .len = 1 }, wrong = { .bytes = "b", .len = 1 }, record;
    size_t len = 0;

    memset(&new_key, 0x11, sizeof new_key);
    minisign_take_secret_key(&new_key, &secret_key);
    CALL(minisign_secret_key_text_with_any_limits, &secret_key, 1, password.bytes, password.len, &sealing, 1, NULL, 0,
         output, sizeof output, &len);
    CALL(minisign_read_secret_key, output, len, key);
    add_unopened_key(key);
    set_text(&record, key->bytes, sizeof key->bytes);
    for (size_t i = 0; i < LENGTH(more); i++) {
        open_in_place(key, &password, 1 + i % 2, MINISIGN_ANY_ROWS, more[i][0], more[i][1], &secret_keys[0]);
    }
    open_in_place(key, &wrong, 1, MINISIGN_ANY_ROWS, 0, 0, &secret_keys[0]);
    open_in_place(key, &password, 3, MINISIGN_ANY_ROWS, 0, 0, &secret_keys[0]);
    CALL(minisign_open_sealed_key, key, password.bytes, password.len, 2, MINISIGN_ANY_ROWS, &secret_keys[0]);
    add_secret_key(&secret_keys[0]);
    CALL(minisign_open_sealed_key, key, wrong.bytes, wrong.len, 3, MINISIGN_ANY_ROWS, &secret_keys[0]);
    add_secret_key(&secret_keys[0]);
    CALL(minisign_secret_key_text, &secret_key, 1, (const uint8_t *) "\xff", 1, &sealing, 1, NULL, 0, output, sizeof output, &len);
    CALL(minisign_secret_key_text_with_any_limits, &secret_key, 1, (const uint8_t *) "\xff", 1, &sealing, 1, NULL, 0,
         output, sizeof output, &len);
    CALL(minisign_secret_key_text, &secret_key, 1, NULL, 0, &sealing, 1, NULL, 0, output, sizeof output, &len);
    CALL(minisign_secret_key_text_with_any_limits, &secret_key, 1, NULL, 0, &sealing, 1, NULL, 0, output, sizeof output, &len);
    for (size_t i = 0; i < LENGTH(limits) * LENGTH(limits); i++) {
        uint64_t operations = limits[i / LENGTH(limits)], memory = limits[i % LENGTH(limits)], rows;

        for (size_t n = 0; n < 8; n++) {
            record.bytes[38 + n] = (uint8_t) (operations >> 8 * n);
            record.bytes[46 + n] = (uint8_t) (memory >> 8 * n);
        }
        CALL(minisign_read_secret_key_record, record.bytes, record.len, key);
        add_unopened_key(key);
        rows = any_rows(key);
        CALL(minisign_test_sealed_key, key, rows);
        CALL(minisign_open_sealed_key, key, password.bytes, password.len, 1, rows, &secret_keys[0]);
        add_secret_key(&secret_keys[0]);
        open_in_place(key, &password, 1, rows, 0, 0, &secret_keys[0]);
        if (operations == impossible_limits[0] || memory >= impossible_limits[1]) {
            sealing.operations_limit = operations;
            sealing.memory_limit = memory;
            CALL(minisign_secret_key_text, &secret_key, 1, password.bytes, password.len, &sealing, 1, NULL, 0, output,
                 sizeof output, &len);
            CALL(minisign_secret_key_text_with_any_limits, &secret_key, 1, password.bytes, password.len, &sealing, 1, NULL, 0,
                 output, sizeof output, &len);
        }
    }
}

/* Reads each file truncated at each length, with one changed bit in each byte, and with padding. */
static void call_with_each_length(void)
{
    static const char *const files[] = { KEY, KEY_LINE, SIGNATURE, LEGACY_SIGNATURE, SECRET_KEY };

    for (size_t file = 0; file < LENGTH(files); file++) {
        size_t len = strlen(files[file]);

        for (size_t i = 0; i < 2 * len + 5; i++) {
            struct text text = { .len = 0 };

            append_string(&text, files[file]);
            if (i < len) {
                text.len = i;
            } else if (i < 2 * len) {
                text.bytes[i - len] ^= 1;
            } else {
                pad_last_line(&text, i - 2 * len);
            }
            CALL(minisign_read_public_key, bytes_or_null(&text), text.len, &public_keys[0]);
            add_public_key(&public_keys[0]);
            CALL(minisign_read_bare_public_key, bytes_or_null(&text), text.len, &public_keys[0]);
            add_public_key(&public_keys[0]);
            CALL(minisign_read_signature, bytes_or_null(&text), text.len, &signatures[0]);
            add_signature(&signatures[0]);
            CALL(minisign_read_secret_key, bytes_or_null(&text), text.len, &unopened_keys[0]);
            add_unopened_key(&unopened_keys[0]);
        }
    }
}

/* Writes each kind of file with each of these comments, most of which are rejected. */
static void call_with_each_comment(void)
{
    static const char *const comments[] = {
        "", "x", "\n", "\r", "\xff", "\xed\xa0\x80", "\xc0\x80", "\xc3\xa9", "\x7f", "\x1b", "\xe2\x80\xa8",
        "\xc2\x85",
    };
    minisign_sealing sealing = { .operations_limit = 32768, .memory_limit = 65536 };
    minisign_new_key new_key;
    minisign_secret_key secret_key;
    minisign_public_key public_key;

    memset(&new_key, 0x11, sizeof new_key);
    minisign_take_secret_key(&new_key, &secret_key);
    CALL(minisign_public_key_of, &secret_key, &public_key);
    for (size_t i = 0; i < LENGTH(comments) + 3; i++) {
        struct text comment = { .len = 0 };
        size_t len = 0;

        if (i < LENGTH(comments)) {
            append_string(&comment, comments[i]);
        } else {
            comment.len = i == LENGTH(comments) ? 1 : 1000 * (i - LENGTH(comments)) + 24;
            memset(comment.bytes, i == LENGTH(comments) ? 0 : 'y', comment.len);
        }
        memset(output, 0x5a, sizeof output);
        CALL(minisign_public_key_text, &secret_key, bytes_or_null(&comment), comment.len, output, sizeof output, &len);
        add_bytes(output, sizeof output);
        CALL(minisign_encode_public_key, &public_key, bytes_or_null(&comment), comment.len, output, sizeof output, &len);
        add_bytes(output, sizeof output);
        CALL(minisign_secret_key_text_with_any_limits, &secret_key, 0, NULL, 0, &sealing, 1, bytes_or_null(&comment), comment.len,
             output, sizeof output, &len);
        add_bytes(output, sizeof output);
        CALL(minisign_secret_key_text, &secret_key, 0, NULL, 0, &sealing, 1, bytes_or_null(&comment), comment.len,
             output, sizeof output, &len);
        add_bytes(output, sizeof output);
        if (last_result == MINISIGN_OK) {
            CALL(minisign_read_secret_key, output, len, &unopened_keys[1]);
        }
        CALL(minisign_encode_unopened_key, &unopened_keys[1], bytes_or_null(&comment), comment.len, output, sizeof output, &len);
        add_bytes(output, sizeof output);
    }
}

static void call_functions_of_numbers(void)
{
    uint32_t rare = (uint32_t) edge_number(), usual = random_below(100), number = one_in(9) ? rare : usual;
    size_t capacity = one_in(2) ? MINISIGN_ERROR_TEXT_BYTES : random_below(60);

    memset(output, 0x5a, sizeof output);
    add_number(minisign_error_text(number, capacity == 0 ? NULL : (char *) output, capacity));
    RECORD_CALL(minisign_error_text);
    add_bytes(output, MINISIGN_ERROR_TEXT_BYTES);
    CALL(minisign_error_kind, number);
    add_number(minisign_version());
    RECORD_CALL(minisign_version);
    add_number(minisign_usual_sealing(output).memory_limit);
    RECORD_CALL(minisign_usual_sealing);
}

/* ---- Running ---- */

/* Replaces texts that the library wrote by published ones. */
static void call_nothing(void)
{
    static const char *const files[] = { SIGNATURE, LEGACY_SIGNATURE, LEGACY_SIGNATURE, OTHER_KEY_SIGNATURE };
    const char *file = files[random_below(LENGTH(files))];
    int i = any_object();

    set_text(&public_key_files[i], KEY, strlen(KEY));
    set_text(&bare_keys[i], KEY_LINE, strlen(KEY_LINE));
    set_text(&signature_files[i], file, strlen(file));
    if (one_in(3)) {
        set_text(&secret_key_files[i], SECRET_KEY, strlen(SECRET_KEY));
    }
}

static void begin(void)
{
    fill(data, sizeof data);
    for (int i = 0; i < OBJECT_COUNT; i++) {
        call_nothing();
        call_take_secret_key();
    }
    call_with_each_number();
    call_with_each_flag();
    call_with_each_point();
    call_with_each_length();
    call_with_each_limit();
    call_with_each_comment();
}

static void make_calls(void)
{
    static void (*const all[])(void) = {
        call_nothing, call_whole_verification, call_init, call_init, call_update, call_update, call_digest, call_clear,
        call_read_public_key, call_read_bare_public_key, call_read_public_key_record, call_public_key_record,
        call_read_signature, call_read_signature, call_read_signature_record, call_signature_record, call_ask,
        call_ask, call_ask, call_ask, call_ask_bare, call_verdicts, call_verdicts, call_verdicts, call_read_secret_key,
        call_read_secret_key, call_read_secret_key_record, call_encode_unopened_key, call_test_sealed_key,
        call_open_unsealed_key, call_open_sealed_key, call_open_sealed_key_in_place, call_take_secret_key,
        call_public_key_of, call_public_key_of, call_secret_key_record, call_comment_message, call_signed_text,
        call_signed_text, call_secret_key_text, call_public_key_text, call_encode_public_key, call_functions_of_numbers,
    };

    all[random_below(LENGTH(all))]();
}

int main(int argc, char **argv)
{
    return run(argc, argv, begin, make_calls);
}
