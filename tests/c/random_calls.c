/*
 * Makes 2,000,000 random calls, or 100,000 with -DIS_EMULATED, with a few states, keys and signatures, and compares them
 * with a simple model of each object. Each call must return the error that the model predicts. After an error, nothing
 * may have changed. The digest must be that of the data that the model has received.
 */
#include "texts_for_tests.h"

#define CALL_COUNT (IS_EMULATED ? 100000 : 2000000)

enum { STATE_COUNT = 4, KEY_COUNT = 3, SIGNATURE_COUNT = 4, MAX_DATA = 300, BUFFER_SIZE = 1024 };

#define FIRST_LINE "untrusted comment: x\n"

/* Signature files. For each, the error of parsing it, the error of minisign_ask with the key, and the values that minisign_ask
 * returns. */
static const struct {
    const char *text;
    enum minisign_error error;
    int legacy, whole;
    size_t comment_len;
} rows[] = {
    { FIRST_LINE RECORD "\ntrusted comment: abc\n" COMMENT_RECORD, MINISIGN_OK, 0, 1, 3 },
    { FIRST_LINE RECORD "\ntrusted comment: \n" COMMENT_RECORD "\n", MINISIGN_OK, 0, 1, 0 },
    { FIRST_LINE RECORD "\ntrusted comment: abcd\nAAAA\n", MINISIGN_OK, 0, 0, 4 },
    { FIRST_LINE LEGACY_RECORD "\ntrusted comment: abc\n" COMMENT_RECORD "\n", MINISIGN_OK, 1, 1, 3 },
    { FIRST_LINE LEGACY_RECORD "\ntrusted comment: \nAAAA\n", MINISIGN_OK, 1, 0, 0 },
    { FIRST_LINE OTHER_KEY_RECORD "\ntrusted comment: abc\n" COMMENT_RECORD "\n", MINISIGN_DIFFERENT_KEY_IDS, 0, 1, 3 },
    { "", MINISIGN_MISSING_UNTRUSTED_COMMENT, 0, 0, 0 },
    { "\xff", MINISIGN_NOT_UTF8, 0, 0, 0 },
    { FIRST_LINE RECORD "\ntrusted comment: abc\n!", MINISIGN_SIGNATURE_NOT_BASE64, 0, 0, 0 },
};

enum { ROW_COUNT = LENGTH(rows) };
enum phase { UNINITIALIZED, HASHING, FINALIZED };

/* The errors of minisign_update and minisign_digest in each phase. */
static const enum minisign_error error_of_update[] = { MINISIGN_NOT_BEGUN, MINISIGN_OK, MINISIGN_ALREADY_ASKED };

/* The model of a state. */
struct model {
    enum phase phase;
    int is_asked, whole;
    size_t len;
    uint8_t data[MAX_DATA];
};

static minisign_state states[STATE_COUNT];
static struct model models[STATE_COUNT];
static minisign_secret_key keys[KEY_COUNT];
static int opened[KEY_COUNT];
static minisign_signature signatures[SIGNATURE_COUNT];
/* The row from which each signature was read, or ROW_COUNT if none was read. */
static size_t row_of[SIGNATURE_COUNT];
/* The values of the field `mark` in an opened key, and in a signature that was read. */
static uint64_t key_mark, signature_mark;
static minisign_public_key public_key;
static const uint8_t zero_signature[64];

static uint64_t seed = 1;

static uint32_t random_below(uint32_t limit)
{
    seed = seed * UINT64_C(6364136223846793005) + UINT64_C(1442695040888963407);
    return (uint32_t) (seed >> 33) % limit;
}

static uint32_t random_answer(void)
{
    static const uint32_t answers[] = { 0, 1, 2, 3, YES - 1, YES + 1, NO - 1, NO + 1, 0x736579, 0x6f6e, 0xff796573, 0x80006e6f, 255,
                                        256, 65536, 0x80000000, 0xfffffffe, UINT32_MAX };

    return random_below(8) == 0 ? answers[random_below(LENGTH(answers))] : random_below(4) ? YES : NO;
}

static int is_answer(uint32_t number)
{
    return number == YES || number == NO;
}

static void update(int at)
{
    struct model *model = &models[at];
    uint8_t data[8];
    size_t len = random_below(sizeof data + 1);
    enum minisign_error expected_error = error_of_update[model->phase];

    if (model->len + len > MAX_DATA) {
        len = 0;
    }
    for (size_t i = 0; i < len; i++) {
        data[i] = (uint8_t) random_below(256);
    }
    CHECK(minisign_update(&states[at], len == 0 ? NULL : data, len) == expected_error);
    if (expected_error == MINISIGN_OK) {
        memcpy(model->data + model->len, data, len);
        model->len += len;
    }
}

static void digest(int at)
{
    struct model *model = &models[at];
    uint8_t actual[64], expected[64];
    minisign_state fresh;
    enum minisign_error expected_error = error_of_update[model->phase];

    memset(actual, 0xaa, sizeof actual);
    memset(expected, 0xaa, sizeof expected);
    CHECK(minisign_digest(&states[at], actual) == expected_error);
    if (expected_error == MINISIGN_OK) {
        minisign_init(&fresh);
        CHECK(minisign_update(&fresh, model->data, model->len) == MINISIGN_OK && minisign_digest(&fresh, expected) == MINISIGN_OK);
        model->phase = FINALIZED;
    }
    CHECK(memcmp(actual, expected, sizeof actual) == 0);
}

static enum minisign_error error_of_ask(const struct model *model, size_t read, size_t row, uint32_t legacy, size_t capacity)
{
    return legacy > 1                                     ? MINISIGN_BAD_LEGACY_FLAG
           : model->phase == UNINITIALIZED                ? MINISIGN_NOT_BEGUN
           : model->phase == FINALIZED || model->is_asked ? MINISIGN_ALREADY_ASKED
           : read == ROW_COUNT                            ? MINISIGN_SIGNATURE_NOT_READ
           : read != row                                  ? MINISIGN_OTHER_SIGNATURE_TEXT
           : rows[row].error != MINISIGN_OK               ? rows[row].error
           : rows[row].legacy && !legacy                  ? MINISIGN_LEGACY_NOT_ACCEPTED
           : capacity < 64 + rows[row].comment_len        ? MINISIGN_NO_ROOM
                                                          : MINISIGN_OK;
}

static void ask(int at)
{
    static const uint32_t flags[] = { 0, 1, 0, 1, 0, 1, 2, UINT32_MAX };
    static const size_t capacities[] = { BUFFER_SIZE, BUFFER_SIZE, 64, 63, 66, 67, 68, 0 };
    static const uint8_t zeros[64];
    struct model *model = &models[at];
    size_t i = random_below(SIGNATURE_COUNT);
    size_t read = signatures[i].mark == signature_mark ? row_of[i] : ROW_COUNT;
    size_t row = read == ROW_COUNT || random_below(8) == 0 ? random_below(ROW_COUNT) : read;
    size_t capacity = capacities[random_below(8)];
    uint32_t legacy = flags[random_below(8)];
    enum minisign_error expected_error = error_of_ask(model, read, row, legacy, capacity);
    uint8_t message[BUFFER_SIZE], before[BUFFER_SIZE];
    minisign_questions q;

    memset(&q, 0xaa, sizeof q);
    memset(message, 0xaa, sizeof message);
    memset(before, 0xaa, sizeof before);
    CHECK(minisign_ask(&states[at], &public_key, &signatures[i], bytes_of(rows[row].text), strlen(rows[row].text),
                       legacy, &q, capacity == 0 ? NULL : message, capacity) == expected_error);
    if (expected_error == MINISIGN_OK) {
        model->is_asked = 1;
        model->whole = rows[row].whole;
        CHECK(q.message_len == 64 + rows[row].comment_len && memcmp(message, q.signature, 64) == 0);
        CHECK(memcmp(q.digest, zeros, 64) == 0 && memcmp(q.public_key, public_key.key, 32) == 0);
        CHECK(q.comment_offset == 64 && q.comment_len == rows[row].comment_len);
        CHECK(memcmp(message + 64, "abcd", rows[row].comment_len) == 0);
        CHECK(memcmp(message + q.message_len, before, BUFFER_SIZE - q.message_len) == 0);
        CHECK(q.legacy == (uint32_t) rows[row].legacy && (memcmp(q.comment_signature, zeros, 64) != 0) == rows[row].whole);
    } else {
        CHECK(memcmp(message, before, sizeof message) == 0 && memcmp(&q, before, sizeof q) == 0);
    }
}

/* Returns the error of a verdict. The verdict on the comment is available before the digest, and does not depend on the first
 * answer. */
static enum minisign_error verdict_error(const struct model *model, int is_due, uint32_t first, uint32_t second)
{
    return !is_answer(first) || !is_answer(second) ? MINISIGN_BAD_ANSWER
           : model->phase == UNINITIALIZED         ? MINISIGN_NOT_BEGUN
           : !is_due || !model->is_asked           ? MINISIGN_NOT_ASKED
           : first != YES                          ? MINISIGN_SIGNATURE_REFUSED
           : model->whole && second == YES         ? MINISIGN_OK
                                                   : MINISIGN_COMMENT_SIGNATURE_REFUSED;
}

static void comment_verdict(int at)
{
    uint32_t second = random_answer();

    CHECK(minisign_comment_verdict(&states[at], (enum minisign_answer) second) == verdict_error(&models[at], 1, YES, second));
}

static int verdict(int at)
{
    struct model *model = &models[at];
    uint32_t first = random_answer(), second = random_answer();
    enum minisign_error expected_error = verdict_error(model, model->phase == FINALIZED, first, second);
    int is_finished = is_answer(first) && is_answer(second) && model->phase == FINALIZED && model->is_asked;

    CHECK(minisign_verdict(&states[at], (enum minisign_answer) first, (enum minisign_answer) second) == expected_error);
    if (is_finished) {
        model->phase = UNINITIALIZED;
    }
    return is_finished;
}

/* Makes a call on a state. The state may change only if the model says so. */
static void call_on_state(void)
{
    int at = (int) random_below(STATE_COUNT), source = (int) random_below(STATE_COUNT);
    minisign_state before = states[at];
    struct model model_before = models[at];
    int has_changed = 0;

    switch (random_below(16)) {
    case 0:
        minisign_init(&states[at]);
        memset(&models[at], 0, sizeof models[at]);
        models[at].phase = HASHING;
        has_changed = 1;
        break;
    case 1: states[at] = states[source]; models[at] = models[source]; has_changed = 1; break;
    case 2:
        memset(&states[at], (int) random_below(256), sizeof states[at]);
        models[at].phase = UNINITIALIZED;
        has_changed = 1;
        break;
    case 3: case 4: case 5: comment_verdict(at); break;
    case 6: case 7: case 8: has_changed = verdict(at); break;
    case 9: case 10: digest(at); break;
    case 11: case 12: ask(at); break;
    default: update(at);
    }
    if (!has_changed && memcmp(&model_before, &models[at], sizeof model_before) == 0) {
        CHECK(memcmp(&before, &states[at], sizeof before) == 0);
    }
}

/* Makes a call on a key. The key may change only in calls that write it. */
static void call_on_key(void)
{
    static const minisign_sealing none;
    static uint8_t text[BUFFER_SIZE];
    static uint32_t words[2];
    int at = (int) random_below(KEY_COUNT), bad_flag = random_below(4) == 0, bad_comment = random_below(4) == 0;
    const uint8_t *comment = bad_comment ? bytes_of("\xff") : NULL;
    minisign_secret_key before = keys[at];
    minisign_public_key public_half;
    uint8_t secret[64], key_id[8];
    size_t len = 0, capacity = random_below(3) == 0 ? 70 : sizeof text;
    enum minisign_error expected_error = !opened[at]     ? MINISIGN_KEY_NOT_OPENED
                                         : bad_comment   ? MINISIGN_NOT_UTF8
                                         : capacity < 77 ? MINISIGN_NO_ROOM
                                                         : MINISIGN_OK;

    switch (random_below(8)) {
    case 0:
        for (size_t i = 0; i < 64; i++) {
            secret[i] = (uint8_t) random_below(256);
        }
        memcpy(key_id, secret + 20, 8);
        make_secret_key(key_id, secret, &keys[at]);
        opened[at] = 1;
        CHECK(memcmp(keys[at].secret, secret, 64) == 0 && memcmp(keys[at].key_id, key_id, 8) == 0);
        return;
    case 1: memset(&keys[at], (int) random_below(256), sizeof keys[at]); opened[at] = 0; return;
    case 2: keys[at].mark ^= UINT64_C(1) << random_below(64); opened[at] = keys[at].mark == key_mark; return;
    case 3:
        memset(&public_half, 0xaa, sizeof public_half);
        CHECK(minisign_public_key_of(&keys[at], &public_half) == (opened[at] ? MINISIGN_OK : MINISIGN_KEY_NOT_OPENED));
        CHECK(opened[at]
                  ? memcmp(public_half.key, keys[at].secret + 32, 32) == 0 && memcmp(public_half.key_id, keys[at].key_id, 8) == 0
                  : public_half.key[0] == 0xaa && public_half.key_id[7] == 0xaa);
        break;
    case 4: CHECK(minisign_public_key_text(&keys[at], comment, comment != NULL, text, capacity, &len) == expected_error); break;
    case 5:
        CHECK(minisign_secret_key_text(&keys[at], bad_flag ? 3 + random_below(9) : 0, NULL, 0, &none, random_below(3), comment,
                                       comment != NULL, text, capacity, &len)
              == (bad_flag ? MINISIGN_BAD_PASSWORD_FLAG : expected_error));
        if (!bad_flag && expected_error == MINISIGN_OK) {
            minisign_unopened_key unopened = { 0 };
            minisign_secret_key reopened = { 0 };

            CHECK(minisign_open_unsealed_key(&unopened, &reopened) == MINISIGN_KEY_NOT_READ && reopened.mark == 0);
            CHECK(minisign_read_secret_key(text, random_below((uint32_t) len - 1), &unopened) != MINISIGN_OK
                  && unopened.mark == 0);
            CHECK(minisign_read_secret_key(text, len, &unopened) == MINISIGN_OK);
            CHECK(unopened.is_sealed == 0 && unopened.log2_rows == 0 && unopened.work == 0);
            CHECK(minisign_open_unsealed_key(&unopened, &reopened) == MINISIGN_OK);
            CHECK(memcmp(&reopened, &keys[at], sizeof reopened) == 0);
            CHECK(minisign_open_sealed_key(&unopened, NULL, 0, 1, random_below(2), &reopened) == MINISIGN_KEY_NOT_SEALED);
            CHECK(minisign_open_sealed_key_in_place(&unopened, NULL, 0, 1, random_below(2), words, random_below(2), text,
                                                    random_below(2), &reopened)
                  == MINISIGN_KEY_NOT_SEALED);
            CHECK(memcmp(&reopened, &keys[at], sizeof reopened) == 0);
        }
        break;
    default:
        CHECK(make_signature_file(&keys[at], zero_signature, zero_signature, comment, comment != NULL, NULL, 0, text, capacity,
                                  &len) == expected_error);
    }
    CHECK(memcmp(&before, &keys[at], sizeof before) == 0 && (len != 0) <= opened[at]);
}

/* Reads a signature over one of the others, or changes a signature without the library. */
static void call_on_signature(void)
{
    size_t at = random_below(SIGNATURE_COUNT), row = random_below(ROW_COUNT), len = strlen(rows[row].text);
    minisign_signature before = signatures[at], *signature = &signatures[at];
    enum minisign_error expected_error = rows[row].error == MINISIGN_DIFFERENT_KEY_IDS ? MINISIGN_OK : rows[row].error;

    switch (random_below(8)) {
    case 0: memset(signature, (int) random_below(256), sizeof *signature); row_of[at] = ROW_COUNT; return;
    case 1: signature->mark ^= UINT64_C(1) << random_below(64); return;
    case 2: row = random_below(SIGNATURE_COUNT); *signature = signatures[row]; row_of[at] = row_of[row]; return;
    default:
        CHECK(minisign_read_signature(bytes_of(rows[row].text), len, signature) == expected_error);
        if (expected_error != MINISIGN_OK) {
            CHECK(memcmp(signature, &before, sizeof before) == 0);
            return;
        }
        row_of[at] = row;
        CHECK(signature->legacy == rows[row].legacy && signature->whole == rows[row].whole);
        CHECK(signature->comment_len == rows[row].comment_len);
        CHECK(memcmp(signature->algorithm, rows[row].legacy ? "Ed" : "ED", 2) == 0);
        CHECK((memcmp(signature->key_id, public_key.key_id, 8) == 0) == (rows[row].error == MINISIGN_OK));
        CHECK(signature->comment_offset + signature->comment_len <= len
              && memcmp(rows[row].text + signature->comment_offset, "abcd", signature->comment_len) == 0);
    }
}

int main(void)
{
    public_key = key_of(KEY);
    for (size_t i = 0; i < SIGNATURE_COUNT; i++) {
        signatures[i] = signature_of(rows[0].text);
    }
    signature_mark = signatures[0].mark;
    make_secret_key(zero_signature, zero_signature, &keys[0]);
    key_mark = keys[0].mark;
    opened[0] = 1;
    for (long call = 0; call < CALL_COUNT; call++) {
        if (call % 16 == 8) {
            call_on_signature();
        } else if (call % 8 == 0) {
            call_on_key();
        } else {
            call_on_state();
        }
    }
    return print_summary();
}
