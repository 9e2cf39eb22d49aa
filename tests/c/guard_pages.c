/*
 * Checks that no call reads or writes beyond its buffers. Each buffer is placed directly before an inaccessible page, and
 * in a second run directly after one. An access beyond a buffer crashes the program.
 */
#define _DEFAULT_SOURCE

#include <stdlib.h>
#include <sys/mman.h>
#include <unistd.h>

#include "minisign_install.h"
#include "texts_for_tests.h"

/* REGION_BYTES is a multiple of all page sizes up to 64 KiB. A buffer, and MARGIN bytes on its accessible side, are filled with
 * 0xaa when the buffer is created. */
enum { REGION_BYTES = 2 << 16, REGIONS = 16, MARGIN = 256 };

static uint8_t *regions[REGIONS];
static int used_regions, at_end;

/* Returns a new buffer next to an inaccessible page. */
static uint8_t *new_buffer(size_t len)
{
    uint8_t *region = regions[used_regions++];
    size_t filled_len = len + MARGIN < REGION_BYTES ? len + MARGIN : REGION_BYTES;

    memset(at_end ? region + REGION_BYTES - filled_len : region, 0xaa, filled_len);
    return at_end ? region + REGION_BYTES - len : region;
}

static uint8_t *copy_of(const void *bytes, size_t len)
{
    return memcpy(new_buffer(len), bytes, len);
}

/* NEW returns such a buffer for a value of a type, and COPY a copy of a value in such a buffer. */
#define NEW(type) ((type *) (void *) new_buffer(sizeof(type)))
#define COPY(type, value) ((type *) (void *) copy_of((type[1]) { value }, sizeof(type)))
#define PUBLIC_KEY() COPY(minisign_public_key, key_of(KEY))
#define PARSED_SIGNATURE() COPY(minisign_signature, signature_of(SIGNATURE))

/* Returns a buffer of `len` bytes, all with the same value. */
static uint8_t *filled_buffer(size_t len, int value)
{
    return memset(new_buffer(len), value, len);
}

static minisign_state *new_state(void)
{
    minisign_state *state = NEW(minisign_state);

    minisign_init(state);
    return state;
}

static void feeds_data(void)
{
    static uint8_t data[REGION_BYTES];
    static const size_t lens[] = { 0, 1, 2, 63, 64, 127, 128, 129, 255, 256, 257, 383, 384, 385, 4095, 4096, 65535, 65536,
                                   REGION_BYTES };

    for (size_t i = 0; i < sizeof data; i++) {
        data[i] = (uint8_t) (i * 7);
    }
    for (size_t i = 0; i < LENGTH(lens); i++) {
        for (size_t before = 0; before < 260; before += 43) {
            used_regions = 0;
            minisign_state *state = new_state(), expected;
            CHECK(minisign_update(state, copy_of(data, before), before) == MINISIGN_OK);
            CHECK(minisign_update(state, copy_of(data, lens[i]), lens[i]) == MINISIGN_OK);
            minisign_init(&expected);
            CHECK(minisign_update(&expected, data, before) == MINISIGN_OK);
            CHECK(minisign_update(&expected, data, lens[i]) == MINISIGN_OK);
            CHECK(memcmp(state, &expected, sizeof expected) == 0);
        }
    }
}

/* Calls minisign_ask with the first `len` bytes of a signature file, and with a message buffer of this size. */
static enum minisign_error ask_with(minisign_state *state, const minisign_signature *signature, size_t len, size_t capacity)
{
    return minisign_ask(state, PUBLIC_KEY(), signature, copy_of(SIGNATURE, len), len, 0, NEW(minisign_questions),
                        new_buffer(capacity), capacity);
}

/* Calls minisign_ask for a signature with this offset and length of the comment. Nothing beyond the text may be read. */
static void ask_with_comment_at(uint64_t offset, uint64_t len)
{
    used_regions = 0;
    minisign_signature *signature = PARSED_SIGNATURE();
    signature->comment_offset = offset;
    signature->comment_len = len;
    enum minisign_error error = ask_with(new_state(), signature, sizeof SIGNATURE - 1, 1024);
    CHECK(offset <= sizeof SIGNATURE - 1 && len <= sizeof SIGNATURE - 1 - offset ? error != MINISIGN_SIGNATURE_NOT_READ
                                                                                 : error == MINISIGN_OTHER_SIGNATURE_TEXT);
}

/* Reads key and signature files truncated at each length, with message buffers of each size. */
static void asks_with_truncated_files(void)
{
    static const uint64_t positions[] = { 0, 1, sizeof SIGNATURE - 2, sizeof SIGNATURE - 1, sizeof SIGNATURE, REGION_BYTES,
                                          UINT32_MAX, UINT64_MAX - 1, UINT64_MAX };

    for (size_t len = 0; len < sizeof SIGNATURE; len++) {
        used_regions = 0;
        minisign_signature *truncated = NEW(minisign_signature);
        int is_read = minisign_read_signature(copy_of(SIGNATURE, len), len, truncated) == MINISIGN_OK;
        CHECK(is_read || len < sizeof SIGNATURE - 1);
        CHECK(ask_with(new_state(), truncated, len, len) == (is_read ? MINISIGN_OK : MINISIGN_SIGNATURE_NOT_READ));
        used_regions = 0;
        CHECK(ask_with(new_state(), PARSED_SIGNATURE(), len, MESSAGE_LEN)
              == (len < sizeof SIGNATURE - 1 ? MINISIGN_OTHER_SIGNATURE_TEXT : MINISIGN_OK));
    }
    for (size_t i = 0; i < LENGTH(positions); i++) {
        for (size_t j = 0; j < LENGTH(positions); j++) {
            ask_with_comment_at(positions[i], positions[j]);
        }
    }
    for (size_t len = 0; len < sizeof KEY; len++) {
        used_regions = 0;
        CHECK(minisign_read_public_key(copy_of(KEY, len), len, PUBLIC_KEY()) == MINISIGN_OK || len < sizeof KEY - 2);
        used_regions = 0;
        CHECK(len > 57
              || (minisign_read_bare_public_key(copy_of(KEY + sizeof KEY - 58, len), len, PUBLIC_KEY()) == MINISIGN_OK)
                     == (len == 56));
    }
    for (size_t capacity = 0; capacity <= MESSAGE_LEN; capacity++) {
        const int is_sufficient = capacity == MESSAGE_LEN;

        used_regions = 0;
        minisign_state *state = new_state();
        CHECK(ask_with(state, PARSED_SIGNATURE(), sizeof SIGNATURE - 1, capacity)
              == (is_sufficient ? MINISIGN_OK : MINISIGN_NO_ROOM));
        CHECK(minisign_comment_verdict(state, YES) == (is_sufficient ? MINISIGN_OK : MINISIGN_NOT_ASKED));
        CHECK(minisign_digest(state, new_buffer(64)) == MINISIGN_OK);
        CHECK(minisign_verdict(state, YES, YES) == (is_sufficient ? MINISIGN_OK : MINISIGN_NOT_ASKED));
    }
}

static void signs_with_truncated_keys(void)
{
    minisign_unopened_key parsed;
    minisign_secret_key opened;
    minisign_public_key public_key;

    CHECK(read_and_open(SECRET_KEY, NULL, &parsed, &opened) == MINISIGN_OK);
    CHECK(minisign_public_key_of(&opened, &public_key) == MINISIGN_OK);
    for (size_t len = 0; len < sizeof SECRET_KEY; len++) {
        used_regions = 0;
        minisign_unopened_key *unopened = NEW(minisign_unopened_key);
        minisign_secret_key *key = NEW(minisign_secret_key);
        memset(unopened, 0, sizeof *unopened);
        int is_read = minisign_read_secret_key(copy_of(SECRET_KEY, len), len, unopened) == MINISIGN_OK;
        CHECK(is_read || len < sizeof SECRET_KEY - 2);
        CHECK(minisign_open_unsealed_key(unopened, key) == (is_read ? MINISIGN_OK : MINISIGN_KEY_NOT_READ));
        CHECK(minisign_open_sealed_key(unopened, new_buffer(0), 0, 1, 1, key)
              == (is_read ? MINISIGN_KEY_NOT_SEALED : MINISIGN_KEY_NOT_READ));
    }
    for (size_t len = 0; len < 200; len += IS_EMULATED ? 7 : 1) {
        used_regions = 0;
        minisign_public_key *key = COPY(minisign_public_key, public_key);
        minisign_signed_parts *parts = NEW(minisign_signed_parts);
        uint8_t *trusted = filled_buffer(len, 't'), *untrusted = filled_buffer(len / 2, 'u');
        size_t *text_len = NEW(size_t), capacity = 0;
        enum minisign_error error;

        *parts = (minisign_signed_parts) { .trusted_comment = trusted, .trusted_comment_len = len,
                                           .untrusted_comment = untrusted, .untrusted_comment_len = len / 2 };
        CHECK(minisign_comment_message(parts->signature, trusted, len, new_buffer(64 + len), 64 + len) == MINISIGN_OK);
        for (;; capacity += capacity < 190 ? 95 : 1) {
            used_regions = 5;
            error = minisign_signed_text(key, parts, new_buffer(capacity), capacity, text_len);
            if (error != MINISIGN_NO_ROOM) {
                break;
            }
        }
        CHECK(error == MINISIGN_OK && capacity <= MINISIGN_TEXT_BYTES(len, len / 2) && *text_len <= capacity);
    }
}

/* Writes new keys and their public keys to buffers of each size. */
static void writes_keys(void)
{
    static const minisign_new_key new_key = { "1234567", { 1 } };
    static const minisign_sealing sealing;

    for (size_t capacity = 0; capacity <= MINISIGN_SECRET_KEY_BYTES(1); capacity++) {
        used_regions = 0;
        minisign_secret_key *key = NEW(minisign_secret_key);
        size_t *text_len = NEW(size_t);
        minisign_take_secret_key(COPY(minisign_new_key, new_key), key);
        CHECK(minisign_public_key_of(key, PUBLIC_KEY()) == MINISIGN_OK);
        used_regions = 2;
        CHECK(minisign_secret_key_text(key, 0, NULL, 0, &sealing, 1, copy_of("c", 1), 1, new_buffer(capacity), capacity, text_len)
              == (capacity < MINISIGN_SECRET_KEY_BYTES(1) ? MINISIGN_NO_ROOM : MINISIGN_OK));
        used_regions = 2;
        CHECK(minisign_public_key_text(key, copy_of("c", 1), 1, new_buffer(capacity), capacity, text_len)
              == (capacity < MINISIGN_PUBLIC_KEY_BYTES(1) ? MINISIGN_NO_ROOM : MINISIGN_OK));
    }
}

/* Reads records of exactly the right size and of a byte less, and writes the files of keys that were only read to buffers of
 * each size. */
static void reads_and_writes_records(void)
{
    const minisign_public_key public_key = key_of(KEY);
    const minisign_signature signature = signature_of(SIGNATURE);
    minisign_unopened_key parsed = { 0 };
    minisign_secret_key opened = { 0 };

    CHECK(read_and_open(SECRET_KEY, NULL, &parsed, &opened) == MINISIGN_OK);
    for (size_t missing = 0; missing < 2; missing++) {
        const enum minisign_error expected = missing ? MINISIGN_RECORD_TOO_SHORT : MINISIGN_OK;

        used_regions = 0;
        minisign_public_key *key = COPY(minisign_public_key, public_key);
        minisign_signature *bare = COPY(minisign_signature, signature);
        minisign_secret_key *secret = COPY(minisign_secret_key, opened);
        minisign_unopened_key *unopened = COPY(minisign_unopened_key, parsed);
        uint8_t *key_record = new_buffer(42), *signature_record = new_buffer(74), *secret_record = new_buffer(158);

        CHECK(minisign_public_key_record(key, key_record) == MINISIGN_OK);
        CHECK(minisign_read_public_key_record(copy_of(key_record, 42 - missing), 42 - missing, key) == expected);
        CHECK(minisign_signature_record(bare, signature_record) == MINISIGN_OK);
        CHECK(minisign_read_signature_record(copy_of(signature_record, 74 - missing), 74 - missing, bare) == expected);
        CHECK(minisign_secret_key_record(secret, secret_record) == MINISIGN_OK);
        CHECK(minisign_read_secret_key_record(copy_of(secret_record, 158 - missing), 158 - missing, unopened) == expected);
        CHECK(minisign_test_sealed_key(unopened, 1) == MINISIGN_KEY_NOT_SEALED);
        CHECK(minisign_ask_bare(new_state(), key, bare, 0, NEW(minisign_questions)) == MINISIGN_OK);
    }
    for (size_t capacity = 0; capacity <= MINISIGN_SECRET_KEY_BYTES(1); capacity++) {
        used_regions = 0;
        size_t *text_len = NEW(size_t);
        CHECK(minisign_encode_public_key(COPY(minisign_public_key, public_key), copy_of("c", 1), 1, new_buffer(capacity), capacity,
                                         text_len)
              == (capacity < MINISIGN_PUBLIC_KEY_BYTES(1) ? MINISIGN_NO_ROOM : MINISIGN_OK));
        used_regions = 1;
        CHECK(minisign_encode_unopened_key(COPY(minisign_unopened_key, parsed), copy_of("c", 1), 1, new_buffer(capacity), capacity,
                                           text_len)
              == (capacity < MINISIGN_SECRET_KEY_BYTES(1) ? MINISIGN_NO_ROOM : MINISIGN_OK));
    }
}

/* Opens a key in memory of exactly the required size, and of a word or a byte less. The memory must be cleared. */
static void opens_in_place(uint64_t p)
{
    static const uint8_t secret[64] = { 1 };
    static const uint64_t keep_every[] = { 9, 16 };
    minisign_secret_key key = { 0 };
    uint8_t text[MINISIGN_SECRET_KEY_BYTES(1)];
    size_t text_len = 0;

    make_secret_key(bytes_of("12345678"), secret, &key);
    CHECK(seal(&key, "pw", 1 << 20, p, text, sizeof text, &text_len) == MINISIGN_OK);
    for (size_t i = 0; i < 4 * LENGTH(keep_every); i++) {
        const char *password = i % 4 == 3 ? "wp" : "pw";

        used_regions = 0;
        minisign_unopened_key *unopened = NEW(minisign_unopened_key);
        minisign_secret_key *opened = NEW(minisign_secret_key), before = *opened;
        CHECK(minisign_read_secret_key(copy_of(text, text_len), text_len, unopened) == MINISIGN_OK);
        uint64_t *words_wanted = NEW(uint64_t), *bytes_wanted = NEW(uint64_t);
        minisign_opening_memory(unopened, keep_every[i / 4], 1024 * p, words_wanted, bytes_wanted);
        CHECK(4 * *words_wanted <= REGION_BYTES && *bytes_wanted <= REGION_BYTES);
        size_t words_len = (size_t) *words_wanted - (i % 4 == 1), parts_len = (size_t) *bytes_wanted - (i % 4 == 2);
        uint8_t *words = new_buffer(4 * words_len), *parts = new_buffer(parts_len);
        CHECK(minisign_open_sealed_key_in_place(unopened, copy_of(password, 2), 2, keep_every[i / 4], 1024 * p,
                                                (uint32_t *) (void *) words, words_len, parts, parts_len, opened)
              == (i % 4 == 0 ? MINISIGN_OK : i % 4 == 3 ? MINISIGN_WRONG_PASSWORD : MINISIGN_NO_ROOM));
        CHECK(memcmp(opened, i % 4 == 0 ? &key : &before, sizeof key) == 0);
        CHECK(is_zeros(words, 4 * words_len) && is_zeros(parts, parts_len));
        if (words_len == *words_wanted && parts_len == *bytes_wanted) {
            CHECK(minisign_open_sealed_key(unopened, copy_of(password, 2), 2, MINISIGN_KEEP_EVERY_ROW, 1024 * p, opened)
                  == (i % 4 == 3 ? MINISIGN_WRONG_PASSWORD : MINISIGN_OK));
        }
    }
}

/* Passes the signature file to the installation. */
static enum minisign_error pass_signature(minisign_installation *i)
{
    return minisign_install_signature(i, bytes_of(SIGNATURE), sizeof SIGNATURE - 1, copy_of("test", 4), 4, 0,
                                      new_buffer(MESSAGE_LEN), MESSAGE_LEN, NEW(size_t));
}

/* A list with the SHA-256 digest of no data under the name `app`. */
static const char LIST[] = "e3b0c44298fc1c149afbf4c8996fb92427ae41e4649b934ca495991b7852b855  app\n# the end\n";
/* Without the comment, the list still has its entry. */
#define ENTRY_LEN (64 + sizeof "  app" - 1)

/* Returns an installation at which this operation is due. It uses a list if the operation reads one. */
static minisign_installation *installation_at(uint32_t due)
{
    const minisign_install_options options = { .is_list = due == MINISIGN_DUE_READ_LIST };
    minisign_installation *i = NEW(minisign_installation);
    enum minisign_error error = minisign_install_init(i, PUBLIC_KEY(), PUBLIC_KEY(), COPY(minisign_install_options, options));

    while (error == MINISIGN_OK && minisign_install_due(i) != due) {
        switch (minisign_install_due(i)) {
        case MINISIGN_DUE_READ_RECORD: error = minisign_install_record(i, copy_of("5", 1), 1); break;
        case MINISIGN_DUE_READ_BACK: error = minisign_install_piece(i, new_buffer(0), 0); break;
        case MINISIGN_DUE_READ_SIGNATURE: error = pass_signature(i); break;
        case MINISIGN_DUE_CHECK_COMMENT:
        case MINISIGN_DUE_CHECK_DATA: error = minisign_install_answer(i, YES); break;
        default: error = minisign_install_done(i);
        }
    }
    CHECK(error == MINISIGN_OK);
    return i;
}

/* Passes the first `len` bytes of a signature file to an installation, with a message buffer of this size. */
static enum minisign_error pass_signature_file(size_t len, size_t capacity)
{
    used_regions = 0;
    minisign_installation *i = installation_at(MINISIGN_DUE_READ_SIGNATURE);
    used_regions = 2;
    return minisign_install_signature(i, copy_of(SIGNATURE, len), len, copy_of("test", 4), 4, 0, new_buffer(capacity), capacity,
                                      NEW(size_t));
}

/* Passes parts of a list and of a name to an installation, and returns its error. */
static enum minisign_error pass_list(size_t list_len, const char *name, size_t name_len)
{
    used_regions = 0;
    minisign_installation *i = installation_at(MINISIGN_DUE_READ_LIST);
    used_regions = 2;
    CHECK(minisign_install_list(i, copy_of(LIST, list_len), list_len, copy_of(name, name_len), name_len) == MINISIGN_OK);
    CHECK(minisign_install_question(i, new_buffer(32), new_buffer(64), new_buffer(64)) == MINISIGN_OK);
    return minisign_install_answer(i, YES);
}

/* Makes the calls of an installation with lists and names of each length, and with data in pieces of each length, which does not
 * have the listed digest unless it is empty. */
static void installs_from_list(void)
{
    static const char name[] = "./app";

    for (size_t size = 0; size < sizeof LIST; size++) {
        enum minisign_error error = pass_list(size, "app", 3);

        /* The first 66 bytes are the digest and two spaces. */
        CHECK(error == (size >= ENTRY_LEN            ? MINISIGN_OK
                        : size == 0 || size > 64 + 2 ? MINISIGN_NOT_LISTED
                                                     : MINISIGN_MALFORMED_LINE));
    }
    for (size_t size = 0; size < sizeof name; size++) {
        CHECK(pass_list(sizeof LIST - 1, name, size)
              == (size == sizeof name - 1 ? MINISIGN_OK : size < 3 ? MINISIGN_BAD_NAME : MINISIGN_NOT_LISTED));
    }
    for (size_t size = 0; size < 300; size++) {
        used_regions = 0;
        minisign_installation *i = installation_at(MINISIGN_DUE_READ_LIST);
        used_regions = 2;
        enum minisign_error error = minisign_install_list(i, copy_of(LIST, ENTRY_LEN), ENTRY_LEN, copy_of("app", 3), 3);
        while (error == MINISIGN_OK && minisign_install_due(i) != MINISIGN_DUE_READ_BACK) {
            error = minisign_install_due(i) == MINISIGN_DUE_CHECK_LIST ? minisign_install_answer(i, YES) : minisign_install_done(i);
        }
        CHECK(error == MINISIGN_OK && minisign_install_piece(i, filled_buffer(size, 'x'), size) == MINISIGN_OK);
        CHECK(size == 0 || minisign_install_piece(i, new_buffer(0), 0) == MINISIGN_OK);
        CHECK(minisign_install_answer(i, YES) == (size == 0 ? MINISIGN_OK : MINISIGN_DIGEST_MISMATCH));
    }
}

/* Makes the calls of an installation with records, names and comments of each length, and with buffers of each size for the
 * message and the record. */
static void installs(void)
{
    static const char comment[] = COMMENT;
    const size_t len = sizeof SIGNATURE - 1, record_len = sizeof "timestamp:1556193335" + 64 + 1 + 128;

    for (size_t size = 0; size <= MINISIGN_RECORD_TEXT_BYTES; size++) {
        used_regions = 0;
        minisign_installation *i = installation_at(MINISIGN_DUE_READ_RECORD);
        CHECK(minisign_install_record(i, filled_buffer(size, '0'), size)
              == (0 < size && size <= 64 ? MINISIGN_OK : MINISIGN_DAMAGED_RECORD));
    }
    for (size_t capacity = 0; capacity <= MESSAGE_LEN; capacity++) {
        CHECK(pass_signature_file(len, capacity) == (capacity < MESSAGE_LEN ? MINISIGN_NO_ROOM : MINISIGN_OK));
    }
    for (size_t size = 0; size < len; size++) {
        minisign_signature signature;
        enum minisign_error error = minisign_read_signature(bytes_of(SIGNATURE), size, &signature);

        /* A truncated comment signature can be read, but it is too short to be valid. */
        CHECK(pass_signature_file(size, MESSAGE_LEN) == (error == MINISIGN_OK ? MINISIGN_COMMENT_SIGNATURE_REFUSED : error));
    }
    used_regions = 0;
    minisign_installation *checked = installation_at(MINISIGN_DUE_CHECK_DATA);
    CHECK(minisign_install_question(checked, new_buffer(32), new_buffer(64), new_buffer(64)) == MINISIGN_OK);
    CHECK(minisign_install_size(checked, NEW(uint64_t)) == 0);
    for (size_t capacity = 0; capacity <= MINISIGN_RECORD_TEXT_BYTES; capacity++) {
        used_regions = 0;
        minisign_installation *i = installation_at(MINISIGN_DUE_WRITE_RECORD);
        used_regions = 3;
        CHECK(minisign_install_record_text(i, new_buffer(capacity), capacity) == (capacity < record_len ? 0 : record_len));
    }
    for (size_t size = 0; size < sizeof comment; size++) {
        used_regions = 0;
        uint64_t *number = NEW(uint64_t);
        CHECK(minisign_judge_comment(copy_of(comment, size), size, copy_of("test", 4), 4, MINISIGN_NUMBERING_TIMESTAMP, 0, 0,
                                     number) == (size < sizeof comment - 1 ? MINISIGN_OTHER_FILE : MINISIGN_OK));
    }
}

static void writes_error_texts(void)
{
    for (uint32_t number = 0; number < 70; number++) {
        for (size_t capacity = 0; capacity <= MINISIGN_ERROR_TEXT_BYTES; capacity++) {
            used_regions = 0;
            CHECK(minisign_error_text(number, (char *) new_buffer(capacity), capacity) < MINISIGN_ERROR_TEXT_BYTES);
        }
    }
}

int main(void)
{
    const size_t page = (size_t) sysconf(_SC_PAGESIZE);

    for (int i = 0; i < REGIONS; i++) {
        uint8_t *mapping = mmap(NULL, REGION_BYTES + 2 * page, PROT_NONE, MAP_PRIVATE | MAP_ANONYMOUS, -1, 0);

        if (mapping == MAP_FAILED || mprotect(mapping + page, REGION_BYTES, PROT_READ | PROT_WRITE) != 0) {
            puts("0 passed, 1 failed");
            return 1;
        }
        regions[i] = mapping + page;
    }
    for (at_end = 0; at_end < 2; at_end++) {
        feeds_data();
        asks_with_truncated_files();
        signs_with_truncated_keys();
        writes_keys();
        reads_and_writes_records();
        for (uint64_t p = IS_EMULATED ? 2 : 1; p <= 2; p++) {
            opens_in_place(p);
        }
        installs();
        installs_from_list();
        writes_error_texts();
    }
    return print_summary();
}
