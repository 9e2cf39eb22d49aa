/*
 * Checks the calls of minisign_list.h, which verify files against signed lists: the order of their errors, the digests of
 * all three hash functions for data in pieces of different lengths, the entries of a list, and lists that the library
 * writes. Threads share a verified list. The expected digests are from FIPS 180-4, RFC 7693 and b2sum.
 */
#define _POSIX_C_SOURCE 200809L

#include <pthread.h>

#include "minisign_list.h"
#include "texts_for_tests.h"

#define SHA256_OF_ABC "ba7816bf8f01cfea414140de5dae2223b00361a396177a9cb410ff61f20015ad"
#define SHA512_OF_ABC \
    "ddaf35a193617abacc417349ae20413112e6fa4e89a97ea20a9eeee64b55d39a" \
    "2192992a274fc1a836ba3c23a3feebbd454d4423643ce80e2a9ac94fa54ca49f"
/* The digests of a million letters a. */
#define SHA256_OF_MILLION "cdc76e5c9914fb9281a1c7e284d73e67f1809a48a497200e046d39ccc7112cd0"
#define SHA512_OF_MILLION \
    "e718483d0ce769644e2e42c7bc15b4638e1f98b13b2044285632a803afa973eb" \
    "de0ff244877ea60a4cb0432ce577c31beb009c5c2c49aa2e4eadb217ad8cc09b"
#define BLAKE2B_OF_MILLION \
    "98fb3efb7206fd19ebf69b6f312cf7b64e3b94dbe1a17107913975a793f177e1" \
    "d077609d7fba363cbba00d05f7aa4e4fa8715d6428104c0a75643b0ff3fd3eaf"

#define SIGNATURE_TEXT(comment, second) "untrusted comment: x\n" RECORD "\ntrusted comment: " comment "\n" second "\n"
#define SIGNATURE_OF_SHA256SUMS SIGNATURE_TEXT("timestamp:1\tfile:SHA256SUMS\thashed", COMMENT_RECORD)

static const char LIST[] =
    "# a comment\r\n"
    "\n"
    SHA256_OF_ABC "  a\n"
    "SHA512 (d/b c) = " SHA512_OF_ABC "\n"
    "BLAKE2b (x) = y) = " BLAKE2B_OF_ABC "\r\n"
    SHA256_OF_ABC " *./e\n"
    "\\" SHA256_OF_ABC "  new\\nline\n"
    SHA256_OF_ABC "  twice\n"
    SHA512_OF_ABC "  long\n"
    "SHA256 (twice) = " SHA256_OF_ABC;

static minisign_public_key key;

/* Calls minisign_list_ask for a list with this signature file. */
static enum minisign_error ask(minisign_list *list, const char *sig_text, const char *name, const char *text,
                               minisign_questions *questions)
{
    static uint8_t message[1024];
    minisign_signature signature;
    const size_t sig_len = strlen(sig_text);

    check(minisign_read_signature(bytes_of(sig_text), sig_len, &signature) == MINISIGN_OK, "a signature is not read: %s", sig_text);
    return name == NULL ? minisign_list_ask_any(list, &key, &signature, bytes_of(sig_text), sig_len, bytes_of(text),
                                                strlen(text), questions, message, sizeof message)
                        : minisign_list_ask(list, &key, &signature, bytes_of(sig_text), sig_len, bytes_of(name), strlen(name),
                                            bytes_of(text), strlen(text), questions, message, sizeof message);
}

/* Verifies a list, and returns the verdict. */
static enum minisign_error verify(minisign_list *list, const char *sig_text, const char *name, const char *text,
                                  enum minisign_answer first, enum minisign_answer second)
{
    minisign_questions questions;

    check(ask(list, sig_text, name, text, &questions) == MINISIGN_OK, "asking about a list failed: %s", sig_text);
    return minisign_list_verdict(list, first, second);
}

static minisign_list verified_list(const char *text)
{
    minisign_list list;

    check(verify(&list, SIGNATURE_OF_SHA256SUMS, NULL, text, YES, YES) == MINISIGN_OK, "a list was not verified: %s", text);
    return list;
}

static enum minisign_error find(const minisign_list *list, const char *text, enum minisign_hash long_digest, const char *name,
                                minisign_list_entry *entry, uint64_t *line)
{
    return minisign_list_find(list, bytes_of(text), strlen(text), long_digest, bytes_of(name), strlen(name), entry, line);
}

/* Checks data against an entry. The data is passed in pieces of the length `piece`. */
static enum minisign_error check_data(const minisign_list_entry *entry, const char *data, size_t len, size_t piece)
{
    minisign_list_file file;
    int is_ok = minisign_list_begin(entry, &file) == MINISIGN_OK;

    for (size_t at = 0; at < len; at += piece) {
        is_ok &= minisign_list_update(&file, bytes_of(data) + at, len - at < piece ? len - at : piece) == MINISIGN_OK;
    }
    enum minisign_error error = minisign_list_finish(&file);
    check(is_ok, "a check was not begun or not fed");
    check(minisign_list_finish(&file) == MINISIGN_NOT_BEGUN, "a check was finished twice");
    check(minisign_list_update(&file, NULL, 0) == MINISIGN_NOT_BEGUN, "a finished check was fed");
    return error;
}

/* Checks the order of the errors of minisign_list_ask and minisign_list_verdict, and that errors change nothing. */
static void check_verdicts(void)
{
    static const struct {
        const char *sig_text, *name;
        enum minisign_answer first, second;
        enum minisign_error error;
    } rows[] = {
        { SIGNATURE_OF_SHA256SUMS, "SHA256SUMS", YES, YES, MINISIGN_OK },
        { SIGNATURE_OF_SHA256SUMS, NULL, YES, YES, MINISIGN_OK },
        { SIGNATURE_OF_SHA256SUMS, "SHA256SUM", YES, YES, MINISIGN_OTHER_LIST },
        { SIGNATURE_OF_SHA256SUMS, "SHA256SUMS2", YES, YES, MINISIGN_OTHER_LIST },
        { SIGNATURE_OF_SHA256SUMS, "", YES, YES, MINISIGN_OTHER_LIST },
        { SIGNATURE_OF_SHA256SUMS, "x", NO, NO, MINISIGN_SIGNATURE_REFUSED },
        { SIGNATURE_OF_SHA256SUMS, "x", YES, NO, MINISIGN_COMMENT_SIGNATURE_REFUSED },
        { SIGNATURE_OF_SHA256SUMS, "SHA256SUMS", NO, YES, MINISIGN_SIGNATURE_REFUSED },
        { SIGNATURE_OF_SHA256SUMS, NULL, YES, NO, MINISIGN_COMMENT_SIGNATURE_REFUSED },
        { SIGNATURE_TEXT("file:a\tfile:SHA256SUMS", COMMENT_RECORD), "SHA256SUMS", YES, YES, MINISIGN_OTHER_LIST },
        { SIGNATURE_TEXT("SHA256SUMS", COMMENT_RECORD), "SHA256SUMS", YES, YES, MINISIGN_OTHER_LIST },
        { SIGNATURE_TEXT("file:", COMMENT_RECORD), "", YES, YES, MINISIGN_OK },
        { SIGNATURE_TEXT("", COMMENT_RECORD), "", YES, YES, MINISIGN_OTHER_LIST },
        { SIGNATURE_TEXT("file:SHA256SUMS", "AAAA"), "SHA256SUMS", YES, YES, MINISIGN_COMMENT_SIGNATURE_REFUSED },
    };

    for (size_t at = 0; at < LENGTH(rows); at++) {
        minisign_list list;
        minisign_list_entry entry;
        uint64_t line = 77;
        enum minisign_error error = verify(&list, rows[at].sig_text, rows[at].name, LIST, rows[at].first, rows[at].second);

        check(error == rows[at].error, "verdict %zu: error %d, expected %d", at, error, rows[at].error);
        check(minisign_list_verdict(&list, YES, YES) == MINISIGN_NOT_ASKED, "verdict %zu: a second verdict", at);
        error = find(&list, LIST, MINISIGN_HASH_SHA512, "a", &entry, &line);
        check(error == (rows[at].error ? MINISIGN_LIST_NOT_VERIFIED : MINISIGN_OK) && line == 0,
              "verdict %zu: finding returns %d, line %llu", at, error, (unsigned long long) line);
    }

    minisign_list list, before;
    minisign_questions questions;
    minisign_signature signature = { 0 };
    uint8_t message[1024];

    memset(&list, 0, sizeof list);
    check(minisign_list_verdict(&list, YES, YES) == MINISIGN_NOT_ASKED, "a list of zeros has a verdict");
    check(ask(&list, SIGNATURE_OF_SHA256SUMS, NULL, LIST, &questions) == MINISIGN_OK, "asking failed");
    before = list;
    check(minisign_list_verdict(&list, (enum minisign_answer) 1, YES) == MINISIGN_BAD_ANSWER, "1 is an answer");
    check(minisign_list_verdict(&list, YES, (enum minisign_answer) 0) == MINISIGN_BAD_ANSWER, "0 is an answer");
    check(memcmp(&list, &before, sizeof list) == 0, "a bad answer changed the list");
    check(minisign_list_ask_any(&list, &key, &signature, NULL, 0, NULL, 0, &questions, message, sizeof message)
              == MINISIGN_SIGNATURE_NOT_READ, "a signature of zeros was asked about");
    check(memcmp(&list, &before, sizeof list) == 0, "an error of asking changed the list");
    check(minisign_read_signature(bytes_of(SIGNATURE_OF_SHA256SUMS), strlen(SIGNATURE_OF_SHA256SUMS), &signature) == MINISIGN_OK,
          "a signature is not read");
    for (size_t capacity = 0; capacity < 64 + signature.comment_len; capacity++) {
        check(minisign_list_ask_any(&list, &key, &signature, bytes_of(SIGNATURE_OF_SHA256SUMS), strlen(SIGNATURE_OF_SHA256SUMS),
                                    bytes_of(LIST), strlen(LIST), &questions, message, capacity)
                  == MINISIGN_NO_ROOM,
              "asking in a buffer of %zu bytes", capacity);
    }
    check(ask(&list, "untrusted comment: x\n" LEGACY_RECORD "\ntrusted comment: abc\n" COMMENT_RECORD "\n", NULL, LIST, &questions)
              == MINISIGN_LEGACY_NOT_ACCEPTED, "a legacy signature of a list was accepted");
    check(ask(&list, "untrusted comment: x\n" OTHER_KEY_RECORD "\ntrusted comment: abc\n" COMMENT_RECORD "\n", NULL, LIST,
              &questions) == MINISIGN_DIFFERENT_KEY_IDS, "another key ID was accepted");
}

/* Checks the results of finding a name in LIST, and in lists with one malformed line. */
static void check_finding(void)
{
    static const struct {
        const char *name;
        enum minisign_hash long_digest;
        enum minisign_error error;
        uint64_t line;
        uint32_t hash;
    } rows[] = {
        { "a", MINISIGN_HASH_SHA512, MINISIGN_OK, 3, MINISIGN_HASH_SHA256 },
        { "./a", MINISIGN_HASH_BLAKE2B, MINISIGN_OK, 3, MINISIGN_HASH_SHA256 },
        { "d/b c", MINISIGN_HASH_SHA512, MINISIGN_OK, 4, MINISIGN_HASH_SHA512 },
        { "x) = y", MINISIGN_HASH_SHA512, MINISIGN_OK, 5, MINISIGN_HASH_BLAKE2B },
        { "e", MINISIGN_HASH_SHA512, MINISIGN_OK, 6, MINISIGN_HASH_SHA256 },
        { "long", MINISIGN_HASH_SHA512, MINISIGN_OK, 9, MINISIGN_HASH_SHA512 },
        { "long", MINISIGN_HASH_BLAKE2B, MINISIGN_OK, 9, MINISIGN_HASH_BLAKE2B },
        { "a", MINISIGN_HASH_NONE, MINISIGN_MALFORMED_LINE, 9, 0 },
        { "a", MINISIGN_HASH_SHA256, MINISIGN_BAD_HASH, 0, 0 },
        { "a", (enum minisign_hash) 4, MINISIGN_BAD_HASH, 0, 0 },
        { "b", MINISIGN_HASH_SHA512, MINISIGN_NOT_LISTED, 0, 0 },
        { "A", MINISIGN_HASH_SHA512, MINISIGN_NOT_LISTED, 0, 0 },
        { "b c", MINISIGN_HASH_SHA512, MINISIGN_NOT_LISTED, 0, 0 },
        { "twice", MINISIGN_HASH_SHA512, MINISIGN_LISTED_TWICE, 10, 0 },
        { "twice", MINISIGN_HASH_NONE, MINISIGN_MALFORMED_LINE, 9, 0 },
        { "new\\nline", MINISIGN_HASH_SHA512, MINISIGN_BAD_NAME, 0, 0 },
        { "new\nline", MINISIGN_HASH_SHA512, MINISIGN_BAD_NAME, 0, 0 },
        { "", MINISIGN_HASH_SHA512, MINISIGN_BAD_NAME, 0, 0 },
        { "/a", MINISIGN_HASH_SHA512, MINISIGN_BAD_NAME, 0, 0 },
        { "d/../a", MINISIGN_HASH_SHA512, MINISIGN_BAD_NAME, 0, 0 },
        { "././a", MINISIGN_HASH_NONE, MINISIGN_BAD_NAME, 0, 0 },
        { "\xff", MINISIGN_HASH_NONE, MINISIGN_NOT_UTF8, 0, 0 },
    };
    static const char *const malformed[] = { "x", SHA256_OF_ABC " a", SHA256_OF_ABC "  /a", SHA256_OF_ABC "  b\tc", "MD5 (a) = 1",
                                             SHA256_OF_ABC "  ../b", "BLAKE2b-256 (b) = " SHA256_OF_ABC };
    minisign_list list = verified_list(LIST);

    for (size_t at = 0; at < LENGTH(rows); at++) {
        minisign_list_entry entry, zeros = { 0 };
        uint64_t line = 77;

        entry = zeros;
        enum minisign_error error = find(&list, LIST, rows[at].long_digest, rows[at].name, &entry, &line);
        check(error == rows[at].error, "%s: error %d, expected %d", rows[at].name, error, rows[at].error);
        if (error) {
            check(memcmp(&entry, &zeros, sizeof entry) == 0, "%s: an error changed the entry", rows[at].name);
            check(line == rows[at].line, "%s: line %llu at fault", rows[at].name, (unsigned long long) line);
            check(minisign_list_begin(&entry, &(minisign_list_file){ 0 }) == MINISIGN_ENTRY_NOT_READ,
                  "an entry of zeros is checked");
            continue;
        }
        const char *bare = rows[at].name + (strncmp(rows[at].name, "./", 2) ? 0 : 2);
        check(line == 0 && entry.line == rows[at].line && entry.hash == rows[at].hash && !entry.is_escaped,
              "%s: wrong entry", rows[at].name);
        check(entry.name_len == strlen(bare) && memcmp(LIST + entry.name_offset, bare, strlen(bare)) == 0,
              "%s: wrong name", rows[at].name);
        for (size_t piece = 1; piece <= 4; piece++) {
            int is_mismatch = rows[at].line == 9 && rows[at].hash == MINISIGN_HASH_BLAKE2B;
            check(check_data(&entry, "abc", 3, piece) == (is_mismatch ? MINISIGN_DIGEST_MISMATCH : MINISIGN_OK), "%s: abc",
                  rows[at].name);
            check(check_data(&entry, "abd", 3, piece) == MINISIGN_DIGEST_MISMATCH, "%s: abd", rows[at].name);
        }
        check(check_data(&entry, "", 0, 1) == MINISIGN_DIGEST_MISMATCH, "%s: no data", rows[at].name);
    }
    for (size_t at = 0; at < LENGTH(malformed); at++) {
        char text[1024];
        minisign_list_entry entry;
        uint64_t line;

        snprintf(text, sizeof text, "%s  a\n%s\n", SHA256_OF_ABC, malformed[at]);
        list = verified_list(text);
        check(find(&list, text, MINISIGN_HASH_SHA512, "a", &entry, &line) == MINISIGN_MALFORMED_LINE && line == 2,
              "not malformed: %s", malformed[at]);
    }
}

/* Checks that calls with a text other than the verified one are rejected. */
static void check_other_texts(void)
{
    char text[sizeof LIST];
    minisign_list list = verified_list(LIST);
    minisign_list_entry entry;
    uint64_t line;
    size_t count;

    for (size_t at = 0; at < sizeof LIST - 1; at += 7) {
        memcpy(text, LIST, sizeof LIST);
        text[at] ^= 1;
        check(find(&list, text, MINISIGN_HASH_SHA512, "a", &entry, &line) == MINISIGN_OTHER_LIST_TEXT && line == 0,
              "byte %zu was changed", at);
        check(minisign_list_entries(&list, bytes_of(text), strlen(text), MINISIGN_HASH_SHA512, NULL, 0, &count, &line)
                  == MINISIGN_OTHER_LIST_TEXT, "byte %zu was changed, entries", at);
    }
    check(minisign_list_find(&list, bytes_of(LIST), sizeof LIST - 2, MINISIGN_HASH_SHA512, bytes_of("a"), 1, &entry, &line)
              == MINISIGN_OTHER_LIST_TEXT, "a list without its last byte");
}

static void check_entries(void)
{
    static const char *const names[] = { "a", "d/b c", "x) = y", "e", "new\\nline", "twice", "long", "twice" };
    static const uint64_t lines[] = { 3, 4, 5, 6, 7, 8, 9, 10 };
    minisign_list list = verified_list(LIST);
    minisign_list_entry entries[LENGTH(names) + 1], untouched;
    size_t count = 77;
    uint64_t line = 77;

    check(MINISIGN_LIST_ENTRIES(strlen(LIST)) >= LENGTH(names), "MINISIGN_LIST_ENTRIES is too small");
    memset(entries, 0xaa, sizeof entries);
    untouched = entries[0];
    check(minisign_list_entries(&list, bytes_of(LIST), strlen(LIST), MINISIGN_HASH_SHA512, entries, LENGTH(names) - 1,
                                &count, &line)
                  == MINISIGN_NO_ROOM
              && count == 77 && line == 0,
          "entries in a short buffer");
    check(minisign_list_entries(&list, bytes_of(LIST), strlen(LIST), MINISIGN_HASH_NONE, entries, LENGTH(entries), &count, &line)
              == MINISIGN_MALFORMED_LINE && count == 77 && line == 9, "entries of a malformed list");
    check(memcmp(entries, &untouched, sizeof untouched) == 0, "an error changed the entries");
    check(minisign_list_entries(&list, bytes_of(LIST), strlen(LIST), MINISIGN_HASH_SHA512, entries, LENGTH(entries), &count, &line)
              == MINISIGN_OK && count == LENGTH(names) && line == 0, "the entries of a list");
    for (size_t at = 0; at < LENGTH(names); at++) {
        const minisign_list_entry *entry = &entries[at];

        check(entry->line == lines[at] && entry->name_len == strlen(names[at])
                  && memcmp(LIST + entry->name_offset, names[at], entry->name_len) == 0 && entry->is_escaped == (at == 4),
              "entry %zu: line %llu", at, (unsigned long long) entry->line);
        check(check_data(entry, "abc", 3, 2) == MINISIGN_OK, "entry %zu: abc", at);
    }
    check(memcmp(&entries[LENGTH(names)], &untouched, sizeof untouched) == 0, "written beyond the last entry");

    list = verified_list("");
    check(minisign_list_entries(&list, NULL, 0, MINISIGN_HASH_NONE, NULL, 0, &count, &line) == MINISIGN_OK && count == 0,
          "an empty list has %zu entries", count);
}

/* Checks a million letters in pieces of different lengths, with each hash function. */
static void check_long_data(void)
{
    static const char text[] = SHA256_OF_MILLION "  a\nSHA512 (b) = " SHA512_OF_MILLION "\nBLAKE2b (c) = " BLAKE2B_OF_MILLION "\n";
    static const size_t pieces[] = { 1000000, 999999, 65536, 127, 128, 129, 63, 64, 65 };
    static char data[1000000];
    minisign_list list = verified_list(text);

    memset(data, 'a', sizeof data);
    for (const char *name = "abc"; *name != 0; name++) {
        const char entry_name[2] = { *name, 0 };
        minisign_list_entry entry;
        uint64_t line;

        check(find(&list, text, MINISIGN_HASH_NONE, entry_name, &entry, &line) == MINISIGN_OK, "%s is not found", entry_name);
        for (size_t at = 0; at < LENGTH(pieces); at++) {
            check(check_data(&entry, data, sizeof data, pieces[at]) == MINISIGN_OK, "%s in pieces of %zu bytes", entry_name,
                  pieces[at]);
        }
        check(check_data(&entry, data, sizeof data - 1, 4096) == MINISIGN_DIGEST_MISMATCH, "%s without its last byte", entry_name);
        data[500000] = 'b';
        check(check_data(&entry, data, sizeof data, 4096) == MINISIGN_DIGEST_MISMATCH, "%s with another byte", entry_name);
        data[500000] = 'a';
    }
}

/* Checks the call that takes a digest that the caller has computed. */
static void check_trusted_digests(void)
{
    minisign_list list = verified_list(LIST);
    minisign_list_entry entry, zeros = { 0 };
    uint64_t line;
    uint8_t digest[65] = { 0 };

    check(find(&list, LIST, MINISIGN_HASH_SHA512, "a", &entry, &line) == MINISIGN_OK, "a is not found");
    memcpy(digest, entry.digest, 64);
    check(minisign_list_compare_trusting_your_hash(&entry, MINISIGN_HASH_SHA256, digest, 32) == MINISIGN_OK, "the same digest");
    check(minisign_list_compare_trusting_your_hash(&entry, MINISIGN_HASH_SHA256, digest, 31) == MINISIGN_BAD_HASH, "31 bytes");
    check(minisign_list_compare_trusting_your_hash(&entry, MINISIGN_HASH_SHA256, digest, 64) == MINISIGN_BAD_HASH, "64 bytes");
    check(minisign_list_compare_trusting_your_hash(&entry, MINISIGN_HASH_SHA512, digest, 64) == MINISIGN_BAD_HASH, "another hash");
    check(minisign_list_compare_trusting_your_hash(&entry, MINISIGN_HASH_NONE, digest, 0) == MINISIGN_BAD_HASH, "no hash");
    check(minisign_list_compare_trusting_your_hash(&zeros, MINISIGN_HASH_SHA256, digest, 32) == MINISIGN_ENTRY_NOT_READ,
          "an entry of zeros");
    for (size_t at = 0; at < 32; at++) {
        digest[at] ^= 0x80;
        check(minisign_list_compare_trusting_your_hash(&entry, MINISIGN_HASH_SHA256, digest, 32)
                  == MINISIGN_DIGEST_MISMATCH,
              "byte %zu", at);
        digest[at] ^= 0x80;
    }
}

/* Checks lists that the library writes. */
static void check_writing(void)
{
    uint8_t digest[64], text[1024];
    size_t len = 0;
    minisign_list list = verified_list(LIST);
    minisign_list_entry entry;
    uint64_t line;
    static const char expected[] = "SHA256 (a) = " SHA256_OF_ABC "\nSHA512 (d/b c) = " SHA512_OF_ABC
                                   "\nBLAKE2b (x) = y) = " BLAKE2B_OF_ABC "\n";
    static const char *const names[] = { "a", "./d/b c", "x) = y" };
    static const size_t sizes[] = { 32, 64, 64 };

    for (size_t at = 0; at < 3; at++) {
        const size_t before = len, name_len = strlen(names[at]);
        const enum minisign_hash hash = (enum minisign_hash) (at + 1);

        check(find(&list, LIST, MINISIGN_HASH_SHA512, names[at], &entry, &line) == MINISIGN_OK, "%s is not found", names[at]);
        memcpy(digest, entry.digest, sizeof digest);
        size_t capacity = before;
        enum minisign_error error;
        for (; (error = minisign_list_append(hash, digest, sizes[at], bytes_of(names[at]), name_len, text, capacity, &len))
             == MINISIGN_NO_ROOM;
             capacity++) {
            check(len == before, "%s: the length changed", names[at]);
        }
        check(error == MINISIGN_OK && len == capacity && len - before <= MINISIGN_LIST_ENTRY_BYTES(name_len),
              "%s: error %d", names[at], error);
        check(minisign_list_append(hash, digest, sizes[at], bytes_of(names[at]), name_len, text, sizeof text, &len)
                  == MINISIGN_LISTED_TWICE,
              "%s was appended twice", names[at]);
        check(minisign_list_append(hash, digest, sizes[at] - 1, bytes_of("q"), 1, text, sizeof text, &len)
                  == MINISIGN_BAD_HASH,
              "a short digest");
    }
    check(len == strlen(expected) && memcmp(text, expected, len) == 0, "another list was written: %.*s", (int) len, (char *) text);
    check(minisign_list_append(MINISIGN_HASH_NONE, digest, 0, bytes_of("q"), 1, text, sizeof text, &len)
              == MINISIGN_BAD_HASH,
          "no hash function");
    static const char *const bad_names[] = { "", "/a", "a/", "..", "b\\c", "b\nc", "b\rc", "\x7f", "a//b" };
    for (size_t at = 0; at < LENGTH(bad_names); at++) {
        check(minisign_list_append(MINISIGN_HASH_SHA512, digest, 64, bytes_of(bad_names[at]), strlen(bad_names[at]), text,
                                   sizeof text, &len)
                  == MINISIGN_BAD_NAME,
              "a bad name was written: %s", bad_names[at]);
    }
    check(minisign_list_append(MINISIGN_HASH_SHA512, digest, 64, bytes_of("\xff"), 1, text, sizeof text, &len)
              == MINISIGN_NOT_UTF8,
          "a name that is not UTF-8");
    len--;
    check(minisign_list_append(MINISIGN_HASH_SHA512, digest, 64, bytes_of("q"), 1, text, sizeof text, &len)
              == MINISIGN_MALFORMED_LINE,
          "appended to a list without a line feed at its end");
    len = sizeof text + 1;
    check(minisign_list_append(MINISIGN_HASH_SHA512, digest, 64, bytes_of("q"), 1, text, sizeof text, &len)
              == MINISIGN_NO_ROOM,
          "a length above the buffer");
}

enum { THREAD_COUNT = 8, ROUNDS = 50 };

static minisign_list shared_list;

/* Finds entries in the shared list, and checks their files. */
static void *run_thread(void *result)
{
    size_t good_rounds = 0;

    for (int round = 0; round < ROUNDS; round++) {
        minisign_list_entry entry;
        minisign_list_file file;
        uint64_t line;

        good_rounds += find(&shared_list, LIST, MINISIGN_HASH_SHA512, round % 2 ? "a" : "d/b c", &entry, &line) == MINISIGN_OK
            && minisign_list_begin(&entry, &file) == MINISIGN_OK
            && minisign_list_update(&file, bytes_of("abc"), 3) == MINISIGN_OK
            && minisign_list_finish(&file) == MINISIGN_OK;
    }
    return good_rounds == ROUNDS ? result : NULL;
}

static void check_threads(void)
{
    pthread_t threads[THREAD_COUNT];
    minisign_list expected;
    void *result;

    shared_list = expected = verified_list(LIST);
    for (int at = 0; at < THREAD_COUNT; at++) {
        check(pthread_create(&threads[at], NULL, run_thread, &expected) == 0, "thread %d was not created", at);
    }
    for (int at = 0; at < THREAD_COUNT; at++) {
        check(pthread_join(threads[at], &result) == 0 && result == &expected, "thread %d failed", at);
    }
    check(memcmp(&shared_list, &expected, sizeof expected) == 0, "the shared list was changed");
}

int main(void)
{
    check(minisign_read_public_key(bytes_of(KEY), sizeof KEY - 1, &key) == MINISIGN_OK, "the public key is not read");
    check_verdicts();
    check_finding();
    check_other_texts();
    check_entries();
    check_long_data();
    check_trusted_digests();
    check_writing();
    check_threads();
    return print_summary();
}
