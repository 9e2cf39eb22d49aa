/* SPDX-License-Identifier: MIT */
/* Reads the signed list of checksums, verifies its signature, and looks up entries. */
#include "listing.h"

#include <sodium.h>

#include "outcomes.h"
#include "shared/diagnosis.h"
#include "shared/error_words.h"
#include "shared/handles.h"
#include "shared/reports.h"
#include "shared/streams.h"
#include "shared/text.h"

/* The maximum size of a key file or signature file. */
#define MAX_KEY_OR_SIGNATURE_BYTES (1 << 20)

/* The initial size of the buffer for a file whose size is unknown. */
#define INITIAL_FILE_BYTES 65536

#define KEY_HINT "use -p PUBKEY to name the public key file, or -P KEY to give the key itself"
#define SIGNATURE_HINT "use -x SIG to name the signature of the list"

/* The content of a file, in memory. */
struct file_content {
    uint8_t *bytes;
    size_t len;
    struct stat status;
};

/* ---- Files ---- */

/* Prints the text of errno, and the hint if the file does not exist, and ends the program. */
static _Noreturn void exit_unreadable(const char *file, const char *hint)
{
    exit_with_error(UNUSABLE_FILE, file, strerror(errno), errno == ENOENT ? hint : NULL);
}

/* Reads a whole file. Ends the program on failure, with the hint if the file does not exist. */
static struct file_content read_file(const char *file, const char *hint)
{
    struct file_content text = { 0 };
    int fd = AGAIN(open(file, O_RDONLY | O_CLOEXEC));
    size_t size = INITIAL_FILE_BYTES;
    ssize_t count;

    if (fd < 0 || fstat(fd, &text.status) != 0) {
        exit_unreadable(file, hint);
    }
    if (S_ISREG(text.status.st_mode) && (uint64_t) text.status.st_size < SIZE_MAX / 4) {
        size = (size_t) text.status.st_size + 1;
    }
    do {
        size = text.len > 0 ? 2 * size : size;
        text.bytes = realloc(text.bytes, size);
        if (text.bytes == NULL) {
            exit_with_error(UNUSABLE_FILE, file, "out of memory", NULL);
        }
        count = read_whole(fd, text.bytes + text.len, size - text.len);
        if (count < 0) {
            exit_unreadable(file, NULL);
        }
        text.len += (size_t) count;
    } while (text.len == size);
    close(fd);
    return text;
}

/* Reads a key file or signature file. */
static struct file_content read_key_or_signature_file(const char *file, const char *hint)
{
    struct file_content text = read_file(file, hint);

    if (text.len > MAX_KEY_OR_SIGNATURE_BYTES) {
        exit_with_error(LIST_REJECTED, file, "this file is larger than 1 MiB", hint);
    }
    return text;
}

/* Returns the last part of a path. */
static const char *name_in_path(const char *path)
{
    const char *slash = strrchr(path, '/');

    return slash == NULL ? path : slash + 1;
}

/* ---- The key and the signature ---- */

static minisign_public_key read_key(const struct check_options *options)
{
    bool is_bare = options->bare_key != NULL;
    struct file_content file = { .bytes = NULL };
    const uint8_t *text = (const uint8_t *) options->bare_key;
    minisign_public_key key = { 0 };
    enum minisign_error error;

    if (is_bare) {
        file.len = strlen(options->bare_key);
        error = minisign_read_bare_public_key(text, file.len, &key);
    } else {
        file = read_key_or_signature_file(options->key_file, KEY_HINT);
        text = file.bytes;
        error = minisign_read_public_key(text, file.len, &key);
    }
    if (error != MINISIGN_OK) {
        explain_rejection(is_bare ? "-P" : options->key_file, text, file.len, is_bare ? BARE_KEY_TEXT : PUBLIC_KEY_TEXT,
                          error, KEY_HINT);
        exit(LIST_REJECTED);
    }
    free(file.bytes);
    return key;
}

/* Returns the path of the signature, which is LIST.minisig by default. */
static const char *signature_path(const struct check_options *options)
{
    size_t size = strlen(options->list) + sizeof ".minisig";
    char *path;

    if (options->signature != NULL) {
        return options->signature;
    }
    path = allocate(size, 1);
    snprintf(path, size, "%s.minisig", options->list);
    return path;
}

/* ---- The verdict ---- */

/* The verification of the list's signature: its input, and the two Ed25519 checks to make. */
struct verification {
    const struct check_options *options;
    const minisign_public_key *key;
    const char *signature_file;
    struct file_content signature_text;
    minisign_signature signature;
    minisign_questions questions;
    uint8_t *message;
};

static enum minisign_answer verify_ed25519(const uint8_t signature[64], const uint8_t *bytes, size_t len,
                                           const uint8_t public_key[32])
{
    int result = crypto_sign_verify_detached(signature, bytes, len, public_key);

    return result == 0 ? MINISIGN_ANSWER_YES : MINISIGN_ANSWER_NO;
}

/* Verifies the signature of the list. If `must_be_named`, the trusted comment must name the list. */
static enum minisign_error check_list_signature(struct listing *listing, struct verification *run, bool must_be_named)
{
    const char *name = name_in_path(listing->file);
    const struct file_content *text = &run->signature_text;
    minisign_questions *questions = &run->questions;
    size_t capacity = 64 + (size_t) run->signature.comment_len;
    enum minisign_error error;

    if (must_be_named) {
        error = minisign_list_ask(&listing->verified, run->key, &run->signature, text->bytes, text->len,
                                  (const uint8_t *) name, strlen(name), listing->text, listing->len, questions,
                                  run->message, capacity);
    } else {
        error = minisign_list_ask_any(&listing->verified, run->key, &run->signature, text->bytes, text->len,
                                      listing->text, listing->len, questions, run->message, capacity);
    }
    if (error != MINISIGN_OK) {
        return error;
    }
    return minisign_list_verdict(&listing->verified,
                                 verify_ed25519(questions->signature, questions->digest, sizeof questions->digest,
                                                questions->public_key),
                                 verify_ed25519(questions->comment_signature, run->message, questions->message_len,
                                                questions->public_key));
}

/* Explains why the list is not verified, and ends the program. */
static _Noreturn void reject_list(const struct listing *listing, const struct verification *run,
                                  enum minisign_error error)
{
    char text[MINISIGN_ERROR_TEXT_BYTES];
    const char *hint = NULL, *file = run->signature_file;

    switch (error) {
    case MINISIGN_DIFFERENT_KEY_IDS: hint = "use -p or -P to give the public key of the signer"; break;
    case MINISIGN_LEGACY_NOT_ACCEPTED: hint = "have the list signed again, without -l"; break;
    case MINISIGN_OTHER_LIST: hint = "use --any-list if you know that the list was signed under another name"; break;
    case MINISIGN_SIGNATURE_REFUSED:
        file = listing->file;
        hint = DOWNLOAD_LIST_HINT;
        break;
    case MINISIGN_COMMENT_SIGNATURE_REFUSED: hint = DOWNLOAD_LIST_HINT; break;
    default: break;
    }
    describe_error(error, text);
    exit_with_error(LIST_REJECTED, file, text, hint);
}

static void print_trusted_comment(const struct verification *run)
{
    fputs("Trusted comment: ", stderr);
    write_escaped(stderr, run->message + run->questions.comment_offset, (size_t) run->questions.comment_len);
    putc('\n', stderr);
}

static void verify_list(struct listing *listing, const struct check_options *options, const minisign_public_key *key)
{
    struct verification run = { .options = options, .key = key, .signature_file = signature_path(options) };
    enum minisign_error error;

    run.signature_text = read_key_or_signature_file(run.signature_file, SIGNATURE_HINT);
    listing->signature_status = run.signature_text.status;
    error = minisign_read_signature(run.signature_text.bytes, run.signature_text.len, &run.signature);
    if (error != MINISIGN_OK) {
        explain_rejection(run.signature_file, run.signature_text.bytes, run.signature_text.len, SIGNATURE_TEXT, error,
                          SIGNATURE_HINT);
        exit(LIST_REJECTED);
    }
    run.message = allocate(64 + (size_t) run.signature.comment_len, 1);
    error = check_list_signature(listing, &run, true);
    if (error == MINISIGN_OTHER_LIST && options->any_list) {
        error = check_list_signature(listing, &run, false);
        if (error == MINISIGN_OK) {
            fprintf(stderr, "warning: %s: the trusted comment does not name this list\n",
                    escape_name(listing->file).text);
        }
    }
    if (error != MINISIGN_OK) {
        reject_list(listing, &run, error);
    }
    print_trusted_comment(&run);
    free(run.message);
    free(run.signature_text.bytes);
}

/* ---- The entries ---- */

/* Explains why the file is not a list, although its signature is valid, and ends the program. */
static _Noreturn void reject_entries(const char *file, enum minisign_error error, uint64_t line)
{
    char text[MINISIGN_ERROR_TEXT_BYTES];

    if (error == MINISIGN_MALFORMED_LINE) {
        fprintf(stderr, "error: %s: line %" PRIu64 " is malformed\n", escape_name(file).text, line);
        print_hint("see minisign-check(1) for the lines that a list may have");
        exit(LIST_REJECTED);
    }
    describe_error(error, text);
    exit_with_error(LIST_REJECTED, file, error == MINISIGN_NOT_UTF8 ? "this list is not UTF-8" : text, NULL);
}

static int compare_names(const void *first, const void *second)
{
    const struct named_entry *const *first_entry = first, *const *second_entry = second;

    return strcmp((*first_entry)->name, (*second_entry)->name);
}

/* Returns true if a file can match the entry. sha256sum writes a backslash or line feed in a name as an escape. The
 * program does not translate escapes, so no file matches a name that has one, or that contains a backslash. */
static bool can_match(const struct named_entry *listed)
{
    return !listed->entry.is_escaped && strchr(listed->name, '\\') == NULL;
}

/* Copies the names, each with a terminating zero, and sorts the entries that a file can match by name. */
static void index_names(struct listing *listing)
{
    /* This is enough: each line has other bytes besides the name, so there is room for the terminating zero. */
    char *names = allocate(listing->len + 1, 1);

    listing->by_name = allocate(listing->count, sizeof *listing->by_name);
    for (size_t i = 0; i < listing->count; i++) {
        struct named_entry *listed = &listing->entries[i];
        size_t len = (size_t) listed->entry.name_len;

        memcpy(names, listing->text + listed->entry.name_offset, len);
        listed->name = names;
        names += len + 1;
        if (can_match(listed)) {
            listing->by_name[listing->name_count++] = listed;
        }
    }
    qsort(listing->by_name, listing->name_count, sizeof *listing->by_name, compare_names);
}

static void read_entries(struct listing *listing)
{
    size_t capacity = MINISIGN_LIST_ENTRIES(listing->len);
    minisign_list_entry *entries = allocate(capacity, sizeof *entries);
    uint64_t line;
    enum minisign_error error = minisign_list_entries(&listing->verified, listing->text, listing->len,
                                                      listing->long_digest, entries, capacity, &listing->count, &line);

    if (error != MINISIGN_OK) {
        reject_entries(listing->file, error, line);
    }
    if (listing->count == 0) {
        exit_with_error(LIST_REJECTED, listing->file, "this list has no entries", NULL);
    }
    listing->entries = allocate(listing->count, sizeof *listing->entries);
    for (size_t i = 0; i < listing->count; i++) {
        listing->entries[i].entry = entries[i];
    }
    free(entries);
    index_names(listing);
}

struct listing load_listing(const struct check_options *options)
{
    struct listing listing = {
        .file = options->list, .long_digest = options->blake2b ? MINISIGN_HASH_BLAKE2B : MINISIGN_HASH_SHA512
    };
    minisign_public_key key = read_key(options);
    struct file_content text = read_file(options->list, NULL);

    listing.text = text.bytes;
    listing.len = text.len;
    listing.status = text.status;
    verify_list(&listing, options, &key);
    read_entries(&listing);
    return listing;
}

size_t count_matching_entries(const struct listing *listing, const char *name)
{
    size_t low = 0, high = listing->name_count, count = 0;

    while (low < high) {
        size_t middle = low + (high - low) / 2;

        if (strcmp(listing->by_name[middle]->name, name) < 0) {
            low = middle + 1;
        } else {
            high = middle;
        }
    }
    while (count < 2 && low + count < listing->name_count && strcmp(listing->by_name[low + count]->name, name) == 0) {
        count++;
    }
    return count;
}

enum minisign_error find_entry(const struct listing *listing, const char *name, minisign_list_entry *entry,
                               uint64_t *line)
{
    return minisign_list_find(&listing->verified, listing->text, listing->len, listing->long_digest,
                              (const uint8_t *) name, strlen(name), entry, line);
}
