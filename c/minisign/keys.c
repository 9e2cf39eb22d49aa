/* SPDX-License-Identifier: MIT */
/*
 * Decrypts, generates and changes secret keys: minisign -G, -R and -C. The library parses and encodes key files and
 * derives keys from passwords; libsodium generates Ed25519 key pairs and random bytes.
 */
#include "keys.h"

#include <sodium.h>

#include "library/clearing.h"
#include "cleanup.h"
#include "files.h"
#include "replacing.h"
#include "shared/handles.h"
#include "shared/platform.h"
#include "shared/progress.h"
#include "shared/reports.h"
#include "shared/streams.h"
#include "shared/text.h"

#define COMMENT_LABEL "untrusted comment: "
#define PUBLIC_COMMENT_BYTES 64

/* If there is too little memory, fewer rows of scrypt are kept in memory, but at least every 256th. */
#define MAX_ROW_INTERVAL 256

struct secrets *secrets;

/* The owner of the secret key file that was read. */
static uid_t key_owner;

/* Async-signal-safe, so it does not free the memory. */
static void clear_secrets(void)
{
    sodium_memzero(secrets, sizeof *secrets);
}

void allocate_secrets(void)
{
    forbid_core_dumps();
    secrets = sodium_malloc(sizeof *secrets);
    if (secrets == NULL) {
        fail_as_minisign("sodium_malloc()");
    }
    clear_secrets();
    clean_at_end(clear_secrets);
}

/* If a key derivation ran out of memory, increases `rows`, so that fewer rows of scrypt are kept, and returns true: the
 * caller tries again. */
static bool retry_with_fewer_rows(enum minisign_error error, uint32_t *rows)
{
    if (error != MINISIGN_OUT_OF_MEMORY || *rows > MAX_ROW_INTERVAL / MINISIGN_KEEP_FEW_ROWS) {
        return false;
    }
    *rows *= MINISIGN_KEEP_FEW_ROWS;
    return true;
}

/* ---- Decrypting ---- */

/* Prints the value of -K with which a key can be decrypted that exceeds the limit. */
static void print_work_hint(void)
{
    const minisign_unopened_key *key = &secrets->unopened;
    uint64_t times = (((uint64_t) key->work << key->log2_rows) + MINISIGN_USUAL_ROWS - 1) / MINISIGN_USUAL_ROWS;

    fprintf(stderr,
            "hint: use -K %" PRIu64 " to decrypt this key, which takes %" PRIu64 " times the work of a default key\n",
            times, times);
}

static void begin_derivation(const char *purpose)
{
    printf("Deriving a key from the password %s... ", purpose);
    flush_or_exit(stdout);
    begin_dots();
}

/* Clears the passwords, which are not used after the derivation. */
static void end_derivation(void)
{
    sodium_memzero(&secrets->password, sizeof secrets->password);
    sodium_memzero(&secrets->repeated, sizeof secrets->repeated);
    end_dots();
    puts("done\n");
    flush_or_exit(stdout);
}

/* Asks for the password, and decrypts the key. */
static enum minisign_error decrypt_key(const struct options *options)
{
    uint64_t max_work = (uint64_t) options->work * MINISIGN_USUAL_ROWS;
    uint32_t rows = options->rows;
    enum minisign_error error;

    ask_password(&secrets->password, "Password: ");
    begin_derivation("and decrypting the secret key");
    do {
        error = minisign_open_sealed_key(&secrets->unopened, secrets->password.bytes, secrets->password.len, rows,
                                         max_work, &secrets->opened);
    } while (retry_with_fewer_rows(error, &rows));
    end_derivation();
    if (error == MINISIGN_NOT_UTF8) {
        fail_with_hint(NULL, "the password is not UTF-8", UTF8_HINT);
    }
    return error;
}

void load_secret_key(const struct options *options)
{
    enum minisign_error error;

    key_owner = read_text(secrets->text, sizeof secrets->text, &secrets->text_len, options->secret_file,
                          SECRET_KEY_TEXT);
    error = minisign_read_secret_key(secrets->text, secrets->text_len, &secrets->unopened);
    if (error == MINISIGN_OK) {
        error = secrets->unopened.is_sealed ? decrypt_key(options)
                                            : minisign_open_unsealed_key(&secrets->unopened, &secrets->opened);
    }
    if (error == MINISIGN_OK) {
        return;
    }
    print_library_error(options->secret_file,
                        error == MINISIGN_RECORD_TOO_SHORT ? MINISIGN_SECRET_KEY_NOT_BASE64 : error);
    if (error == MINISIGN_WORK_TOO_HIGH) {
        print_work_hint();
    } else if (error != MINISIGN_WRONG_PASSWORD && error != MINISIGN_OUT_OF_MEMORY) {
        explain_rejection(options->secret_file, secrets->text, secrets->text_len, SECRET_KEY_TEXT, error,
                          hint_for(SECRET_KEY_TEXT));
    }
    exit(STATUS_ERROR);
}

bool key_halves_match(void)
{
    uint8_t *derived = secrets->generated.secret, public_key[crypto_sign_PUBLICKEYBYTES];

    crypto_sign_seed_keypair(public_key, derived, secrets->opened.secret);
    minisign_clear_used();
    return sodium_memcmp(derived, secrets->opened.secret, sizeof secrets->opened.secret) == 0;
}

/* ---- Encoding key files ---- */

static void ask_new_password(void)
{
    puts("Please enter a password to protect the secret key.\n");
    ask_password(&secrets->password, "Password: ");
    ask_password(&secrets->repeated, "Password (one more time): ");
    if (secrets->password.len != secrets->repeated.len
        || sodium_memcmp(secrets->password.bytes, secrets->repeated.bytes, secrets->repeated.len) != 0) {
        fail_as_minisign("Passwords don't match");
    }
}

/* Encodes a secret key file with the decrypted key and this comment into `secrets->text`. Encrypts the key with the
 * password, unless -W was given. */
static void encode_secret_key(const struct options *options, const uint8_t *comment, size_t comment_len)
{
    /* Minisign allows an empty password. ask_password prints "(empty)" for it. */
    uint32_t with_password = options->unsealed ? MINISIGN_NO_PASSWORD : MINISIGN_ANY_PASSWORD;
    uint8_t salt[sizeof ((minisign_sealing *) 0)->salt] = { 0 };
    minisign_sealing sealing;
    uint32_t rows = options->rows;
    enum minisign_error error;

    if (!options->unsealed) {
        randombytes_buf(salt, sizeof salt);
        begin_derivation("in order to encrypt the secret key");
    }
    sealing = minisign_usual_sealing(salt);
    do {
        error = minisign_secret_key_text(&secrets->opened, with_password, secrets->password.bytes,
                                         secrets->password.len, &sealing, rows, comment, comment_len, secrets->text,
                                         sizeof secrets->text, &secrets->text_len);
    } while (retry_with_fewer_rows(error, &rows));
    if (!options->unsealed) {
        end_derivation();
    }
    if (error == MINISIGN_NOT_UTF8 && !options->unsealed) {
        fail_with_hint(NULL, "the password or the comment is not UTF-8", UTF8_HINT);
    }
    require_success(error);
}

/* Encodes the public key file that belongs to the decrypted secret key. */
static void encode_public_key(struct text *text)
{
    char comment[PUBLIC_COMMENT_BYTES];
    int len = snprintf(comment, sizeof comment, MINISIGN_PUBLIC_KEY_COMMENT "%" PRIX64,
                       key_id_number(secrets->opened.key_id));

    require_success(minisign_public_key_text(&secrets->opened, (const uint8_t *) comment, (size_t) len, text->bytes,
                                             sizeof text->bytes, &text->len));
}

/* ---- Writing key files ---- */

/* Ends the program because the file exists and -f was not given. */
static _Noreturn void reject_existing(const char *file)
{
    fprintf(stderr,
            "Key generation aborted:\n%s already exists.\n\n"
            "If you really want to overwrite the existing key pair, add the -f switch to \nforce this operation.\n",
            escape_name(file).text);
    exit(STATUS_REJECTED);
}

/* Rejects an output file that could not be written. Called before the user types a password, instead of failing
 * afterwards. */
static void check_output(const struct options *options, const char *file, enum file_kind kind)
{
    struct stat status;

    if (!options->force && stat(file, &status) == 0) {
        reject_existing(file);
    }
    reject_untrusted_file(file, kind);
}

/* Writes a key file to a temporary file. It may replace an existing file only with -f. */
static struct replacement *prepare_key_file(const struct options *options, const char *file, enum file_kind kind,
                                            const uint8_t *text, size_t len)
{
    struct replacement *replacement = prepare_replacement(file, kind, options->force, text, len);

    if (replacement == NULL) {
        reject_existing(file);
    }
    return replacement;
}

static _Noreturn void reject_same_file(const char *file, const char *second_name)
{
    fprintf(stderr, "error: %s: this is the same file as %s\n", escape_name(file).text, escape_name(second_name).text);
    print_hint("use -s FILE and -p FILE to name two different files");
    exit(STATUS_ERROR);
}

/* Reads the start of a regular file, up to the size of the buffer. Returns the number of bytes, or -1 on failure. */
static ssize_t read_regular_file(const char *file, uint8_t bytes[TEXT_BUFFER_BYTES])
{
    struct handle handle = { .fd = -1 };
    bool is_regular = look_up(&handle, AT_FDCWD, file, true) && S_ISREG(handle.status.st_mode);
    int fd = is_regular ? open_handle(&handle, file, O_RDONLY | O_CLOEXEC) : -1;
    ssize_t len = fd < 0 ? -1 : read_whole(fd, bytes, TEXT_BUFFER_BYTES);

    close_if_open(&fd);
    close_if_open(&handle.fd);
    return len;
}

/* Returns true if both files are regular and have the same content. */
static bool are_copies(const char *first, const char *second)
{
    uint8_t first_bytes[TEXT_BUFFER_BYTES], second_bytes[TEXT_BUFFER_BYTES];
    ssize_t len = read_regular_file(first, first_bytes);
    bool are_same = len > 0 && read_regular_file(second, second_bytes) == len
                    && memcmp(first_bytes, second_bytes, (size_t) len) == 0;

    sodium_memzero(first_bytes, sizeof first_bytes);
    sodium_memzero(second_bytes, sizeof second_bytes);
    return are_same;
}

void reject_secret_key_as_output(const struct options *options, const char *file, const char *hint)
{
    struct stat key, status;

    if (stat(options->secret_file, &key) == 0 && stat(file, &status) == 0 && S_ISREG(key.st_mode)
        && (is_same_file(&key, &status)
            || (has_same_attributes(&key, &status) && are_copies(options->secret_file, file)))) {
        fail_with_hint(file, "this is the secret key, which would be overwritten", hint);
    }
}

/* Creates the directory of the secret key with mode 0700 if its parent exists. */
static void create_directory(const char *file)
{
    char *directory = strdup(file);
    char *slash = directory == NULL ? NULL : last_separator(directory);

    if (slash != NULL && slash != directory) {
        *slash = 0;
        if (mkdir(directory, 0700) != 0 && errno != EEXIST) {
            fputs("Warning: you may have to create the parent directory\n", stderr);
        }
    }
    free(directory);
}

/* Writes both key files. Ends the program if they are the same file. */
static void write_key_pair(const struct options *options, const struct text *public)
{
    struct replacement *secret_replacement =
        prepare_key_file(options, options->secret_file, NEW_SECRET_KEY, secrets->text, secrets->text_len);
    struct replacement *public_replacement =
        prepare_key_file(options, options->public_file, PUBLIC_KEY, public->bytes, public->len);
    const char *existing;

    if (have_same_destination(secret_replacement, public_replacement)) {
        reject_same_file(options->secret_file, options->public_file);
    }
    existing = put_both_in_place(public_replacement, secret_replacement);
    if (existing != NULL) {
        reject_existing(existing);
    }
}

/* ---- Commands ---- */

/* Generates a key pair. */
static void generate_key(void)
{
    uint8_t public_key[crypto_sign_PUBLICKEYBYTES];

    randombytes_buf(secrets->generated.key_id, sizeof secrets->generated.key_id);
    crypto_sign_keypair(public_key, secrets->generated.secret);
    minisign_clear_used();
    minisign_take_secret_key(&secrets->generated, &secrets->opened);
}

int generate_keys(const struct options *options)
{
    const char *comment = options->comment != NULL ? options->comment : MINISIGN_SECRET_KEY_COMMENT;
    static struct text public;

    if (strcmp(options->secret_file, options->public_file) == 0) {
        reject_same_file(options->secret_file, options->public_file);
    }
    check_output(options, options->public_file, PUBLIC_KEY);
    check_output(options, options->secret_file, NEW_SECRET_KEY);
    require_one_line(comment);
    generate_key();
    if (!options->unsealed) {
        ask_new_password();
    }
    encode_secret_key(options, (const uint8_t *) comment, strlen(comment));
    encode_public_key(&public);
    create_directory(options->secret_file);
    write_key_pair(options, &public);
    printf("The secret key was saved as %s - Keep it secret!\n"
           "The public key was saved as %s - That one can be public.\n\n"
           "Files signed using this key pair can be verified with the following command:\n\n"
           "minisign -Vm <file> -P %.56s\n\n",
           escape_name(options->secret_file).text, escape_name(options->public_file).text,
           strchr((const char *) public.bytes, '\n') + 1);
    flush_or_exit(stdout);
    return STATUS_OK;
}

int recreate_public_key(const struct options *options)
{
    static struct text public;

    check_output(options, options->public_file, PUBLIC_KEY);
    reject_secret_key_as_output(options, options->public_file, "use -p FILE to name another file for the public key");
    load_secret_key(options);
    encode_public_key(&public);
    if (!put_in_place(prepare_key_file(options, options->public_file, PUBLIC_KEY, public.bytes, public.len))) {
        reject_existing(options->public_file);
    }
    return STATUS_OK;
}

/* Copies the first line of the secret key file, without the label "untrusted comment: " if it has one. Returns its
 * length. */
static size_t copy_comment(uint8_t *comment)
{
    size_t label = strlen(COMMENT_LABEL), from, to;

    from = secrets->text_len > label && memcmp(secrets->text, COMMENT_LABEL, label) == 0 ? label : 0;
    for (to = from; to < secrets->text_len && secrets->text[to] != '\n' && secrets->text[to] != '\r'; to++) {
        comment[to - from] = secrets->text[to];
    }
    return to - from;
}

int change_password(const struct options *options)
{
    static uint8_t comment[SECRET_TEXT_BYTES];
    enum file_kind kind = options->unsealed ? UNSEALED_SECRET_KEY : CHANGED_SECRET_KEY;
    size_t comment_len;

    if (options->unsealed) {
        printf("Key encryption for [%s] is going to be removed.\n", escape_name(options->secret_file).text);
    }
    reject_untrusted_file(options->secret_file, kind);
    load_secret_key(options);
    comment_len = copy_comment(comment);
    if (!options->unsealed) {
        ask_new_password();
    }
    encode_secret_key(options, comment, comment_len);
    replace_key(options->secret_file, kind, key_owner, secrets->text, secrets->text_len);
    puts(options->unsealed ? "Password removed." : "Password updated.");
    flush_or_exit(stdout);
    return STATUS_OK;
}
