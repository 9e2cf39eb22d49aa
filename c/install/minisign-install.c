/* SPDX-License-Identifier: MIT */
/*
 * The program minisign-install, which installs an update that has a valid signature, or that is in a signed list. With
 * --check it does not read the update, and only says what an installation would do.
 *
 * minisign_install_file installs the update. This file reads the keys, the signature and the list, and prints the
 * messages.
 */
#include "options.h"

#include <sodium.h>

#include "messages.h"
#include "shared/diagnosis.h"
#include "shared/progress.h"
#include "shared/reports.h"
#include "shared/streams.h"
#include "shared/text.h"

/* A key file, a signature file or a list. The buffer has one byte more than is allowed, so that a longer file is
 * noticed. */
struct text_file {
    uint8_t bytes[MAX_FILE_BYTES + 1];
    size_t len;
};

#define ARGUMENT_ORDER_HINT "give PK DATA SIG TARGET in this order"
#define DOWNLOAD_HINT "download the file and its signature again"

static minisign_public_key keys[MAX_PUBLIC_KEYS];
static struct text_file signature_text, list_text;

/* ---- Files that are read ---- */

/* Ends the program because the content of a file is not acceptable. `hint` may be NULL. */
static _Noreturn void reject_file(const char *file, const char *reason, const char *hint)
{
    print_error(file, reason);
    print_hint(hint);
    exit(MINISIGN_STATUS_REJECTED);
}

/* Reads a whole file. Ends the program if the file cannot be read or is too large. `hint` is printed for a file that is
 * too large, and may be NULL. */
static void read_input_file(struct text_file *text, const char *file, const char *hint)
{
    int fd = AGAIN(open(file, O_RDONLY | O_CLOEXEC));
    ssize_t count = fd < 0 ? -1 : read_whole(fd, text->bytes, sizeof text->bytes);

    if (count < 0) {
        print_system_error(file, errno);
        exit(MINISIGN_STATUS_FAILED);
    }
    text->len = (size_t) count;
    close(fd);
    if (text->len == sizeof text->bytes) {
        reject_file(file, "this file is larger than 1 MiB", hint);
    }
}

/* Reads a key file or a signature file. */
static void read_text_file(struct text_file *text, const char *file)
{
    read_input_file(text, file, ARGUMENT_ORDER_HINT);
    if (!is_utf8(text->bytes, text->len)) {
        reject_file(file, "this file is not UTF-8", ARGUMENT_ORDER_HINT);
    }
}

/* Ends the program if `error`, the result of parsing a public key, is an error. `source` is the path of the file, or
 * the public key that --key gave. */
static void require_public_key(const char *source, const uint8_t *text, size_t len, enum text_kind kind,
                               enum minisign_error error)
{
    if (error != MINISIGN_OK) {
        explain_rejection(source, text, len, kind, error, ARGUMENT_ORDER_HINT);
        exit(MINISIGN_STATUS_REJECTED);
    }
}

/* Reads the public key file, or parses the keys that --key gave. Then reads the signature file and, with --list, the
 * list. */
static void read_input(struct request *request)
{
    static struct text_file text;
    minisign_installing_options *options = &request->options;

    for (int i = 0; i < request->key_count; i++) {
        const uint8_t *base64 = (const uint8_t *) request->base64_keys[i];
        size_t len = strlen(request->base64_keys[i]);

        require_public_key(request->base64_keys[i], base64, len, BARE_KEY_TEXT,
                           minisign_read_bare_public_key(base64, len, &keys[i]));
    }
    if (request->key_count == 0) {
        read_text_file(&text, request->key_file);
        require_public_key(request->key_file, text.bytes, text.len, PUBLIC_KEY_TEXT,
                           minisign_read_public_key(text.bytes, text.len, &keys[0]));
    }
    options->key = &keys[0];
    options->other_key = request->key_count > 1 ? &keys[1] : NULL;
    read_text_file(&signature_text, options->signature_name);
    options->signature = signature_text.bytes;
    options->signature_len = signature_text.len;
    if (options->list_name != NULL) {
        read_input_file(&list_text, options->list_name, NULL);
        options->list = list_text.bytes;
        options->list_len = list_text.len;
    }
}

/* ---- The run ---- */

/* The context of the functions below, which minisign_install_file calls during a run. */
struct display {
    struct progress progress;
    const char *signature_file;
    bool is_check;
    bool has_hint;
};

/* With --check, prints the version number and the trusted comment of the update, for programs to read. */
static void show_comment(void *context, uint64_t version, const uint8_t *comment, size_t len)
{
    const struct display *display = context;

    if (display->is_check) {
        printf("%" PRIu64 "\n", version);
        write_escaped(stdout, comment, len);
        putchar('\n');
    }
}

/* Returns the label of the progress line in this phase, or NULL if the phase has none. */
static const char *progress_label(enum minisign_install_phase phase)
{
    switch (phase) {
    case MINISIGN_PHASE_RECEIVING: return "received";
    case MINISIGN_PHASE_COMPARING: return "compared";
    case MINISIGN_PHASE_COPYING: return "copied";
    case MINISIGN_PHASE_VERIFYING: return "verified";
    default: return NULL;
    }
}

static void show_phase(void *context, minisign_installing_progress *progress)
{
    struct progress *line = &((struct display *) context)->progress;
    const char *work = progress_label(progress->phase);

    if (line->label != work) {
        end_progress(line);
        *line = begin_progress(work, progress->size, true);
    }
    show_progress(line, progress->done - line->done);
    progress->goes_on = 1;
}

/* If the message is about the signature file because it could not be parsed, explains why, and returns true. */
static bool explain_signature_file(const struct display *display, const minisign_installing_message *message)
{
    minisign_signature signature = { 0 };
    enum minisign_error error = MINISIGN_OK;

    if (message->kind == MINISIGN_MESSAGE_ERROR && message->file == display->signature_file) {
        error = minisign_read_signature(signature_text.bytes, signature_text.len, &signature);
    }
    if (error == MINISIGN_OK) {
        return false;
    }
    explain_rejection(message->file, signature_text.bytes, signature_text.len, SIGNATURE_TEXT, error,
                      ARGUMENT_ORDER_HINT);
    return true;
}

static void show_message(void *context, const minisign_installing_message *message)
{
    struct display *display = context;

    end_progress(&display->progress);
    display->progress = (struct progress) { 0 };
    if (message->kind == MINISIGN_MESSAGE_WARNING) {
        fprintf(stderr, "warning: %s: %s\n", escape_name(message->file).text, message->text);
    } else if (message->kind == MINISIGN_MESSAGE_HINT) {
        display->has_hint = true;
        print_hint(message->text);
    } else if (message->system_error != 0) {
        print_system_error(message->file, message->system_error);
    } else if (explain_signature_file(display, message)) {
        display->has_hint = true;
    } else {
        print_error(message->file, message->text);
    }
}

/* ---- Hints ---- */

static const struct {
    enum minisign_error error;
    const char *hint;
} hints[] = {
    { MINISIGN_TARGET_IN_USE, "use --wait SECONDS to wait for it" },
    { MINISIGN_DIRECTORY_NOT_SYNCED, "run the command again" },
    { MINISIGN_NO_RECORD, "use --first for the first installation" },
    { MINISIGN_DAMAGED_RECORD, "use --first to install anyway" },
    { MINISIGN_KEPT_BY_VERSION, "use --numbering version" },
    { MINISIGN_KEPT_BY_TIMESTAMP, "use --numbering timestamp" },
    { MINISIGN_SAME_NUMBER, "use --again to install anyway" },
    { MINISIGN_OLDER_UPDATE, "download the latest update" },
    { MINISIGN_SIGNATURE_REFUSED, DOWNLOAD_HINT },
    { MINISIGN_COMMENT_SIGNATURE_REFUSED, DOWNLOAD_HINT },
    { MINISIGN_DIFFERENT_KEY_IDS, "use the public key of the signer" },
    { MINISIGN_LEGACY_NOT_ACCEPTED, "have the update signed again, without -l" },
    { MINISIGN_OTHER_SIZE, DOWNLOAD_HINT },
    { MINISIGN_EXPIRED, "download the latest update" },
    { MINISIGN_NO_NUMBER, "use --numbering version if the comment has a field \"version:\"" },
    { MINISIGN_OTHER_LIST, "rename the list if it was signed under another name" },
    { MINISIGN_MALFORMED_LINE, "see minisign-check(1) for the lines that a list may have" },
    { MINISIGN_LISTED_TWICE, "have the signer list each file once" },
    { MINISIGN_DIGEST_MISMATCH, "download the file again, or the list if it is older than the file" },
};

static const char *hint_for_error(enum minisign_error error, bool has_list)
{
    if (has_list && (error == MINISIGN_SIGNATURE_REFUSED || error == MINISIGN_COMMENT_SIGNATURE_REFUSED)) {
        return DOWNLOAD_LIST_HINT;
    }
    for (size_t i = 0; i < sizeof hints / sizeof hints[0]; i++) {
        if (hints[i].error == error) {
            return hints[i].hint;
        }
    }
    return NULL;
}

/* Returns the file name that the trusted comment or the list must contain. */
static const char *signed_name(const minisign_installing_options *options)
{
    const char *slash = strrchr(options->target, '/');

    return options->name != NULL ? options->name : slash == NULL ? options->target : slash + 1;
}

/* Prints what the user can do about the error for which an update was rejected. */
static void print_hint_for(const struct request *request, enum minisign_error error)
{
    const minisign_installing_options *options = &request->options;
    const char *hint = hint_for_error(error, options->list != NULL);

    if (error == MINISIGN_NO_NUMBER && options->choices.numbering == MINISIGN_NUMBERING_VERSION) {
        print_hint("omit --numbering version if the comment has a field \"timestamp:\"");
    } else if (error == MINISIGN_OTHER_FILE) {
        fprintf(stderr, "hint: use --name NAME if the update was signed under a name other than %s\n",
                escape_name(signed_name(options)).text);
    } else if (error == MINISIGN_NOT_LISTED || error == MINISIGN_BAD_NAME) {
        fprintf(stderr, "hint: use --name NAME if the list has the file under a name other than %s\n",
                escape_name(signed_name(options)).text);
    } else {
        print_hint(hint);
    }
}

/* Prints a hint for the result of the run, unless one was already printed. Returns the exit status. */
static int print_final_hint(const struct request *request, const struct display *display,
                            enum minisign_install_status status, enum minisign_error error)
{
    bool is_silent = status == MINISIGN_STATUS_OLDER && display->is_check;

    if (status == MINISIGN_STATUS_TOO_LARGE) {
        print_hint("use --max-size BYTES to accept larger data");
        return MINISIGN_STATUS_REJECTED;
    }
    if (display->has_hint) {
        return status;
    }
    if (status == MINISIGN_STATUS_MISUSE) {
        print_hint("give the path of the file to install, not of its directory");
    } else if (error != MINISIGN_OK && status != MINISIGN_STATUS_FAILED && !is_silent) {
        print_hint_for(request, error);
    }
    return status;
}

/* ---- The program ---- */

int main(int argc, char *argv[])
{
    struct request request;
    struct display display = { 0 };
    enum minisign_error error;
    enum minisign_install_status status;

    if (!reserve_standard_streams()) {
        return MINISIGN_STATUS_FAILED;
    }
    /* Without these, a write to a pipe without a reader, or beyond the file size limit, would end the program. */
    signal(SIGPIPE, SIG_IGN);
    signal(SIGXFSZ, SIG_IGN);
    request = parse_request(argc, argv);
    if (sodium_init() < 0) {
        print_error(NULL, "libsodium could not be initialized");
        return MINISIGN_STATUS_FAILED;
    }
    read_input(&request);
    display.is_check = request.options.choices.is_check != 0;
    display.signature_file = request.options.signature_name;
    request.options.verify = crypto_sign_verify_detached;
    request.options.signed_comment = show_comment;
    request.options.progress = show_phase;
    request.options.message = show_message;
    request.options.context = &display;
    status = minisign_install_file(&request.options, &error);
    end_progress(&display.progress);
    if (fflush(stdout) != 0 || ferror(stdout) != 0) {
        status = MINISIGN_STATUS_FAILED;
    }
    return print_final_hint(&request, &display, status, error);
}
