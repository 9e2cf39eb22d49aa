/* SPDX-License-Identifier: MIT */
/*
 * Implements minisign_install_file, which minisign_installing.h declares. It performs the operations that the state
 * machine of minisign_install.h asks for, and reports their results to the machine.
 */
#include "directory.h"

#include "minisign_installing.h"
#include "results.h"
#include "shared/handles.h"

#define LOCK_TRIES_PER_SECOND 10

/* The size of an Ed25519 signature. */
#define SIGNATURE_BYTES 64

#define PIECE_BYTES (256 << 10)
#define MAX_WAIT_SECONDS (24 * 60 * 60)

/* The state of one call of minisign_install_file. */
struct install_run {
    const minisign_installing_options *options;
    minisign_installation machine;
    /* The operation that was performed last, or how the run ended. */
    enum minisign_due operation;
    /* The reason why the update is rejected, or MINISIGN_OK. */
    enum minisign_error error;
    /* True if the data exceeds the maximum size. */
    bool is_too_large;
    /* True if the caller has stopped the run. */
    bool is_stopped;
    /* True once the trusted comment was passed to the caller. */
    bool is_comment_passed;
    /* True while data is received from a pipe, or from another file that is not regular. */
    bool is_receiving;
    /* True while another run holds the lock. */
    bool is_waiting;
    /* The progress of the operation: the number of bytes so far, and in total, or 0 if that is unknown. */
    uint64_t done;
    uint64_t size;
    /* `directory.failure` is the first error of the run, even if it is about the data, which is somewhere else. */
    struct directory directory;
    struct record record;
    /* The message that the comment signature covers: the signature of the data, followed by the trusted comment. */
    uint8_t *message;
    size_t message_len;
    /* How often the run has waited for the lock. */
    uint64_t wait_count;
    /* True if the machine makes a check. */
    bool is_check;
    /* True if the machine makes the check after which the data still has to be received. */
    bool must_receive;
    /* The descriptor of the file that this run opened, or -1. */
    int opened_fd;
    /* The descriptor of the data, or -1; and the size of the data, or 0 if it is unknown. */
    int data_fd;
    uint64_t data_size;
    /* The unnamed file into which data is received, and the maximum number of bytes to receive. */
    struct work_file received;
    uint64_t max_received;
    uint8_t piece[PIECE_BYTES];
};

static bool perform_operation(struct install_run *run);

/* Aborts if the machine reports API misuse, which would be an error in this file: results are reported only for the
 * operation that is due. After any other error, the machine has rejected the run, and still says what is due next. */
static void abort_on_misuse(enum minisign_error error)
{
    if (minisign_error_kind(error) == MINISIGN_KIND_MISUSE) {
        abort();
    }
}

/* On failure, returns NULL and sets errno: EINVAL if the target does not end with a file name, or ENOMEM. */
static struct install_run *create_run(const minisign_installing_options *options)
{
    struct install_run *run = calloc(1, sizeof *run);

    if (run == NULL || !init_directory(&run->directory, options->target)) {
        free(run);
        return NULL;
    }
    run->directory.has_mode = options->has_mode != 0;
    run->directory.mode = (mode_t) options->mode;
    run->options = options;
    run->opened_fd = -1;
    run->data_fd = -1;
    run->received.fd = -1;
    run->message = malloc(SIGNATURE_BYTES + options->signature_len);
    if (run->message == NULL) {
        close_directory(&run->directory);
        free(run);
        return NULL;
    }
    return run;
}

/* Ends a run, even one that was stopped early: removes its temporary files, closes everything that is open, which
 * releases the lock, and frees the memory. */
static void destroy_run(struct install_run *run)
{
    /* If the run was stopped, the machine does not know that yet. Reporting a failure makes it ask for the removal. */
    while (minisign_install_due(&run->machine) == MINISIGN_DUE_REMOVE_FILES
           || minisign_install_failed(&run->machine, MINISIGN_WRITING_FAILED) != MINISIGN_NOT_DUE) {
        perform_operation(run);
    }
    close_if_open(&run->received.fd);
    close_if_open(&run->opened_fd);
    close_directory(&run->directory);
    free(run->message);
    free(run);
}

/* Reports to the machine whether an operation succeeded. */
static void report_result(struct install_run *run, enum minisign_error error)
{
    abort_on_misuse(error == MINISIGN_OK ? minisign_install_done(&run->machine)
                                         : minisign_install_failed(&run->machine, error));
}

/* ---- The signature and the list ---- */

/* Returns the last part of a path. */
static const char *last_part(const char *path)
{
    const char *slash = strrchr(path, '/');

    return slash == NULL ? path : slash + 1;
}

/* Returns the name of the file to install that the trusted comment or, with a list, the list must contain. */
static const char *expected_name(const struct install_run *run)
{
    return run->options->name == NULL ? run->directory.target.name : run->options->name;
}

/* Returns the current time in seconds since 1970, or a negative number if it is unknown. */
static int64_t current_time(const struct install_run *run)
{
    struct timespec clock_time;
    int64_t seconds = -1;

    if (run->options->now != NULL) {
        run->options->now(run->options->context, &seconds);
        return seconds;
    }
    return clock_gettime(CLOCK_REALTIME, &clock_time) == 0 ? (int64_t) clock_time.tv_sec : -1;
}

/* Passes the signature file and the time to the machine. */
static void pass_signature(struct install_run *run)
{
    const minisign_installing_options *options = run->options;
    const char *name = options->list == NULL ? expected_name(run) : last_part(options->list_name);

    abort_on_misuse(minisign_install_signature(&run->machine, options->signature, options->signature_len,
                                               (const uint8_t *) name, strlen(name), current_time(run), run->message,
                                               SIGNATURE_BYTES + options->signature_len, &run->message_len));
}

/* Passes the list, and the name to look up in it, to the machine. */
static void pass_list(struct install_run *run)
{
    const minisign_installing_options *options = run->options;
    const char *name = expected_name(run);

    abort_on_misuse(minisign_install_list(&run->machine, options->list, options->list_len, (const uint8_t *) name,
                                          strlen(name)));
}

/* Returns false if the public key or the signature is weak. libsodium rejects such inputs, but other implementations of
 * Ed25519 accept some of them. */
static bool is_strict(const uint8_t signature[64], const uint8_t public_key[32])
{
    uint8_t key_record[MINISIGN_PUBLIC_KEY_RECORD_BYTES] = "Ed";
    uint8_t signature_record[MINISIGN_SIGNATURE_RECORD_BYTES] = "ED";
    minisign_public_key key = { 0 };
    minisign_signature parsed = { 0 };
    minisign_questions questions;
    minisign_state state;

    memcpy(key_record + sizeof key_record - 32, public_key, 32);
    memcpy(signature_record + sizeof signature_record - 64, signature, 64);
    abort_on_misuse(minisign_read_public_key_record(key_record, sizeof key_record, &key));
    abort_on_misuse(minisign_read_signature_record(signature_record, sizeof signature_record, &parsed));
    minisign_init(&state);
    return minisign_ask_bare(&state, &key, &parsed, 0, &questions) == MINISIGN_OK;
}

/* Checks a signature with the function that the options name. */
static enum minisign_answer check_signature(const minisign_installing_options *options, const uint8_t signature[64],
                                            const uint8_t *message, size_t len, const uint8_t public_key[32])
{
    enum minisign_answer answer = (enum minisign_answer) 0;

    if (!is_strict(signature, public_key)) {
        return MINISIGN_ANSWER_NO;
    }
    if (options->answer != NULL) {
        options->answer(options->context, signature, message, len, public_key, &answer);
        return answer;
    }
    return options->verify(signature, message, len, public_key) == 0 ? MINISIGN_ANSWER_YES : MINISIGN_ANSWER_NO;
}

/* Makes the Ed25519 check that is due, and passes the result to the machine. */
static void answer_question(struct install_run *run)
{
    uint8_t key[32], signature[SIGNATURE_BYTES], digest[64];
    bool is_comment = run->operation == MINISIGN_DUE_CHECK_COMMENT;
    enum minisign_error error;

    abort_on_misuse(minisign_install_question(&run->machine, key, signature, digest));
    error = minisign_install_answer(&run->machine,
                                    check_signature(run->options, signature, is_comment ? run->message : digest,
                                                    is_comment ? run->message_len : sizeof digest, key));
    if (error == MINISIGN_BAD_ANSWER) {
        report_result(run, MINISIGN_READING_FAILED);
    } else {
        abort_on_misuse(error);
    }
}

/* Passes the trusted comment to the caller once it is known to be signed. */
static void pass_comment(struct install_run *run)
{
    const minisign_installing_options *options = run->options;

    if (!run->is_comment_passed && minisign_install_is_signed(&run->machine) != 0) {
        run->is_comment_passed = true;
        if (options->signed_comment != NULL) {
            options->signed_comment(options->context, minisign_install_version(&run->machine),
                                    run->message + SIGNATURE_BYTES, run->message_len - SIGNATURE_BYTES);
        }
    }
}

/* ---- The data ---- */

/* Records that the data could not be used: `cause` is the reason in words, or NULL if errno is the reason. */
static enum minisign_error fail_on_data(struct install_run *run, const char *cause)
{
    run->directory.failure = (struct failure) { true, name_of_data(run->options), cause, errno, NULL };
    return MINISIGN_READING_FAILED;
}

/* Starts the machine, for a check or for an installation. */
static enum minisign_error begin_machine(struct install_run *run, bool is_check)
{
    const minisign_installing_options *options = run->options;
    const minisign_public_key *other_key = options->other_key == NULL ? options->key : options->other_key;
    minisign_install_options choices = options->choices;

    if (choices.is_check == 0) {
        choices.is_check = is_check ? 1 : 0;
    }
    run->is_check = is_check;
    choices.is_list = options->list != NULL ? 1 : 0;
    run->operation = MINISIGN_DUE_NOTHING;
    return minisign_install_init(&run->machine, options->key, other_key, &choices);
}

/* Opens the data if the options have its path, and finds out whether it still has to be received. Returns false and
 * sets errno on failure. */
static bool open_source(struct install_run *run)
{
    const minisign_installing_options *options = run->options;
    struct stat status = { 0 };

    if (options->data == NULL && options->read != NULL) {
        run->must_receive = true;
        return true;
    }
    if (options->data != NULL) {
        run->opened_fd = AGAIN(open(options->data, O_RDONLY | O_CLOEXEC));
        if (run->opened_fd < 0) {
            return false;
        }
    }
    run->data_fd = options->data != NULL ? run->opened_fd : options->data_fd;
    if (AGAIN(fstat(run->data_fd, &status)) != 0) {
        return false;
    }
    run->data_size = S_ISREG(status.st_mode) ? (uint64_t) status.st_size : 0;
    run->must_receive = !S_ISREG(status.st_mode);
    return true;
}

/* Begins the run. If the data is not in a regular file, but for example in a pipe, the run begins with a check, because
 * such data may arrive slowly, and need not be received at all if the check fails. */
static enum minisign_error begin_run(struct install_run *run)
{
    bool is_check = run->options->choices.is_check != 0, is_open = is_check || open_source(run);
    int saved_errno = errno;
    enum minisign_error error = begin_machine(run, is_check || run->must_receive);

    if (error == MINISIGN_OK && !is_open) {
        errno = saved_errno;
        report_result(run, fail_on_data(run, NULL));
    }
    return error;
}

/* Rejects the update for this error. Used only when the machine has ended. */
static void reject_run(struct install_run *run, enum minisign_error error)
{
    run->operation = MINISIGN_DUE_REJECTED;
    run->error = error;
}

/* Returns the maximum size of the data. */
static uint64_t max_size(const struct install_run *run)
{
    return run->options->has_max_size != 0 ? run->options->max_size : INT64_MAX;
}

/* Reads the next piece of the data, of at most `size` bytes, and returns its length. On failure, sets errno and returns
 * a number greater than `size`. */
static size_t read_data(struct install_run *run, size_t size)
{
    const minisign_installing_options *options = run->options;
    size_t len = SIZE_MAX;
    ssize_t n;

    if (size == 0 || (run->data_fd < 0 && !run->is_receiving)) {
        return 0;
    }
    if (run->data_fd < 0) {
        errno = EIO;
        options->read(options->context, run->piece, size, &len);
        return len;
    }
    n = AGAIN(read(run->data_fd, run->piece, size));
    return n < 0 ? SIZE_MAX : (size_t) n;
}

/* Reads the next piece of the data, of at most `max` bytes, and appends it to a temporary file. *len is 0 at the end of
 * the data, or if the run needs no data. */
static enum minisign_error move_piece(struct install_run *run, struct work_file *destination, uint64_t max, size_t *len)
{
    size_t size = max < PIECE_BYTES ? (size_t) max : PIECE_BYTES;

    *len = read_data(run, size);
    if (*len > size) {
        return fail_on_data(run, NULL);
    }
    if (*len > max_size(run) - run->done) {
        run->is_too_large = true;
        return fail_on_data(run, "the data is larger than the limit");
    }
    run->done += *len;
    return append_to_file(&run->directory, destination, run->piece, *len);
}

static void copy_piece(struct install_run *run)
{
    size_t len;
    enum minisign_error error = move_piece(run, &run->directory.new_file, PIECE_BYTES, &len);

    if (error == MINISIGN_OK && len > 0) {
        abort_on_misuse(minisign_install_copied(&run->machine, len));
    } else {
        report_result(run, error);
    }
}

/* Begins, after the check, to receive data that is not in a regular file. */
static void begin_receiving(struct install_run *run)
{
    uint64_t size, limit = max_size(run);
    enum minisign_error error = create_unnamed_file(&run->directory, &run->received);

    if (error != MINISIGN_OK) {
        reject_run(run, error);
        return;
    }
    run->is_receiving = true;
    run->done = 0;
    run->size = 0;
    if (minisign_install_size(&run->machine, &size) == 1) {
        run->size = size;
        limit = size < limit ? size : limit;
    }
    /* One byte more than allowed, so that longer data is noticed and rejected. */
    run->max_received = limit < UINT64_MAX ? limit + 1 : limit;
}

/* Begins, after the check, the installation from an open file. */
static void begin_installation(struct install_run *run, int data_fd, uint64_t size)
{
    run->data_fd = data_fd;
    run->data_size = size;
    run->must_receive = false;
    close_target(&run->directory);
    abort_on_misuse(begin_machine(run, false));
}

/* Receives a piece of the data. At the end of the data, begins the installation from the file that now contains it. */
static void receive_piece(struct install_run *run)
{
    size_t len;
    enum minisign_error error = move_piece(run, &run->received, run->max_received - run->done, &len);

    if (error == MINISIGN_OK && len == 0 && lseek(run->received.fd, 0, SEEK_SET) != 0) {
        error = fail_on_data(run, NULL);
    }
    if (error == MINISIGN_OK && len > 0) {
        return;
    }
    run->is_receiving = false;
    if (error != MINISIGN_OK) {
        reject_run(run, error);
    } else {
        begin_installation(run, run->received.fd, run->done);
    }
}

/* ---- Reading back ---- */

/* Reads the record and passes it to the machine. If root owns the record although another user should, it is replaced
 * by a file of that user; not if its content is not a record, which the machine accepts with is_first. A check also
 * fails if an installation could not lock the target. */
static void pass_record(struct install_run *run)
{
    struct record *record = &run->record;
    enum minisign_error error = open_directory(&run->directory);

    record->exists = false;
    if (error == MINISIGN_OK && run->is_check) {
        error = require_regular_files(&run->directory);
    }
    error = error == MINISIGN_OK ? read_record(&run->directory, record) : error;
    if (error == MINISIGN_OK) {
        abort_on_misuse(record->exists ? minisign_install_record(&run->machine, record->text, record->len)
                                       : minisign_install_no_record(&run->machine));
    }
    if (record->exists && minisign_install_due(&run->machine) == MINISIGN_DUE_READ_SIGNATURE
        && run->options->choices.is_first == 0 && !run->is_check && memchr(record->text, ':', record->len) != NULL) {
        error = renew_record(&run->directory, record);
    }
    if (error != MINISIGN_OK) {
        abort_on_misuse(minisign_install_failed(&run->machine, error));
    }
}

/* Passes the next piece of a temporary file or of the installed file to the machine. */
static void pass_piece(struct install_run *run, struct work_file *from)
{
    size_t len = 0;
    enum minisign_error error = read_next_piece(&run->directory, from, run->piece, PIECE_BYTES, &len);

    run->done += len;
    abort_on_misuse(error == MINISIGN_OK ? minisign_install_piece(&run->machine, run->piece, len)
                                         : minisign_install_failed(&run->machine, error));
}

/* Opens the installed file if necessary, and passes its next piece to the machine, or reports that there is no such
 * file. */
static void pass_target_piece(struct install_run *run)
{
    struct directory *directory = &run->directory;
    enum minisign_error error = directory->installed.fd < 0 ? open_target(directory) : MINISIGN_OK;

    if (error == MINISIGN_OK && directory->installed.fd >= 0) {
        pass_piece(run, &directory->installed);
    } else {
        abort_on_misuse(error == MINISIGN_OK ? minisign_install_no_target(&run->machine)
                                             : minisign_install_failed(&run->machine, error));
    }
}

/* ---- The operations that are due ---- */

/* Tries to lock the target. If another run holds the lock, waits a tenth of a second and leaves the operation due,
 * until the waiting time of the options is over. */
static void try_lock(struct install_run *run)
{
    static const struct timespec pause = { .tv_nsec = 1000000000 / LOCK_TRIES_PER_SECOND };
    enum minisign_error error = lock_target(&run->directory);

    run->is_waiting = error == MINISIGN_TARGET_IN_USE
                      && run->wait_count < (uint64_t) run->options->wait * LOCK_TRIES_PER_SECOND;
    if (run->is_waiting) {
        run->wait_count++;
        nanosleep(&pause, NULL);
        return;
    }
    report_result(run, error);
}

static enum minisign_error write_record(struct install_run *run)
{
    uint8_t text[MINISIGN_RECORD_TEXT_BYTES];
    size_t len = minisign_install_record_text(&run->machine, text, sizeof text);

    return append_to_file(&run->directory, &run->directory.new_record, text, len);
}

static void begin_operation(struct install_run *run)
{
    enum minisign_due due = minisign_install_due(&run->machine);

    if (run->operation != due) {
        run->operation = due;
        run->done = 0;
        run->size = due == MINISIGN_DUE_COPY_DATA ? run->data_size : 0;
    }
}

/* Performs the operation that is due. Returns false if the machine has ended. */
static bool perform_operation(struct install_run *run)
{
    struct directory *directory = &run->directory;
    struct work_file *new_file = &directory->new_file, *new_record = &directory->new_record;

    begin_operation(run);
    switch (run->operation) {
    case MINISIGN_DUE_LOCK: try_lock(run); break;
    case MINISIGN_DUE_READ_RECORD: pass_record(run); break;
    case MINISIGN_DUE_READ_SIGNATURE: pass_signature(run); break;
    case MINISIGN_DUE_READ_LIST: pass_list(run); break;
    case MINISIGN_DUE_CHECK_COMMENT:
    case MINISIGN_DUE_CHECK_LIST:
    case MINISIGN_DUE_CHECK_RECORD:
    case MINISIGN_DUE_CHECK_TARGET:
    case MINISIGN_DUE_CHECK_DATA: answer_question(run); break;
    case MINISIGN_DUE_READ_TARGET: pass_target_piece(run); break;
    case MINISIGN_DUE_SYNC_TARGET: report_result(run, sync_file(directory, &directory->installed)); break;
    case MINISIGN_DUE_REMOVE_LEFTOVERS: report_result(run, remove_leftovers(directory)); break;
    case MINISIGN_DUE_CREATE_FILE: report_result(run, create_temporary_file(directory, new_file)); break;
    case MINISIGN_DUE_COPY_DATA: copy_piece(run); break;
    case MINISIGN_DUE_READ_BACK: pass_piece(run, new_file); break;
    case MINISIGN_DUE_SET_PERMISSIONS: report_result(run, set_permissions(directory)); break;
    case MINISIGN_DUE_SYNC_FILE: report_result(run, sync_file(directory, new_file)); break;
    case MINISIGN_DUE_CREATE_RECORD: report_result(run, create_temporary_file(directory, new_record)); break;
    case MINISIGN_DUE_WRITE_RECORD: report_result(run, write_record(run)); break;
    case MINISIGN_DUE_SYNC_RECORD: report_result(run, sync_record(directory, new_record)); break;
    case MINISIGN_DUE_RENAME_RECORD: report_result(run, rename_file(directory, new_record, &directory->record)); break;
    case MINISIGN_DUE_RENAME_FILE: report_result(run, rename_file(directory, new_file, &directory->target)); break;
    case MINISIGN_DUE_SYNC_TARGET_NAME:
    case MINISIGN_DUE_SYNC_RECORD_NAME:
    case MINISIGN_DUE_SYNC_FILE_NAME: report_result(run, sync_directory(directory)); break;
    case MINISIGN_DUE_REMOVE_FILES: report_result(run, remove_temporary_files(directory)); break;
    default: return false;
    }
    return true;
}

/* Blocks the signals that ask a program to end, and returns the previous signal mask. */
static void block_end_signals(sigset_t *old_mask)
{
    static const int end_signals[] = { SIGHUP, SIGINT, SIGQUIT, SIGTERM };
    sigset_t mask;

    sigemptyset(&mask);
    for (size_t i = 0; i < sizeof end_signals / sizeof end_signals[0]; i++) {
        sigaddset(&mask, end_signals[i]);
    }
    pthread_sigmask(SIG_BLOCK, &mask, old_mask);
}

/* Renames the new record and then the new file, with the operations in between, until both are renamed or one has
 * failed. Signals are blocked, because one in between would leave the new version number beside the old file. */
static void rename_both(struct install_run *run)
{
    sigset_t old_mask;

    block_end_signals(&old_mask);
    do {
        perform_operation(run);
    } while (minisign_install_due(&run->machine) == MINISIGN_DUE_SYNC_RECORD_NAME
             || minisign_install_due(&run->machine) == MINISIGN_DUE_RENAME_FILE);
    pthread_sigmask(SIG_SETMASK, &old_mask, NULL);
}

/* Stores the result of the machine after it has ended. */
static void take_result(struct install_run *run)
{
    run->error = minisign_install_error(&run->machine);
    /* With a list, the file name that was passed to the machine is that of the list. */
    if (run->error == MINISIGN_OTHER_FILE && run->options->list != NULL) {
        run->error = MINISIGN_OTHER_LIST;
    }
    /* A check rejects a target that cannot be replaced, as an installation does. */
    if (run->operation == MINISIGN_DUE_WOULD_INSTALL && require_replaceable_target(&run->directory) != MINISIGN_OK) {
        reject_run(run, MINISIGN_WRITING_FAILED);
    }
}

/* Reports the progress to the caller, who may stop the run. */
static void report_progress(struct install_run *run, enum minisign_install_phase phase, uint64_t done, uint64_t size)
{
    const minisign_installing_options *options = run->options;
    minisign_installing_progress progress = { phase, 0, done, size };

    if (options->progress != NULL) {
        options->progress(options->context, &progress);
        run->is_stopped = progress.goes_on != 1;
    }
}

/* Reports the progress of the operation that was performed last, unless it has rejected the update. */
static void report_operation(struct install_run *run)
{
    if (minisign_install_error(&run->machine) != MINISIGN_OK) {
        return;
    }
    switch (run->operation) {
    case MINISIGN_DUE_LOCK:
        if (run->is_waiting) {
            report_progress(run, MINISIGN_PHASE_WAITING, 0, 0);
        }
        break;
    case MINISIGN_DUE_READ_TARGET: report_progress(run, MINISIGN_PHASE_COMPARING, run->done, 0); break;
    case MINISIGN_DUE_COPY_DATA: report_progress(run, MINISIGN_PHASE_COPYING, run->done, run->size); break;
    case MINISIGN_DUE_READ_BACK: report_progress(run, MINISIGN_PHASE_VERIFYING, run->done, 0); break;
    default: break;
    }
}

/* Continues after the machine has ended: if it made the check before the data is received, the installation follows.
 * Returns false if the run has ended too. */
static bool continue_run(struct install_run *run)
{
    take_result(run);
    if (run->operation == MINISIGN_DUE_REJECTED || !run->must_receive) {
        return false;
    }
    if (run->operation == MINISIGN_DUE_WOULD_INSTALL) {
        begin_receiving(run);
    } else {
        /* The update is already installed, so the data is not needed. This installation only syncs the file. */
        begin_installation(run, -1, 0);
    }
    return true;
}

/* Makes one step of the run: performs the operation that is due, or receives one piece of data. Returns false if the
 * run has ended. */
static bool advance(struct install_run *run)
{
    if (run->is_receiving) {
        receive_piece(run);
        if (run->error == MINISIGN_OK) {
            report_progress(run, MINISIGN_PHASE_RECEIVING, run->done, run->size);
        }
    } else if (minisign_install_due(&run->machine) == MINISIGN_DUE_RENAME_RECORD) {
        report_progress(run, MINISIGN_PHASE_RENAMING, 0, 0);
        if (!run->is_stopped) {
            rename_both(run);
        }
    } else if (perform_operation(run)) {
        pass_comment(run);
        report_operation(run);
    } else if (!continue_run(run)) {
        return false;
    }
    return run->error == MINISIGN_OK && !run->is_stopped;
}

/* ---- The result ---- */

/* Returns what is wrong with the list in the options, or NULL if nothing is. */
static const char *find_list_misuse(const minisign_installing_options *options)
{
    if (options->list == NULL) {
        return options->choices.is_list != 0 ? "is_list is set, but the options have no list" : NULL;
    }
    return options->list_name == NULL || *last_part(options->list_name) == 0 ? "the list in the options has no name"
                                                                             : NULL;
}

/* Returns what is wrong with the options, or NULL if they are valid. */
static const char *find_misuse(const minisign_installing_options *options)
{
    return options->target == NULL                              ? "the options have no target"
           : options->signature == NULL                         ? "the options have no signature file"
           : options->key == NULL                               ? "the options have no public key"
           : options->verify == NULL && options->answer == NULL ? "neither of the fields verify and answer is set"
           : options->has_mode != 0 && options->mode > 0777     ? "the mode in the options is above 0777"
           : options->wait > MAX_WAIT_SECONDS                   ? "the wait in the options is longer than a day"
           : options->name != NULL && *options->name == 0       ? "the name in the options is empty"
                                                                : find_list_misuse(options);
}

/* Returns true if nothing limits how much data would be received. With a list, the trusted comment does not say how
 * long the data is. */
static bool lacks_size_limit(const struct install_run *run)
{
    const minisign_installing_options *options = run->options;

    return run->must_receive && options->list != NULL && options->has_max_size == 0;
}

/* Warns if the options ask for permissions that differ from those of a file that was already installed. */
static void warn_about_mode(const struct install_run *run)
{
    const struct directory *directory = &run->directory;
    struct stat status;

    if (directory->has_mode && !run->is_check
        && AGAIN(fstatat(directory->fd, directory->target.name, &status, AT_SYMLINK_NOFOLLOW)) == 0
        && (status.st_mode & 0777) != directory->mode) {
        send_message(run->options, MINISIGN_MESSAGE_WARNING, directory->target.path,
                     "already installed, so its permissions are unchanged");
        send_message(run->options, MINISIGN_MESSAGE_HINT, NULL, "use chmod to change them");
    }
}

/* Returns the result of a run that has ended. If the update is not installed, sends messages that say why. */
static enum minisign_install_status status_of(const struct install_run *run)
{
    if (run->is_stopped) {
        return MINISIGN_STATUS_STOPPED;
    }
    switch (run->operation) {
    case MINISIGN_DUE_INSTALLED:
    case MINISIGN_DUE_WOULD_INSTALL: return MINISIGN_STATUS_INSTALLED;
    case MINISIGN_DUE_ALREADY_INSTALLED: warn_about_mode(run); return MINISIGN_STATUS_ALREADY_INSTALLED;
    default: break;
    }
    return report_rejection(run->options, &run->directory,
                            &(struct rejection) { .error = run->error, .is_too_large = run->is_too_large,
                                                  .is_signed = minisign_install_is_signed(&run->machine) != 0,
                                                  .line = minisign_install_line(&run->machine) });
}

/* Reports API misuse. */
static enum minisign_install_status report_misuse(const minisign_installing_options *options, const char *file,
                                                  const char *message)
{
    send_message(options, MINISIGN_MESSAGE_ERROR, file, message);
    return MINISIGN_STATUS_MISUSE;
}

/* Begins a run, whose options are valid, and continues it to its end. */
static enum minisign_install_status run_to_end(struct install_run *run, enum minisign_error *error)
{
    enum minisign_install_status status;

    *error = begin_run(run);
    if (*error != MINISIGN_OK) {
        char text[MINISIGN_ERROR_TEXT_BYTES];

        minisign_error_text(*error, text, sizeof text);
        return report_misuse(run->options, NULL, text);
    }
    if (lacks_size_limit(run)) {
        *error = MINISIGN_BAD_OPTION;
        status = report_misuse(run->options, name_of_data(run->options),
                               "with a list, data that is not in a regular file needs a maximum size");
        send_message(run->options, MINISIGN_MESSAGE_HINT, NULL, "use --max-size BYTES to limit the data");
        return status;
    }
    while (advance(run)) {
    }
    status = status_of(run);
    *error = run->error;
    return status;
}

enum minisign_install_status minisign_install_file(const minisign_installing_options *options, enum minisign_error *why)
{
    const char *misuse = find_misuse(options);
    enum minisign_error ignored, *error = why == NULL ? &ignored : why;
    enum minisign_install_status status;
    struct install_run *run;

    *error = MINISIGN_BAD_OPTION;
    if (misuse != NULL) {
        return report_misuse(options, NULL, misuse);
    }
    run = create_run(options);
    if (run == NULL && errno == EINVAL) {
        return report_misuse(options, options->target, "this path does not end with a file name");
    }
    if (run == NULL) {
        *error = MINISIGN_OUT_OF_MEMORY;
        send_message(options, MINISIGN_MESSAGE_ERROR, NULL, "out of memory");
        return MINISIGN_STATUS_FAILED;
    }
    status = run_to_end(run, error);
    destroy_run(run);
    return status;
}
