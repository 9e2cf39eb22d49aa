/* SPDX-License-Identifier: MIT */
/* Turns the error of a run into its result, and sends messages to the caller. */
/* With _GNU_SOURCE, glibc would declare strerror_r differently from POSIX. */
#undef _GNU_SOURCE

#include "results.h"

#include "shared/error_words.h"

/* The size of a buffer for the text of an errno. */
#define SYSTEM_ERROR_BYTES 256

/* The file that a message names. */
enum subject { THE_SIGNATURE, THE_DATA, THE_TARGET, THE_RECORD, THE_LIST };

/* The status that a run with this error returns, and the file that the message names. */
struct error_result {
    enum minisign_error error;
    enum minisign_install_status status;
    enum subject subject;
};

static const struct error_result results[] = {
    { MINISIGN_OUT_OF_MEMORY, MINISIGN_STATUS_FAILED, THE_TARGET },
    { MINISIGN_READING_FAILED, MINISIGN_STATUS_FAILED, THE_TARGET },
    { MINISIGN_WRITING_FAILED, MINISIGN_STATUS_FAILED, THE_TARGET },
    { MINISIGN_RANDOM_SOURCE_FAILED, MINISIGN_STATUS_FAILED, THE_TARGET },
    { MINISIGN_TARGET_IN_USE, MINISIGN_STATUS_IN_USE, THE_TARGET },
    { MINISIGN_DIRECTORY_NOT_SYNCED, MINISIGN_STATUS_NOT_SYNCED, THE_TARGET },
    { MINISIGN_NO_RECORD, MINISIGN_STATUS_UNRECORDED, THE_RECORD },
    { MINISIGN_DAMAGED_RECORD, MINISIGN_STATUS_UNRECORDED, THE_RECORD },
    { MINISIGN_KEPT_BY_VERSION, MINISIGN_STATUS_UNRECORDED, THE_RECORD },
    { MINISIGN_KEPT_BY_TIMESTAMP, MINISIGN_STATUS_UNRECORDED, THE_RECORD },
    { MINISIGN_SAME_NUMBER, MINISIGN_STATUS_SAME_VERSION, THE_TARGET },
    { MINISIGN_OLDER_UPDATE, MINISIGN_STATUS_OLDER, THE_DATA },
    { MINISIGN_SIGNATURE_REFUSED, MINISIGN_STATUS_REJECTED, THE_DATA },
    { MINISIGN_OTHER_SIZE, MINISIGN_STATUS_REJECTED, THE_DATA },
    { MINISIGN_EXPIRED, MINISIGN_STATUS_EXPIRED, THE_SIGNATURE },
    { MINISIGN_BAD_NAME, MINISIGN_STATUS_REJECTED, THE_LIST },
    { MINISIGN_MALFORMED_LINE, MINISIGN_STATUS_REJECTED, THE_LIST },
    { MINISIGN_NOT_LISTED, MINISIGN_STATUS_REJECTED, THE_LIST },
    { MINISIGN_LISTED_TWICE, MINISIGN_STATUS_REJECTED, THE_LIST },
    { MINISIGN_DIGEST_MISMATCH, MINISIGN_STATUS_REJECTED, THE_DATA },
    /* The last row ends the table. It is for all other errors, which are about the signature file. */
    { .error = MINISIGN_OK, .status = MINISIGN_STATUS_REJECTED, .subject = THE_SIGNATURE },
};

static const struct error_result *result_for(enum minisign_error error)
{
    const struct error_result *result = results;

    while (result->error != error && result->error != MINISIGN_OK) {
        result++;
    }
    return result;
}

const char *name_of_data(const minisign_installing_options *options)
{
    return options->data_name == NULL ? options->data : options->data_name;
}

/* Passes a message to the caller. */
static void pass_message(const minisign_installing_options *options, const minisign_installing_message *message)
{
    if (options->message != NULL) {
        options->message(options->context, message);
    }
}

void send_message(const minisign_installing_options *options, enum minisign_message_kind kind, const char *file,
                  const char *text)
{
    pass_message(options, &(minisign_installing_message) { .kind = kind, .file = file, .text = text });
}

/* Sends a message about the file that could not be used, and the hint if there is one. */
static void send_failure(const minisign_installing_options *options, const struct failure *failure)
{
    char text[SYSTEM_ERROR_BYTES] = "";

    if (failure->cause != NULL) {
        send_message(options, MINISIGN_MESSAGE_CAUSE, failure->path, failure->cause);
    } else {
        /* The result can be ignored: for an unknown errno, the text is empty or says so. */
        (void) strerror_r(failure->error_number, text, sizeof text);
        pass_message(options, &(minisign_installing_message) {
                                  .kind = MINISIGN_MESSAGE_CAUSE, .file = failure->path, .text = text,
                                  .system_error = failure->error_number });
    }
    if (failure->hint != NULL) {
        send_message(options, MINISIGN_MESSAGE_HINT, NULL, failure->hint);
    }
}

/* Returns the file that the message about a rejection names. If there is a list, the signature is that of the list. */
static enum subject subject_of(const minisign_installing_options *options, const struct rejection *rejection)
{
    bool is_of_list = rejection->error == MINISIGN_SIGNATURE_REFUSED
                      || (rejection->error == MINISIGN_NOT_UTF8 && rejection->is_signed);

    return options->list != NULL && is_of_list ? THE_LIST : result_for(rejection->error)->subject;
}

/* Describes the error for which the update is rejected. If a line of the list is at fault, the text contains its
 * number. */
static void describe_rejection(const minisign_installing_options *options, const struct rejection *rejection,
                               char text[MINISIGN_ERROR_TEXT_BYTES])
{
    if (rejection->error == MINISIGN_NO_NUMBER) {
        snprintf(text, MINISIGN_ERROR_TEXT_BYTES, "the trusted comment has no valid field \"%s:\"",
                 options->choices.numbering == MINISIGN_NUMBERING_VERSION ? "version" : "timestamp");
    } else if (rejection->error == MINISIGN_NOT_LISTED) {
        /* describe_error would say "this file is not in the list", but the message names the list and not the file. */
        minisign_error_text(rejection->error, text, MINISIGN_ERROR_TEXT_BYTES);
    } else if (rejection->line == 0) {
        describe_error(rejection->error, text);
    } else if (rejection->error == MINISIGN_MALFORMED_LINE) {
        snprintf(text, MINISIGN_ERROR_TEXT_BYTES, "line %" PRIu64 " is malformed", rejection->line);
    } else {
        snprintf(text, MINISIGN_ERROR_TEXT_BYTES, "line %" PRIu64 " is the second line with this name",
                 rejection->line);
    }
}

enum minisign_install_status report_rejection(const minisign_installing_options *options,
                                              const struct directory *directory, const struct rejection *rejection)
{
    const struct error_result *result = result_for(rejection->error);
    const struct failure *failure = &directory->failure;
    const char *const subjects[] = { options->signature_name, name_of_data(options), options->target,
                                     directory->record.path, options->list_name };
    char text[MINISIGN_ERROR_TEXT_BYTES];

    /* If a check finds no newer update, that is not an error. */
    if (result->status == MINISIGN_STATUS_OLDER && options->choices.is_check != 0) {
        return result->status;
    }
    if (result->status == MINISIGN_STATUS_FAILED && failure->is_set) {
        send_failure(options, failure);
        return rejection->is_too_large ? MINISIGN_STATUS_TOO_LARGE : result->status;
    }
    describe_rejection(options, rejection, text);
    pass_message(options, &(minisign_installing_message) {
                              .kind = MINISIGN_MESSAGE_ERROR, .file = subjects[subject_of(options, rejection)],
                              .text = text, .line = rejection->line });
    if (result->status == MINISIGN_STATUS_NOT_SYNCED && failure->is_set) {
        send_failure(options, failure);
    }
    return result->status;
}
