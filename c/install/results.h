/* SPDX-License-Identifier: MIT */
/* Turns the error of a run into its result, and sends messages to the caller. */
#ifndef RESULTS_H
#define RESULTS_H

#include "directory.h"
#include "minisign_installing.h"

/* Returns the name of the data for messages, or NULL if it has none. */
const char *name_of_data(const minisign_installing_options *options);

/* Sends a message to the caller. `file` is NULL if the message is not about a file. */
void send_message(const minisign_installing_options *options, enum minisign_message_kind kind, const char *file,
                  const char *text);

/* Why a run was rejected. */
struct rejection {
    enum minisign_error error;
    /* True if the data exceeds the maximum size. */
    bool is_too_large;
    /* True if a key has signed the trusted comment, so that the signature file is not malformed. */
    bool is_signed;
    /* The number of the line at fault in the list, or 0. */
    uint64_t line;
};

/* Returns the result of a run that was rejected, and sends messages that say why. They include the failure that
 * `directory` has recorded, if there is one. */
enum minisign_install_status report_rejection(const minisign_installing_options *options,
                                              const struct directory *directory, const struct rejection *rejection);

#endif
