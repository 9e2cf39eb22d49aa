/*
 * minisign_installing.h: install an update with one call, on POSIX systems.
 *
 * SPDX-License-Identifier: MIT
 *
 * minisign_install_file does what the program minisign-install does. It replaces one file, the target, with an update
 * that has a valid Minisign signature. A file beside the target, the record, holds the version number of the newest
 * update that was installed. The call rejects an update if the version number in its signed trusted comment is below
 * the recorded one. You choose the paths, the permissions and the clock, and pass a function that verifies Ed25519
 * signatures, such as crypto_sign_verify_detached of libsodium. The formally verified state machine of
 * minisign_install.h makes all other decisions. docs/INSTALLING.md says which updates are rejected, and which files
 * are kept beside the target.
 *
 *     minisign_installing_options options = { 0 };
 *
 *     options.target = "there/app";
 *     options.data = "app.download";
 *     options.signature = signature;
 *     options.signature_len = signature_len;
 *     options.key = &key;
 *     options.choices.numbering = MINISIGN_NUMBERING_VERSION;
 *     options.verify = crypto_sign_verify_detached;
 *     switch (minisign_install_file(&options, NULL)) {
 *     case MINISIGN_STATUS_INSTALLED: restart(); break;
 *     case MINISIGN_STATUS_ALREADY_INSTALLED: break;
 *     default: report(); break;
 *     }
 *
 * Link with -lminisign-installing -lminisign, and with your Ed25519 library. For the first two, use the flags that
 * `pkg-config --cflags --libs minisign-installing` prints.
 *
 * The call is synchronous. It prints nothing, does not end the program, starts no thread, and keeps no state after it
 * returns. Several threads may call it at the same time. If they install to the same target, one call runs, and the
 * others wait for it or return MINISIGN_STATUS_IN_USE (see the field `wait`). The call allocates about 300 KiB plus
 * the size of the signature file, whatever the size of the data.
 *
 * While the call renames the new record and the new file to their places, it blocks SIGHUP, SIGINT, SIGQUIT and
 * SIGTERM in the calling thread. In a program with several threads, block these signals in the other threads too, or
 * handle them. Otherwise a signal that is sent to the process can end it between the two renames. Then the record is
 * that of the update, but the target has the old data until the next run with this update. Ignore SIGXFSZ if the
 * process may have a limit for the size of files (RLIMIT_FSIZE), and SIGPIPE if your own functions write to pipes.
 */
#ifndef MINISIGN_INSTALLING_H
#define MINISIGN_INSTALLING_H

#include "minisign_install.h"

#ifdef __cplusplus
extern "C" {
#endif

/* The results of minisign_install_file. The values from 0 to 10 are also the exit statuses of minisign-install. */
enum minisign_install_status {
    /* The update was installed and synced to the disk: a crash does not undo it. For a check: it would be installed. */
    MINISIGN_STATUS_INSTALLED = 0,
    /* An operation on a file failed, an allocation failed, or the system supplied no random bytes. Try again later. */
    MINISIGN_STATUS_FAILED = 1,
    /* The options are not valid, or the path of the target does not end with a file name. */
    MINISIGN_STATUS_MISUSE = 2,
    /* The update is rejected because of its signature, its trusted comment, the size of its data or, with a list,
     * because of the list or the digest of the data. */
    MINISIGN_STATUS_REJECTED = 3,
    /* The update is older than the recorded version. */
    MINISIGN_STATUS_OLDER = 4,
    /* Another run holds the lock. */
    MINISIGN_STATUS_IN_USE = 5,
    /* The update is installed but could not be synced, so a crash may bring back the previous file. Call again. */
    MINISIGN_STATUS_NOT_SYNCED = 6,
    /* The record is missing or damaged, or was made with the other numbering (timestamp or version). */
    MINISIGN_STATUS_UNRECORDED = 7,
    /* The update has the recorded version number, but a different file is installed. */
    MINISIGN_STATUS_SAME_VERSION = 8,
    /* The update has expired. */
    MINISIGN_STATUS_EXPIRED = 9,
    /* The update was already installed. If this was not a check, the installed file was synced to the disk. */
    MINISIGN_STATUS_ALREADY_INSTALLED = 10,
    /* The data is larger than max_size. */
    MINISIGN_STATUS_TOO_LARGE = 11,
    /* The function `progress` has stopped the run. */
    MINISIGN_STATUS_STOPPED = 12
};

/* The phases of a run, which are reported to the function `progress`. */
enum minisign_install_phase {
    /* Another run holds the lock. The function is called ten times per second. */
    MINISIGN_PHASE_WAITING = 1,
    /* The data is not in a regular file. A piece of it was read into an unnamed file. */
    MINISIGN_PHASE_RECEIVING = 2,
    /* A piece of the installed file was read, to find out whether this file is the update. */
    MINISIGN_PHASE_COMPARING = 3,
    /* A piece of the data was copied into a temporary file. */
    MINISIGN_PHASE_COPYING = 4,
    /* A piece of the temporary file was read back. */
    MINISIGN_PHASE_VERIFYING = 5,
    /* The record and the target are about to be renamed. This is the last call of the function in a run. */
    MINISIGN_PHASE_RENAMING = 6
};

/* The kinds of messages. An error is the reason why the update is not installed, or not synced. A cause says which
 * file could not be used, and why. It follows an error, except that a run which ends with MINISIGN_STATUS_FAILED or
 * MINISIGN_STATUS_TOO_LARGE may send only the cause. A hint says what the user can do. A warning does not change the
 * result. */
enum minisign_message_kind {
    MINISIGN_MESSAGE_ERROR = 1,
    MINISIGN_MESSAGE_CAUSE = 2,
    MINISIGN_MESSAGE_HINT = 3,
    MINISIGN_MESSAGE_WARNING = 4
};

/* A message. It is valid until the function that gets it returns. */
typedef struct minisign_installing_message {
    enum minisign_message_kind kind;
    const char *file; /* the file that the message is about, or NULL; escape control characters before you print it */
    const char *text; /* in English, such as "the update has expired" or "Permission denied"; a hint may name an option
                       * of minisign-install */
    int system_error; /* errno, if a system call failed, otherwise 0 */
    uint64_t line;    /* the number of the line of a list that the message is about, otherwise 0 */
} minisign_installing_message;

/* The progress of a run. The run goes on only if the function that gets it sets goes_on to 1. */
typedef struct minisign_installing_progress {
    enum minisign_install_phase phase;
    uint32_t goes_on; /* 0 before the call */
    uint64_t done;    /* the number of bytes that were processed in this phase */
    uint64_t size;    /* the number of bytes in this phase in total, or 0 if it is unknown */
} minisign_installing_progress;

/* The options of minisign_install_file. First set all fields to 0, for example with `= { 0 }`. Then set target,
 * signature, signature_len and key, one of verify and answer, and, unless you only want a check, one of data, read and
 * data_fd. The other fields may stay 0. The strings and structs must not change during the call. The functions that you
 * pass, except `verify`, write their results through pointers. Before each call the result is set to a value that means
 * failure. So if a function is written in another language and raises an exception before it writes a result, the run
 * takes this as a failure. */
typedef struct minisign_installing_options {
    /* The path of the file to replace. Its directory must exist. */
    const char *target;

    /* The content of the signature file and its length. signature_name is the name of the file in messages, and may be
     * NULL. */
    const uint8_t *signature;
    size_t signature_len;
    const char *signature_name;

    /* The content and the length of a signed list of files, such as SHA256SUMS, if the signature is that of the list,
     * or NULL if it is that of the data. With a list, the data must have the digest that the list has for `name`. The
     * version number and the expiry time are those in the trusted comment of the list, and apply to all of its files.
     * list_name is the path of the list, and is required. Its last part must be the file name in the trusted comment;
     * otherwise the error is MINISIGN_OTHER_LIST. minisign_list.h says which lines a list may have. The value of
     * choices.long_digest says which hash function 128 hexadecimal digits stand for on a line that names none; if it is
     * 0, such a line is malformed. The call sets choices.is_list itself, which must be 0 without a list. */
    const uint8_t *list;
    size_t list_len;
    const char *list_name;

    /* The public key, and a second one that is also accepted, for example while you change keys. The second one may be
     * NULL. The signature must have the key ID of one of them. If both have this key ID, either may have signed. */
    const minisign_public_key *key;
    const minisign_public_key *other_key;

    /* The numbering, and choices such as is_first and is_check. With is_check nothing is installed, and the result says
     * what an installation would return. */
    minisign_install_options choices;

    /* The source of the data. `data` is the path of a file. If it is NULL, the call reads the data with the function
     * `read`. If `read` is NULL too, the call reads from the open descriptor data_fd, and does not close it. A check
     * reads no data. If the data is not in a regular file, for example in a pipe, the call first makes a check. If the
     * check finds that the update is to be installed, the call reads the data into an unnamed file in the directory of
     * the target, and installs from this file. It reads at most one byte more than the size in the trusted comment or
     * max_size, whichever is smaller. With a list, the size in the trusted comment is not that of the data, so max_size
     * is required for such data. */
    const char *data;
    int data_fd;
    /* Reads up to size bytes, and writes to *len how many it has read, or 0 at the end of the data. *len is SIZE_MAX
     * before the call. If it still is afterwards, reading has failed, and errno should say why. */
    void (*read)(void *context, uint8_t *bytes, size_t size, size_t *len);
    const char *data_name; /* the name of the data in messages; NULL: its path, if it has one */

    /* The maximum size of the data, if has_max_size is 1. If has_max_size is 0, and there is a list or the trusted
     * comment has no field "size:", there is no limit. */
    uint64_t max_size;
    uint32_t has_max_size;

    /* The permissions of the installed file, up to 0777, if has_mode is 1. If has_mode is 0, the file gets the
     * permissions of the file that it replaces, or 0600 if there is none. */
    uint32_t mode;
    uint32_t has_mode;

    /* The number of seconds to wait for the lock if another run holds it, at most 86400. */
    uint32_t wait;

    /* The file name that the trusted comment must contain or, with a list, the name that the list must contain exactly
     * once, which may be a relative path such as "bin/app". NULL: the last part of `target`. */
    const char *name;

    /* Verifies an Ed25519 signature: returns 0 if it is valid. crypto_sign_verify_detached has this type. Weak keys and
     * signatures ("Ed25519" under "Requirements" in minisign.h) are rejected before the function is called. */
    int (*verify)(const unsigned char *signature, const unsigned char *message, unsigned long long message_len,
                  const unsigned char *public_key);
    /* Verifies an Ed25519 signature, in place of `verify`, and writes MINISIGN_ANSWER_YES or MINISIGN_ANSWER_NO to
     * *answer. If it writes neither, the run ends with MINISIGN_STATUS_FAILED. If this field is not NULL, `verify` is
     * not called. */
    void (*answer)(void *context, const uint8_t *signature, const uint8_t *message, size_t message_len,
                   const uint8_t *public_key, enum minisign_answer *answer);

    /* Writes the current time in seconds since 1970 to *now, which is -1 before the call. A negative number means that
     * the time is unknown. Then every update that has an expiry time is rejected as expired. NULL: the system's
     * clock. */
    void (*now)(void *context, int64_t *now);

    /* Receives the version number and the trusted comment of the update, once, as soon as the signature of the comment
     * was verified, even if the update is then rejected. The version number is 0 if the comment has none. The comment
     * may contain control characters. */
    void (*signed_comment)(void *context, uint64_t version, const uint8_t *comment, size_t comment_len);

    /* Receives the progress of the run; enum minisign_install_phase says when it is called. If the function does not
     * set goes_on to 1, the run removes its temporary files and ends with MINISIGN_STATUS_STOPPED. Then the target and
     * its record are unchanged. */
    void (*progress)(void *context, minisign_installing_progress *progress);

    /* Receives the messages of the run, one in each call. */
    void (*message)(void *context, const minisign_installing_message *message);

    /* The first argument of all these functions except `verify`. */
    void *context;
} minisign_installing_options;

/*
 * Installs an update, or only checks whether it would be installed. Returns the result. If `why` is not NULL, the call
 * writes an error number to it: the reason why the update is not installed, or not synced, or MINISIGN_OK if there is
 * none.
 *
 * If the result is MINISIGN_STATUS_INSTALLED or MINISIGN_STATUS_ALREADY_INSTALLED, the update is at the target, and a
 * crash of the machine does not undo that. After MINISIGN_STATUS_NOT_SYNCED it is at the target, but a crash may undo
 * it. After any other result the target is unchanged. If an error occurs after the call has replaced the record, the
 * next run with this update finishes the installation. Whenever the program is killed or the machine crashes, the
 * target is a complete file: the old one or the update.
 *
 * A check (is_check in the choices) writes nothing and takes no lock. If an installation would reject the update, the
 * check reports the reason. It does not read the data, and does not notice if the user has no permission to write to
 * the directory. Since 0.3.
 */
MINISIGN_MUST_USE enum minisign_install_status minisign_install_file(const minisign_installing_options *options,
                                                                     enum minisign_error *why);

#ifdef __cplusplus
}
#endif

#endif
