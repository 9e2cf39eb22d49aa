/* SPDX-License-Identifier: MIT */
/* Replaces files in one step: a concurrent process, and a process after a kill of this one, finds either the complete
 * old file or the complete new file. */
#ifndef REPLACING_H
#define REPLACING_H

#include "shared/system.h"

/*
 * The kinds of files. They differ in the permissions that a file gets, and in what is synced:
 *
 * - A new secret key gets mode 0600 and belongs to the user, whatever file it replaces.
 * - Any other file that replaces an existing file gets the owner, mode and access list of that file. A secret key whose
 *   password was removed gets only the owner's permissions.
 * - Keys, and all files that replace an existing file, are synced before they are renamed. So after a power failure
 *   there is either the complete old file or the complete new file. For a key, the new name is synced too, so that the
 *   key cannot be lost once the program has succeeded.
 * - A signature that replaces no file is not synced, because it can be made again.
 */
enum file_kind { NEW_SECRET_KEY, CHANGED_SECRET_KEY, UNSEALED_SECRET_KEY, PUBLIC_KEY, SIGNATURE };

/* A temporary file that is written but does not have its final name yet. Giving it this name is called putting it in
 * place. */
struct replacement;

/*
 * Writes the whole content of a file to a temporary file in the directory of the target. The temporary file has no name
 * if the file system supports that. Otherwise, and while it replaces an existing file, its name is TEMPORARY_PREFIX and
 * 16 hexadecimal digits. It is locked (flock) while it is used. Temporary files that killed runs left in the directory
 * are removed first.
 *
 * destinations.h says how links and files of other users are handled. If the target is not a regular file, but for
 * example a pipe or a device, this call writes the content to it, and `put_in_place` changes no file. If the target
 * exists and `may_replace` is false, nothing is opened or written, and the result is NULL. On failure, removes the
 * temporary file and ends the program.
 */
struct replacement *prepare_replacement(const char *file, enum file_kind kind, bool may_replace, const uint8_t *bytes,
                                        size_t len);

/* Ends the program if `prepare_replacement` would do so because of a link or file of an untrusted user. Opens
 * nothing. */
void reject_untrusted_file(const char *file, enum file_kind kind);

/* Returns true if both files would be put in the same place. */
bool have_same_destination(const struct replacement *first, const struct replacement *second);

/* Puts a temporary file in place. If it must not replace a file, and the target exists by now, removes the temporary
 * file and returns false. */
bool put_in_place(struct replacement *replacement);

/*
 * Puts a pair of files in place: both of them, or none if that fails or a signal ends the program. There are two
 * exceptions, after which only the first file is in place: a kill or a power failure in between; and a failure if the
 * first file replaced an existing file and the file system cannot exchange names (renameat2). Returns NULL on success.
 * If one of the files exists and must not be replaced, returns its name.
 */
const char *put_both_in_place(struct replacement *first, struct replacement *second);

/* Replaces a secret key file with its changed version. `owner` is the owner of the file that was read. If the file
 * belongs to another user by now, that user would get the key, so the program ends with an error. */
void replace_key(const char *file, enum file_kind kind, uid_t owner, const uint8_t *bytes, size_t len);

/*
 * Writes one of many files, which may replace an existing file. A file that has to be synced is queued, up to a limit,
 * so that several files are synced together. `finish_replacements` puts all queued files in place, in the order in
 * which they were queued. The end of the program does that too, unless a signal ends it.
 */
void queue_replacement(const char *file, enum file_kind kind, const uint8_t *bytes, size_t len);
void finish_replacements(void);

/* Must be called before `file` is read. Calls `finish_replacements` if a queued file would replace `file`, or if
 * reading `file` may take long. */
void finish_replacements_before(const char *file);

#endif
