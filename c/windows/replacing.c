/* SPDX-License-Identifier: MIT */
/*
 * Replaces files in one step, on Windows. A temporary file is opened so that no other process can open it. Until it is
 * complete, it is marked so that Windows deletes it when it is closed, even if the program is killed. Then it is
 * renamed, through its handle, to its target. Each file is synced and renamed at once; there is no queue of complete
 * files, as on POSIX systems.
 */
#include "minisign/replacing.h"

#include <sodium.h>

#include "access.h"
#include "minisign/cleanup.h"
#include "minisign/files.h"
#include "minisign/leftovers.h"
#include "native.h"
#include "shared/handles.h"
#include "shared/temporary_files.h"

#define TEMPORARY_PREFIX_CHARACTERS (sizeof TEMPORARY_PREFIX - 1)

/* A key pair consists of two files. */
enum { MAX_REPLACEMENTS = 2 };

/* The maximum number of tries of a call that fails because another process, such as a virus scanner, has the file open;
 * and the pause after the first try. Each pause is twice as long as the one before, so the pauses take about one
 * second. Opening the existing file and renaming the new file are tried separately. */
enum { MAX_TRIES = 11, FIRST_PAUSE_MS = 1 };

struct replacement {
    /* The file's name as it was given, for messages. NULL if this entry of `replacements` is free. */
    const char *file;
    /* Three paths, allocated with malloc: of the target, with all links resolved; of the temporary file; and a second
     * name of the existing file, with which it is restored if the partner is not put in place. */
    wchar_t *target, *temporary_path, *backup_path;
    /* The temporary file. The handle is still open after the file was renamed. */
    HANDLE handle;
    struct stat existing;
    bool has_existing;
    /* True if an existing file may be replaced. */
    bool may_replace;
    bool is_key;
    /* True for a device or a pipe: the content is written to it at once. */
    bool is_written_in_place;
    volatile bool is_placed;
    /* The other file of a key pair. If the partner is not put in place, this file is removed again. */
    struct replacement *volatile partner;
};

static struct replacement replacements[MAX_REPLACEMENTS];

/* ---- Targets ---- */

/* Returns the path of an open file, with all links resolved, allocated with malloc. Returns NULL if the file system
 * does not support this. */
static wchar_t *path_of(HANDLE handle)
{
    DWORD size = GetFinalPathNameByHandleW(handle, NULL, 0, FILE_NAME_NORMALIZED | VOLUME_NAME_DOS), len;
    wchar_t *path = size == 0 ? NULL : malloc((size + 1) * sizeof *path);

    len = path == NULL ? 0 : GetFinalPathNameByHandleW(handle, path, size + 1, FILE_NAME_NORMALIZED | VOLUME_NAME_DOS);
    if (len == 0 || len > size) {
        free(path);
        return NULL;
    }
    return path;
}

/* Returns the path of a name in a directory, allocated with malloc. */
static wchar_t *join_paths(const wchar_t *directory, const wchar_t *name)
{
    size_t len = wcslen(directory);
    wchar_t *path = malloc((len + wcslen(name) + 2) * sizeof *path);

    if (path != NULL) {
        wcscpy(path, directory);
        wcscat(path, len > 0 && directory[len - 1] == L'\\' ? L"" : L"\\");
        wcscat(path, name);
    }
    return path;
}

/* Finds the target if the file exists. `existing` is its handle. */
static bool find_existing_target(struct replacement *replacement, const wchar_t *path, HANDLE existing)
{
    replacement->has_existing = status_of_handle(existing, &replacement->existing);
    replacement->is_written_in_place = replacement->has_existing && !S_ISREG(replacement->existing.st_mode);
    replacement->target = replacement->is_written_in_place ? wcsdup(path) : path_of(existing);
    if (replacement->target == NULL && (GetFileAttributesW(path) & FILE_ATTRIBUTE_REPARSE_POINT) == 0) {
        replacement->target = wcsdup(path);
    }
    if (replacement->target == NULL) {
        errno = EINVAL;
    }
    return replacement->has_existing && replacement->target != NULL;
}

/* Finds the target if the file does not exist, but its directory does. */
static bool find_new_target(struct replacement *replacement, wchar_t *path)
{
    wchar_t *name = last_part_of(path), *copy, *directory;
    HANDLE parent;

    if (*name == 0) {
        errno = ENOENT;
        return false;
    }
    copy = wcsdup(path);
    if (copy == NULL) {
        return false;
    }
    copy[name - path] = 0;
    parent = open_to_inspect(copy, FILE_READ_ATTRIBUTES);
    if (parent == INVALID_HANDLE_VALUE) {
        errno = errno_of(GetLastError());
        free(copy);
        return false;
    }
    directory = path_of(parent);
    CloseHandle(parent);
    replacement->target = join_paths(directory != NULL ? directory : copy, name);
    free(directory);
    free(copy);
    return replacement->target != NULL;
}

/* Finds the target of `replacement->file`. On failure, returns false and sets errno. */
static bool find_target(struct replacement *replacement)
{
    wchar_t *path = wide_path(replacement->file);
    bool is_found = false;
    HANDLE existing;

    if (path == NULL) {
        return false;
    }
    existing = open_to_inspect(path, READ_CONTROL | FILE_READ_ATTRIBUTES);
    if (existing != INVALID_HANDLE_VALUE) {
        is_found = find_existing_target(replacement, path, existing);
        CloseHandle(existing);
    } else {
        errno = errno_of(GetLastError());
        if (errno == ENOENT && GetFileAttributesW(path) != INVALID_FILE_ATTRIBUTES) {
            errno = LINK_HAS_NO_TARGET;
        } else if (errno == ENOENT) {
            is_found = find_new_target(replacement, path);
        }
    }
    free(path);
    return is_found;
}

/* ---- Removal ---- */

/* Sets whether Windows deletes a file when it is closed. */
static bool delete_on_close(HANDLE handle, bool is_deleted)
{
    FILE_DISPOSITION_INFO disposition = { is_deleted };

    return SetFileInformationByHandle(handle, FileDispositionInfo, &disposition, sizeof disposition) != 0;
}

/* If a file was put in place but its partner was not, removes the file again and restores the existing one. */
static void undo_replacement(struct replacement *replacement)
{
    if (!replacement->is_placed || replacement->partner == NULL || replacement->partner->is_placed) {
        return;
    }
    if (replacement->backup_path == NULL) {
        delete_on_close(replacement->handle, true);
    }
    CloseHandle(replacement->handle);
    replacement->handle = INVALID_HANDLE_VALUE;
    if (replacement->backup_path != NULL) {
        MoveFileExW(replacement->backup_path, replacement->target, MOVEFILE_REPLACE_EXISTING);
        replacement->backup_path = NULL;
    }
    replacement->is_placed = false;
}

/* Closes the temporary file, which is deleted unless it was put in place, and removes the second name of the existing
 * file. */
static void close_temporary_file(struct replacement *replacement)
{
    if (replacement->handle != INVALID_HANDLE_VALUE) {
        if (!replacement->is_placed && !replacement->is_written_in_place) {
            delete_on_close(replacement->handle, true);
        }
        CloseHandle(replacement->handle);
        replacement->handle = INVALID_HANDLE_VALUE;
    }
    if (replacement->backup_path != NULL) {
        DeleteFileW(replacement->backup_path);
    }
}

/* Runs when the program ends. Frees no memory, because it may run in the thread that handles a console event. */
static void delete_temporary_files(void)
{
    for (struct replacement *replacement = replacements; replacement < replacements + MAX_REPLACEMENTS; replacement++) {
        if (replacement->file != NULL) {
            undo_replacement(replacement);
            close_temporary_file(replacement);
        }
    }
}

static void release_replacement(struct replacement *replacement)
{
    block_termination();
    close_temporary_file(replacement);
    free(replacement->backup_path);
    free(replacement->target);
    free(replacement->temporary_path);
    *replacement = (struct replacement) { .handle = INVALID_HANDLE_VALUE };
    allow_termination();
}

/* ---- Temporary files ---- */

/* Returns the path of a name in the directory of the target, allocated with malloc. */
static wchar_t *sibling_path(wchar_t *target, const wchar_t *name)
{
    size_t front = (size_t) (last_part_of(target) - target);
    wchar_t *path = malloc((front + wcslen(name) + 1) * sizeof *path);

    if (path != NULL) {
        memcpy(path, target, front * sizeof *path);
        wcscpy(path + front, name);
    }
    return path;
}

/* Returns a path with a random temporary name in the directory of the target, allocated with malloc. */
static wchar_t *random_sibling_path(wchar_t *target)
{
    uint8_t random[TEMPORARY_RANDOM_BYTES];
    wchar_t name[TEMPORARY_NAME_BYTES];
    char hex[2 * TEMPORARY_RANDOM_BYTES + 1];

    randombytes_buf(random, sizeof random);
    sodium_bin2hex(hex, sizeof hex, random, sizeof random);
    _snwprintf(name, TEMPORARY_NAME_BYTES, L"%hs%hs", TEMPORARY_PREFIX, hex);
    return sibling_path(target, name);
}

static bool is_temporary_name(const wchar_t *name)
{
    size_t digits = 2 * TEMPORARY_RANDOM_BYTES;

    return wcslen(name) == TEMPORARY_PREFIX_CHARACTERS + digits
           && wcsspn(name + TEMPORARY_PREFIX_CHARACTERS, L"0123456789abcdef") == digits;
}

/* Removes the temporary files that killed runs left in the directory of the target. A file that another process has open
 * is in use, and is not removed. */
static void remove_leftovers(wchar_t *target)
{
    wchar_t *pattern = sibling_path(target, L"" TEMPORARY_PREFIX "*");
    WIN32_FIND_DATAW entry;
    HANDLE entries = pattern == NULL ? INVALID_HANDLE_VALUE : FindFirstFileW(pattern, &entry);

    for (BOOL has_entry = entries != INVALID_HANDLE_VALUE; has_entry; has_entry = FindNextFileW(entries, &entry)) {
        bool is_file = (entry.dwFileAttributes & (FILE_ATTRIBUTE_DIRECTORY | FILE_ATTRIBUTE_REPARSE_POINT)) == 0;
        wchar_t *path = is_file && is_temporary_name(entry.cFileName) ? sibling_path(target, entry.cFileName) : NULL;
        HANDLE leftover = INVALID_HANDLE_VALUE;

        if (path != NULL) {
            leftover = CreateFileW(path, DELETE, 0, NULL, OPEN_EXISTING, FILE_FLAG_OPEN_REPARSE_POINT, NULL);
        }
        if (leftover != INVALID_HANDLE_VALUE) {
            delete_on_close(leftover, true);
            CloseHandle(leftover);
        }
        free(path);
    }
    if (entries != INVALID_HANDLE_VALUE) {
        FindClose(entries);
    }
    free(pattern);
}

/* Creates a temporary file that is deleted when it is closed. On failure, returns false and sets errno. */
static bool open_temporary_file(struct replacement *replacement, bool is_secret)
{
    DWORD access = GENERIC_READ | GENERIC_WRITE | DELETE | WRITE_DAC | READ_CONTROL;
    struct own_access own = { 0 };

    if (is_secret && !begin_own_access(&own, false)) {
        return false;
    }
    replacement->temporary_path = random_sibling_path(replacement->target);
    block_termination();
    if (replacement->temporary_path != NULL) {
        replacement->handle = CreateFileW(replacement->temporary_path, access, 0, is_secret ? &own.attributes : NULL,
                                          CREATE_NEW, FILE_ATTRIBUTE_NORMAL, NULL);
    }
    if (replacement->handle == INVALID_HANDLE_VALUE) {
        errno = errno_of(GetLastError());
    } else {
        delete_on_close(replacement->handle, true);
    }
    allow_termination();
    end_own_access(&own);
    return replacement->handle != INVALID_HANDLE_VALUE;
}

/* ---- Writing ---- */

/* If a call failed because another process has the file open, waits and returns true: the caller tries again. `tries`
 * is the number of pauses before this one. */
static bool wait_for_others(DWORD error, int tries)
{
    if ((error != ERROR_SHARING_VIOLATION && error != ERROR_ACCESS_DENIED) || tries + 1 >= MAX_TRIES) {
        return false;
    }
    Sleep((DWORD) FIRST_PAUSE_MS << tries);
    return true;
}

/* Opens the existing file for writing, because a file that the user may not write to must not be replaced either. On
 * failure, returns INVALID_HANDLE_VALUE and sets errno. */
static HANDLE open_existing_file(const wchar_t *path)
{
    HANDLE existing = INVALID_HANDLE_VALUE;
    DWORD error = ERROR_SUCCESS;

    if ((GetFileAttributesW(path) & FILE_ATTRIBUTE_READONLY) != 0) {
        errno = EACCES;
        return existing;
    }
    for (int tries = 0; tries == 0 || wait_for_others(error, tries - 1); tries++) {
        existing = open_to_inspect(path, GENERIC_WRITE | READ_CONTROL);
        if (existing != INVALID_HANDLE_VALUE) {
            return existing;
        }
        error = GetLastError();
        if (error == ERROR_ACCESS_DENIED) {
            break;
        }
    }
    errno = errno_of(error);
    return existing;
}

static bool is_secret(enum file_kind kind)
{
    return kind == NEW_SECRET_KEY || kind == CHANGED_SECRET_KEY || kind == UNSEALED_SECRET_KEY;
}

static bool write_handle(HANDLE handle, const uint8_t *bytes, size_t len)
{
    while (len > 0) {
        DWORD written = 0;

        if (!WriteFile(handle, bytes, (DWORD) len, &written, NULL) || written == 0) {
            errno = errno_of(GetLastError());
            return false;
        }
        bytes += written;
        len -= written;
    }
    return true;
}

/* Writes to a device or a pipe. A secret is not written to a pipe, because the pipe may be another user's. */
static void write_in_place(struct replacement *replacement, enum file_kind kind, const uint8_t *bytes, size_t len)
{
    errno = S_ISDIR(replacement->existing.st_mode) ? EISDIR : EINVAL;
    check_errno(S_ISCHR(replacement->existing.st_mode) || (S_ISFIFO(replacement->existing.st_mode) && !is_secret(kind)),
                replacement->file);
    replacement->handle = CreateFileW(replacement->target, GENERIC_WRITE, FILE_SHARE_READ | FILE_SHARE_WRITE, NULL,
                                      OPEN_EXISTING, 0, NULL);
    errno = replacement->handle == INVALID_HANDLE_VALUE ? errno_of(GetLastError()) : 0;
    check_errno(replacement->handle != INVALID_HANDLE_VALUE && write_handle(replacement->handle, bytes, len),
                replacement->file);
}

/* Gives the temporary file the access list of the existing file. But if the password of a secret key was removed, gives
 * it a list with only this user and the system. A new secret key was already created with such a list. */
static void copy_permissions(const struct replacement *replacement, enum file_kind kind)
{
    HANDLE existing = open_existing_file(replacement->target);
    bool is_given;

    check_errno(existing != INVALID_HANDLE_VALUE, replacement->file);
    is_given = kind == NEW_SECRET_KEY        ? true
               : kind == UNSEALED_SECRET_KEY ? give_own_access(replacement->handle)
                                             : copy_access(existing, replacement->handle);
    CloseHandle(existing);
    check_errno(is_given, replacement->file);
}

static void sync_temporary_file(const struct replacement *replacement)
{
    errno = EIO;
    check_errno(FlushFileBuffers(replacement->handle) != 0, replacement->file);
}

static void write_replacement(struct replacement *replacement, enum file_kind kind, const uint8_t *bytes, size_t len)
{
    if (replacement->is_written_in_place) {
        write_in_place(replacement, kind, bytes, len);
        return;
    }
    replacement->is_key = kind != SIGNATURE;
    remove_leftovers(replacement->target);
    check_errno(open_temporary_file(replacement, is_secret(kind)), replacement->file);
    if (replacement->has_existing) {
        copy_permissions(replacement, kind);
    }
    check_errno(write_handle(replacement->handle, bytes, len), replacement->file);
    if (replacement->is_key || replacement->has_existing) {
        sync_temporary_file(replacement);
    }
}

/* ---- Replacements ---- */

static struct replacement *begin_replacement(const char *file, bool may_replace)
{
    static bool is_registered;
    struct replacement *replacement = replacements;

    if (!is_registered) {
        is_registered = true;
        for (int i = 0; i < MAX_REPLACEMENTS; i++) {
            replacements[i].handle = INVALID_HANDLE_VALUE;
        }
        clean_at_end(delete_temporary_files);
    }
    while (replacement < replacements + MAX_REPLACEMENTS && replacement->file != NULL) {
        replacement++;
    }
    if (replacement == replacements + MAX_REPLACEMENTS) {
        fail_with_hint(NULL, "too many files are written at the same time", NULL);
    }
    replacement->file = file;
    replacement->may_replace = may_replace;
    check_errno(find_target(replacement), file);
    return replacement;
}

/* Ends the program if no file can have this name, before the user is asked for a password. Files of other users are not
 * rejected, because they are replaced, never written to, and a new secret key gets its own access list. */
void reject_untrusted_file(const char *file, enum file_kind kind)
{
    wchar_t *path = wide_path(file);

    (void) kind;
    check_errno(path != NULL, file);
    free(path);
}

struct replacement *prepare_replacement(const char *file, enum file_kind kind, bool may_replace, const uint8_t *bytes,
                                        size_t len)
{
    struct replacement *replacement = begin_replacement(file, may_replace);

    if (replacement->has_existing && !may_replace) {
        release_replacement(replacement);
        return NULL;
    }
    write_replacement(replacement, kind, bytes, len);
    return replacement;
}

bool have_same_destination(const struct replacement *first, const struct replacement *second)
{
    return !first->is_written_in_place && !second->is_written_in_place
           && ((first->has_existing && second->has_existing && is_same_file(&first->existing, &second->existing))
               || CompareStringOrdinal(first->target, -1, second->target, -1, TRUE) == CSTR_EQUAL);
}

/* ---- Putting in place ---- */

/* The result of putting a file in place: success, a file exists that must not be replaced, or an error (in errno). */
enum placement { PLACED, NAME_TAKEN, NOT_PLACED };

static bool rename_handle(HANDLE handle, const wchar_t *target, bool may_replace)
{
    size_t bytes = wcslen(target) * sizeof *target;
    FILE_RENAME_INFO *rename = calloc(1, sizeof *rename + bytes);
    bool is_renamed;

    if (rename == NULL) {
        SetLastError(ERROR_NOT_ENOUGH_MEMORY);
        return false;
    }
    rename->ReplaceIfExists = may_replace;
    rename->FileNameLength = (DWORD) bytes;
    wcscpy(rename->FileName, target);
    is_renamed = SetFileInformationByHandle(handle, FileRenameInfo, rename, (DWORD) (sizeof *rename + bytes)) != 0;
    free(rename);
    return is_renamed;
}

/* Tries to rename the temporary file to the target. During that, the file is not marked for deletion, because a file
 * with this mark cannot be renamed. */
static DWORD try_rename(struct replacement *replacement)
{
    DWORD error = ERROR_SUCCESS;

    block_termination();
    delete_on_close(replacement->handle, false);
    replacement->is_placed = rename_handle(replacement->handle, replacement->target, replacement->may_replace);
    if (!replacement->is_placed) {
        error = GetLastError();
        delete_on_close(replacement->handle, true);
    }
    allow_termination();
    return error;
}

static enum placement place_replacement(struct replacement *replacement)
{
    DWORD error = ERROR_SUCCESS;

    if (replacement->is_written_in_place) {
        return PLACED;
    }
    for (int tries = 0; tries == 0 || wait_for_others(error, tries - 1); tries++) {
        error = try_rename(replacement);
        if (replacement->is_placed) {
            return PLACED;
        }
        if (!replacement->may_replace && GetFileAttributesW(replacement->target) != INVALID_FILE_ATTRIBUTES) {
            return NAME_TAKEN;
        }
    }
    /* The existing file could be opened for writing, so access is denied only because another process has it open. */
    errno = errno_of(error == ERROR_ACCESS_DENIED && replacement->has_existing ? ERROR_SHARING_VIOLATION : error);
    return NOT_PLACED;
}

static bool was_placed(const struct replacement *replacement, enum placement placement)
{
    check_errno(placement != NOT_PLACED, replacement->file);
    return placement == PLACED;
}

/* Syncs the new name, which Windows writes together with the file. */
static void sync_new_name(const struct replacement *replacement)
{
    if (!replacement->is_written_in_place) {
        sync_temporary_file(replacement);
    }
}

bool put_in_place(struct replacement *replacement)
{
    bool is_in_place = was_placed(replacement, place_replacement(replacement));

    if (is_in_place && replacement->is_key) {
        sync_new_name(replacement);
    }
    release_replacement(replacement);
    return is_in_place;
}

void replace_key(const char *file, enum file_kind kind, uid_t owner, const uint8_t *bytes, size_t len)
{
    struct replacement *replacement = begin_replacement(file, true);

    if (replacement->has_existing && replacement->existing.st_uid != owner) {
        fail_with_hint(file, "another user replaced this file after the key was read",
                       "check who can write to its directory, then try again");
    }
    write_replacement(replacement, kind, bytes, len);
    put_in_place(replacement);
}

/* ---- Pairs ---- */

/* Gives the existing file a second name, with which it is restored if the partner is not put in place. Without hard
 * links it could not be restored, so then the first file of the pair is never removed again. */
static void back_up(struct replacement *replacement, struct replacement *partner)
{
    block_termination();
    replacement->partner = partner;
    if (replacement->has_existing && !replacement->is_written_in_place) {
        replacement->backup_path = random_sibling_path(replacement->target);
        if (replacement->backup_path != NULL && !CreateHardLinkW(replacement->backup_path, replacement->target, NULL)) {
            free(replacement->backup_path);
            replacement->backup_path = NULL;
            replacement->partner = NULL;
        }
    }
    allow_termination();
}

static void undo_uninterrupted(struct replacement *replacement)
{
    block_termination();
    undo_replacement(replacement);
    allow_termination();
}

/* Returns true if the target of the partner is the new file. */
static bool is_new_file_at(const struct replacement *replacement, const struct replacement *partner)
{
    HANDLE handle = open_to_inspect(partner->target, FILE_READ_ATTRIBUTES | READ_CONTROL);
    struct stat opened, named;
    bool is_same = handle != INVALID_HANDLE_VALUE && status_of_handle(handle, &named)
                   && status_of_handle(replacement->handle, &opened) && is_same_file(&opened, &named);

    if (handle != INVALID_HANDLE_VALUE) {
        CloseHandle(handle);
    }
    return is_same;
}

const char *put_both_in_place(struct replacement *first, struct replacement *second)
{
    const char *existing = NULL;

    back_up(first, second);
    if (!was_placed(first, place_replacement(first))) {
        existing = first->file;
    } else {
        sync_new_name(first);
        if (!first->is_written_in_place && !second->is_written_in_place && is_new_file_at(first, second)) {
            undo_uninterrupted(first);
            fail_with_hint(second->file, "on this file system, this is the same file as the other key file",
                           "use -s FILE and -p FILE to name two different files");
        }
        if (was_placed(second, place_replacement(second))) {
            first->partner = NULL;
            sync_new_name(second);
        } else {
            existing = second->file;
            undo_uninterrupted(first);
        }
    }
    release_replacement(first);
    release_replacement(second);
    return existing;
}

/* ---- Several files ---- */

void queue_replacement(const char *file, enum file_kind kind, const uint8_t *bytes, size_t len)
{
    put_in_place(prepare_replacement(file, kind, true, bytes, len));
}

void finish_replacements(void)
{
}

void finish_replacements_before(const char *file)
{
    (void) file;
}
