/* SPDX-License-Identifier: MIT */
/* Implements the functions of posix.h. */
#include "native.h"

#include <stdarg.h>

#include "shared/handles.h"
#include "access.h"

/* posix.h defines strerror as windows_strerror, which itself calls strerror of the C library. */
#undef strerror

/* The maximum number of bytes to read or write in one call. */
#define MAX_TRANSFER (1 << 30)

#define SHARE_ALL (FILE_SHARE_READ | FILE_SHARE_WRITE | FILE_SHARE_DELETE)

/* ---- Errors ---- */

int errno_of(DWORD error)
{
    switch (error) {
    case ERROR_FILE_NOT_FOUND:
    case ERROR_PATH_NOT_FOUND:
    case ERROR_BAD_NETPATH:
    case ERROR_BAD_NET_NAME:
    case ERROR_INVALID_DRIVE: return ENOENT;
    case ERROR_INVALID_NAME:
    case ERROR_BAD_PATHNAME: return EINVAL;
    case ERROR_ACCESS_DENIED: return EACCES;
    case ERROR_SHARING_VIOLATION:
    case ERROR_LOCK_VIOLATION:
    case ERROR_DELETE_PENDING: return FILE_IS_IN_USE;
    case ERROR_FILE_EXISTS:
    case ERROR_ALREADY_EXISTS: return EEXIST;
    case ERROR_WRITE_PROTECT: return EROFS;
    case ERROR_DISK_FULL:
    case ERROR_HANDLE_DISK_FULL: return ENOSPC;
    case ERROR_TOO_MANY_OPEN_FILES: return EMFILE;
    case ERROR_NOT_ENOUGH_MEMORY:
    case ERROR_OUTOFMEMORY: return ENOMEM;
    case ERROR_DIRECTORY: return ENOTDIR;
    case ERROR_FILENAME_EXCED_RANGE: return ENAMETOOLONG;
    case ERROR_INVALID_HANDLE: return EBADF;
    case ERROR_BROKEN_PIPE:
    case ERROR_NO_DATA: return EPIPE;
    case ERROR_PRIVILEGE_NOT_HELD: return EPERM;
    default: return EIO;
    }
}

const char *windows_strerror(int error)
{
    switch (error) {
    case NAME_HAS_COLON: return "a file name cannot contain a colon on Windows";
    case NAME_IS_RESERVED: return "Windows reserves this name for a device";
    case NAME_END_IS_DROPPED: return "a file name cannot end with a dot or space on Windows";
    case FILE_IS_IN_USE: return "another program has this file open";
    case LINK_HAS_NO_TARGET: return "the target of this link does not exist";
    default: return strerror(error);
    }
}

/* Sets errno to the last error of Windows, and returns -1. */
static int fail_windows(void)
{
    errno = errno_of(GetLastError());
    return -1;
}

/* ---- Texts ---- */

wchar_t *to_wide(const char *text)
{
    int size = MultiByteToWideChar(CP_UTF8, MB_ERR_INVALID_CHARS, text, -1, NULL, 0);
    wchar_t *wide = size > 0 ? malloc((size_t) size * sizeof *wide) : NULL;

    if (wide == NULL) {
        errno = size > 0 ? ENOMEM : EILSEQ;
        return NULL;
    }
    MultiByteToWideChar(CP_UTF8, MB_ERR_INVALID_CHARS, text, -1, wide, size);
    return wide;
}

char *to_utf8(const wchar_t *text)
{
    int size = WideCharToMultiByte(CP_UTF8, WC_ERR_INVALID_CHARS, text, -1, NULL, 0, NULL, NULL);
    char *narrow = size > 0 ? malloc((size_t) size) : NULL;

    if (narrow == NULL) {
        errno = size > 0 ? ENOMEM : EILSEQ;
        return NULL;
    }
    WideCharToMultiByte(CP_UTF8, WC_ERR_INVALID_CHARS, text, -1, narrow, size, NULL, NULL);
    return narrow;
}

char *windows_getenv(const char *name)
{
    wchar_t *wide_name = to_wide(name);
    const wchar_t *value = wide_name == NULL ? NULL : _wgetenv(wide_name);

    free(wide_name);
    return value == NULL ? NULL : to_utf8(value);
}

int windows_fprintf(FILE *to, const char *format, ...)
{
    va_list arguments;
    char *text;
    int len;

    va_start(arguments, format);
    len = vsnprintf(NULL, 0, format, arguments);
    va_end(arguments);
    text = len < 0 ? NULL : malloc((size_t) len + 1);
    if (text == NULL) {
        return -1;
    }
    va_start(arguments, format);
    vsnprintf(text, (size_t) len + 1, format, arguments);
    va_end(arguments);
    len = fwrite(text, 1, (size_t) len, to) == (size_t) len ? len : -1;
    free(text);
    return len;
}

/* ---- Names ---- */

static bool is_separator(wchar_t character)
{
    return character == L'\\' || character == L'/';
}

/* Returns true if a name, or the part before its first dot, is the name of a device of Windows. Windows ignores spaces
 * between the device's name and the dot: `NUL .txt` is the device NUL. */
static bool is_device(const wchar_t *name, size_t len)
{
    static const wchar_t *const devices[] = { L"CON", L"PRN", L"AUX", L"NUL", L"CLOCK$", L"CONIN$", L"CONOUT$" };
    static const wchar_t *const numbered[] = { L"COM", L"LPT" };
    size_t base = 0;

    while (base < len && name[base] != L'.') {
        base++;
    }
    while (base > 0 && name[base - 1] == L' ') {
        base--;
    }
    for (size_t i = 0; i < sizeof devices / sizeof devices[0]; i++) {
        if (wcslen(devices[i]) == base && _wcsnicmp(name, devices[i], base) == 0) {
            return true;
        }
    }
    /* Windows treats the superscript digits 1 to 3 like digits. */
    return base == 4 && (_wcsnicmp(name, numbered[0], 3) == 0 || _wcsnicmp(name, numbered[1], 3) == 0)
           && wcschr(L"0123456789\u00b9\u00b2\u00b3", name[3]) != NULL;
}

/* Checks one component of a path. If it is not allowed, returns false and sets errno. */
static bool is_allowed_name(const wchar_t *name, size_t len)
{
    bool is_dots = (len == 1 && name[0] == L'.') || (len == 2 && name[0] == L'.' && name[1] == L'.');

    if (len == 0 || is_dots) {
        return true;
    }
    errno = wmemchr(name, L':', len) != NULL                 ? NAME_HAS_COLON
            : name[len - 1] == L'.' || name[len - 1] == L' ' ? NAME_END_IS_DROPPED
            : is_device(name, len)                           ? NAME_IS_RESERVED
                                                             : 0;
    return errno == 0;
}

/* Skips what is not a name at the start of a path: \\?\ or \\.\, which UNC\ may follow, and a drive with its colon. */
static const wchar_t *skip_prefix(const wchar_t *path)
{
    if (is_separator(path[0]) && is_separator(path[1]) && (path[2] == L'?' || path[2] == L'.')
        && is_separator(path[3])) {
        path += 4;
        if (_wcsnicmp(path, L"UNC", 3) == 0 && is_separator(path[3])) {
            path += 4;
        }
    }
    if (((path[0] | 0x20) >= L'a' && (path[0] | 0x20) <= L'z') && path[1] == L':') {
        path += 2;
    }
    return path;
}

static bool has_allowed_names(const wchar_t *path)
{
    size_t len;

    for (path = skip_prefix(path); *path != 0; path += len + (path[len] != 0)) {
        len = wcscspn(path, L"\\/");
        if (!is_allowed_name(path, len)) {
            return false;
        }
    }
    return true;
}

/* Returns the full path, with the prefix that allows more than 260 characters. */
static wchar_t *full_path(const wchar_t *path)
{
    const wchar_t *prefix = L"\\\\?\\";
    DWORD size = GetFullPathNameW(path, 0, NULL, NULL);
    wchar_t *full = size == 0 ? NULL : malloc(size * sizeof *full), *result = NULL;
    const wchar_t *rest = full;

    if (full != NULL && GetFullPathNameW(path, size, full, NULL) < size) {
        if (wcsncmp(full, L"\\\\?\\", 4) == 0 || wcsncmp(full, L"\\\\.\\", 4) == 0) {
            prefix = L"";
        } else if (wcsncmp(full, L"\\\\", 2) == 0) {
            prefix = L"\\\\?\\UNC\\";
            rest += 2;
        }
        result = malloc((wcslen(prefix) + wcslen(rest) + 1) * sizeof *result);
    }
    if (result != NULL) {
        wcscpy(result, prefix);
        wcscat(result, rest);
    } else {
        errno = size == 0 ? errno_of(GetLastError()) : ENOMEM;
    }
    free(full);
    return result;
}

wchar_t *wide_path(const char *file)
{
    wchar_t *wide, *path = NULL;
    int saved_errno;

    if (*file == 0) {
        errno = ENOENT;
        return NULL;
    }
    wide = to_wide(file);
    if (wide == NULL) {
        return NULL;
    }
    if (_wcsicmp(wide, L"NUL") == 0) {
        /* The only device that is allowed. It is what /dev/null is on Linux. */
        path = wcsdup(L"\\\\.\\NUL");
    } else if (has_allowed_names(wide)) {
        path = full_path(wide);
    }
    saved_errno = errno;
    free(wide);
    errno = saved_errno;
    return path;
}

wchar_t *last_part_of(wchar_t *path)
{
    wchar_t *part = path;

    for (wchar_t *at = path; *at != 0; at++) {
        part = is_separator(*at) ? at + 1 : part;
    }
    return part;
}

/* ---- Files ---- */

/* Opens an existing file, always for reading. */
int windows_open(const char *file, int flags)
{
    wchar_t *path = wide_path(file);
    HANDLE handle;
    DWORD attributes;
    int fd = -1;

    if (path == NULL) {
        return -1;
    }
    handle = CreateFileW(path, GENERIC_READ, SHARE_ALL, NULL, OPEN_EXISTING, FILE_FLAG_SEQUENTIAL_SCAN, NULL);
    if (handle == INVALID_HANDLE_VALUE) {
        errno = errno_of(GetLastError());
        /* The file may be a directory: Windows denies access to directories without FILE_FLAG_BACKUP_SEMANTICS. */
        attributes = errno == EACCES ? GetFileAttributesW(path) : INVALID_FILE_ATTRIBUTES;
        if (attributes != INVALID_FILE_ATTRIBUTES && (attributes & FILE_ATTRIBUTE_DIRECTORY) != 0) {
            errno = EISDIR;
        }
    } else {
        fd = _open_osfhandle((intptr_t) handle, flags | _O_BINARY);
        if (fd < 0) {
            CloseHandle(handle);
        }
    }
    free(path);
    return fd;
}

HANDLE open_to_inspect(const wchar_t *path, DWORD access)
{
    return CreateFileW(path, access, SHARE_ALL, NULL, OPEN_EXISTING, FILE_FLAG_BACKUP_SEMANTICS, NULL);
}

static uint64_t ticks_of(FILETIME time)
{
    return (uint64_t) time.dwHighDateTime << 32 | time.dwLowDateTime;
}

bool status_of_handle(HANDLE handle, struct stat *status)
{
    DWORD type = GetFileType(handle);
    BY_HANDLE_FILE_INFORMATION information;

    *status = (struct stat) { .st_nlink = 1, .st_mode = type == FILE_TYPE_PIPE ? S_IFIFO : S_IFCHR };
    if (type != FILE_TYPE_DISK) {
        return true;
    }
    if (!GetFileInformationByHandle(handle, &information)) {
        errno = errno_of(GetLastError());
        return false;
    }
    status->st_mode = information.dwFileAttributes & FILE_ATTRIBUTE_DIRECTORY ? S_IFDIR : S_IFREG;
    status->st_dev = information.dwVolumeSerialNumber;
    status->st_ino = (uint64_t) information.nFileIndexHigh << 32 | information.nFileIndexLow;
    status->st_size = (uint64_t) information.nFileSizeHigh << 32 | information.nFileSizeLow;
    status->st_nlink = information.nNumberOfLinks;
    /* Unlike elsewhere, times are in units of 100 ns since 1601, and st_ctime is the time of creation. */
    status->st_mtime = ticks_of(information.ftLastWriteTime);
    status->st_ctime = ticks_of(information.ftCreationTime);
    status->st_uid = owner_of(handle);
    return true;
}

int windows_stat(const char *file, struct stat *status)
{
    wchar_t *path = wide_path(file);
    HANDLE handle;
    bool is_known = false;

    if (path == NULL) {
        return -1;
    }
    handle = open_to_inspect(path, READ_CONTROL | FILE_READ_ATTRIBUTES);
    if (handle == INVALID_HANDLE_VALUE) {
        errno = errno_of(GetLastError());
    } else {
        is_known = status_of_handle(handle, status);
        CloseHandle(handle);
    }
    free(path);
    return is_known ? 0 : -1;
}

int windows_fstat(int fd, struct stat *status)
{
    return status_of_handle((HANDLE) _get_osfhandle(fd), status) ? 0 : -1;
}

bool is_same_file(const struct stat *first, const struct stat *second)
{
    /* On a file system without file numbers, all numbers are 0. */
    return first->st_ino != 0 && first->st_dev == second->st_dev && first->st_ino == second->st_ino;
}

int windows_mkdir(const char *path, int mode)
{
    wchar_t *name = wide_path(path);
    struct own_access own;
    bool is_made = false;

    /* The mode is ignored: only this user gets access. */
    (void) mode;
    if (name != NULL && begin_own_access(&own, true)) {
        is_made = CreateDirectoryW(name, &own.attributes);
        errno = is_made ? 0 : errno_of(GetLastError());
        end_own_access(&own);
    }
    free(name);
    return is_made ? 0 : -1;
}

int64_t windows_lseek(int fd, int64_t offset, int from)
{
    /* Windows lets a program seek in a pipe, but this has no effect. */
    if (GetFileType((HANDLE) _get_osfhandle(fd)) != FILE_TYPE_DISK) {
        errno = ESPIPE;
        return -1;
    }
    return _lseeki64(fd, offset, from);
}

ssize_t windows_read(int fd, void *buffer, size_t size)
{
    DWORD len = 0, error;

    if (!ReadFile((HANDLE) _get_osfhandle(fd), buffer, size > MAX_TRANSFER ? MAX_TRANSFER : (DWORD) size, &len, NULL)) {
        error = GetLastError();
        return error == ERROR_BROKEN_PIPE || error == ERROR_HANDLE_EOF ? 0 : fail_windows();
    }
    return (ssize_t) len;
}

ssize_t windows_write(int fd, const void *bytes, size_t len)
{
    DWORD written = 0, count = len > MAX_TRANSFER ? MAX_TRANSFER : (DWORD) len;

    if (!WriteFile((HANDLE) _get_osfhandle(fd), bytes, count, &written, NULL)) {
        return fail_windows();
    }
    return (ssize_t) written;
}

int windows_isatty(int fd)
{
    DWORD modes;

    return GetConsoleMode((HANDLE) _get_osfhandle(fd), &modes) != 0;
}

/* ---- Directories ---- */

struct windows_directory {
    HANDLE search;
    /* The last entry that was found, and whether windows_readdir has returned it. */
    WIN32_FIND_DATAW found;
    bool is_read;
    struct windows_entry entry;
};

/* Does not use `wide_path`, because SetCurrentDirectoryW does not accept paths of that form. */
int windows_chdir(const char *path)
{
    wchar_t *wide = to_wide(path);
    bool is_changed = wide != NULL && SetCurrentDirectoryW(wide);

    if (wide != NULL && !is_changed) {
        errno = errno_of(GetLastError());
    }
    free(wide);
    return is_changed ? 0 : -1;
}

DIR *windows_opendir(const char *path)
{
    wchar_t *wide = wide_path(path), *pattern = wide == NULL ? NULL : malloc((wcslen(wide) + 3) * sizeof *pattern);
    DIR *directory = pattern == NULL ? NULL : malloc(sizeof *directory);

    if (directory != NULL) {
        wcscpy(pattern, wide);
        wcscat(pattern, L"\\*");
        directory->is_read = false;
        directory->search = FindFirstFileW(pattern, &directory->found);
        if (directory->search == INVALID_HANDLE_VALUE) {
            errno = errno_of(GetLastError());
            free(directory);
            directory = NULL;
        }
    } else if (wide != NULL) {
        errno = ENOMEM;
    }
    free(pattern);
    free(wide);
    return directory;
}

struct dirent *windows_readdir(DIR *directory)
{
    char *name;

    if (directory->is_read && !FindNextFileW(directory->search, &directory->found)) {
        errno = GetLastError() == ERROR_NO_MORE_FILES ? errno : errno_of(GetLastError());
        return NULL;
    }
    directory->is_read = true;
    name = to_utf8(directory->found.cFileName);
    if (name == NULL) {
        return NULL;
    }
    strcpy(directory->entry.d_name, name);
    free(name);
    return &directory->entry;
}

int windows_closedir(DIR *directory)
{
    FindClose(directory->search);
    free(directory);
    return 0;
}

long windows_sysconf(int name)
{
    SYSTEM_INFO information;

    /* The only name that is used is _SC_NPROCESSORS_ONLN. */
    (void) name;
    GetSystemInfo(&information);
    return (long) information.dwNumberOfProcessors;
}
