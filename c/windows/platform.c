/* SPDX-License-Identifier: MIT */
/* Implements shared/platform.h for Windows. */
#include "shared/platform.h"

#include "native.h"

#include <shellapi.h>

#include "shared/progress.h"
#include "shared/streams.h"

/* ---- Standard streams ---- */

static bool was_closed[STDERR_FILENO + 1];

/* The placeholder is NUL, opened only for the direction in which the stream is not used, so that every use fails. */
bool reserve_standard_streams(void)
{
    for (int fd = STDIN_FILENO; fd <= STDERR_FILENO; fd++) {
        intptr_t handle = _get_osfhandle(fd);

        /* -2: Windows has given the stream no handle. */
        if (handle == -1 || handle == -2 || GetFileType((HANDLE) handle) == FILE_TYPE_UNKNOWN) {
            int placeholder;

            was_closed[fd] = true;
            _close(fd);
            placeholder = _open("NUL", (fd == STDIN_FILENO ? _O_WRONLY : _O_RDONLY) | _O_BINARY);
            if (placeholder < 0 || (placeholder != fd && _dup2(placeholder, fd) != 0)) {
                return false;
            }
        }
    }
    return true;
}

bool was_closed_at_start(int fd)
{
    return fd >= STDIN_FILENO && fd <= STDERR_FILENO && was_closed[fd];
}

/* ---- The console ---- */

static UINT old_code_page;

static void restore_code_page(void)
{
    SetConsoleOutputCP(old_code_page);
}

/* Makes the console display UTF-8 until the program ends. Hides the progress if the console does not support the escape
 * sequences that it needs. */
static void prepare_console(void)
{
    HANDLE errors = (HANDLE) _get_osfhandle(STDERR_FILENO);
    DWORD modes;

    if (isatty(STDOUT_FILENO) || isatty(STDERR_FILENO)) {
        old_code_page = GetConsoleOutputCP();
        if (old_code_page != CP_UTF8 && SetConsoleOutputCP(CP_UTF8)) {
            atexit(restore_code_page);
        }
    }
    if (GetConsoleMode(errors, &modes) && !SetConsoleMode(errors, modes | ENABLE_VIRTUAL_TERMINAL_PROCESSING)) {
        hide_progress();
    }
}

bool arguments_to_utf8(int *argc, char ***argv)
{
    int count = 0;
    wchar_t **wide_arguments = CommandLineToArgvW(GetCommandLineW(), &count);
    char **arguments = wide_arguments == NULL ? NULL : calloc((size_t) count + 1, sizeof *arguments);

    for (int fd = STDIN_FILENO; fd <= STDERR_FILENO; fd++) {
        _setmode(fd, _O_BINARY);
    }
    /* A buffer keeps the bytes of each character together. Every command flushes its output. */
    setvbuf(stdout, NULL, _IOFBF, BUFSIZ);
    prepare_console();
    if (arguments == NULL) {
        return false;
    }
    for (int i = 0; i < count; i++) {
        arguments[i] = to_utf8(wide_arguments[i]);
        if (arguments[i] == NULL) {
            return false;
        }
    }
    LocalFree(wide_arguments);
    *argc = count;
    *argv = arguments;
    return true;
}

/* ---- Secrets and paths ---- */

/* In this mode, Windows Error Reporting stores no dump of the process. */
void forbid_core_dumps(void)
{
    SetErrorMode(SEM_FAILCRITICALERRORS | SEM_NOGPFAULTERRORBOX | SEM_NOOPENFILEERRORBOX);
}

const char *home_directory(void)
{
    return getenv("USERPROFILE");
}

char *last_separator(const char *path)
{
    char *slash = strrchr(path, '/'), *backslash = strrchr(path, '\\');

    return slash == NULL || (backslash != NULL && backslash > slash) ? backslash : slash;
}
