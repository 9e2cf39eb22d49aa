/* SPDX-License-Identifier: MIT */
/* Asks the user for passwords, on the Windows console. */
#include "minisign/terminal.h"

#include "minisign/cleanup.h"
#include "minisign/files.h"
#include "native.h"

/* Ctrl-Z at the start of a line ends the input. */
#define END_OF_INPUT 0x1a
/* After Ctrl-C, Windows runs the handler that ends the program in another thread. This is the time to wait for that, in
 * milliseconds. */
#define CTRL_C_WAIT_MS 5000

enum line { LINE_READ, LINE_TOO_LONG, LINE_NOT_UNICODE, NO_LINE };

static HANDLE console;
static DWORD old_modes;
static volatile LONG is_echo_disabled;

/* The typed line, with its CR and LF. It is cleared after each prompt. */
static wchar_t typed[PASSWORD_BYTES + 3];

/* Clears the typed line, and turns the echo on again if it is off. Also runs when the program ends. */
static void restore_echo(void)
{
    SecureZeroMemory(typed, sizeof typed);
    if (InterlockedExchange(&is_echo_disabled, 0)) {
        SetConsoleMode(console, old_modes);
    }
}

/* Discards pending input and turns the echo off. */
static void disable_echo(void)
{
    static bool is_registered;

    if (!is_registered) {
        is_registered = true;
        clean_at_end(restore_echo);
    }
    FlushConsoleInputBuffer(console);
    InterlockedExchange(&is_echo_disabled, 1);
    SetConsoleMode(console, (old_modes | ENABLE_LINE_INPUT | ENABLE_PROCESSED_INPUT) & ~(DWORD) ENABLE_ECHO_INPUT);
}

/* Converts the first `len` characters of the typed line, in UTF-16, to a password in UTF-8. */
static enum line convert_line(struct password *password, DWORD len)
{
    int converted;

    if (len == 0) {
        return LINE_READ;
    }
    converted = WideCharToMultiByte(CP_UTF8, WC_ERR_INVALID_CHARS, typed, (int) len, (char *) password->bytes,
                                    sizeof password->bytes, NULL, NULL);
    password->len = (size_t) converted;
    return converted > 0                                     ? LINE_READ
           : GetLastError() == ERROR_INSUFFICIENT_BUFFER ? LINE_TOO_LONG
                                                             : LINE_NOT_UNICODE;
}

/* Reads a line from the console. */
static enum line read_typed_line(struct password *password)
{
    DWORD len = 0;

    SetLastError(ERROR_SUCCESS);
    if (!ReadConsoleW(console, typed, PASSWORD_BYTES + 2, &len, NULL) || len == 0) {
        if (GetLastError() == ERROR_OPERATION_ABORTED) {
            Sleep(CTRL_C_WAIT_MS);
        }
        return NO_LINE;
    }
    if (typed[0] == END_OF_INPUT) {
        return NO_LINE;
    }
    if (typed[len - 1] != L'\n') {
        FlushConsoleInputBuffer(console);
        return LINE_TOO_LONG;
    }
    while (len > 0 && (typed[len - 1] == L'\n' || typed[len - 1] == L'\r')) {
        len--;
    }
    return convert_line(password, len);
}

/* Reads one line from a pipe or a file, and nothing after its line feed. The password ends at the first carriage
 * return, line feed or zero byte. */
static enum line read_piped_line(struct password *password)
{
    bool ended = false, has_input = false, fits = true;
    char byte;

    while (read(STDIN_FILENO, &byte, 1) > 0) {
        has_input = true;
        if (byte == '\n') {
            break;
        }
        ended = ended || byte == '\r' || byte == 0;
        fits = fits && (ended || password->len < sizeof password->bytes);
        if (!ended && fits) {
            password->bytes[password->len++] = (uint8_t) byte;
        }
    }
    return !has_input ? NO_LINE : fits ? LINE_READ : LINE_TOO_LONG;
}

void ask_password(struct password *password, const char *prompt)
{
    enum line line = NO_LINE;
    bool is_console;

    password->len = 0;
    console = (HANDLE) _get_osfhandle(STDIN_FILENO);
    is_console = GetConsoleMode(console, &old_modes) != 0;
    fflush(stdout);
    if (is_console) {
        disable_echo();
    }
    /* Like Minisign, read no password if the prompt cannot be written. */
    if (fputs(prompt, stderr) >= 0) {
        line = is_console ? read_typed_line(password) : read_piped_line(password);
    }
    restore_echo();
    if (line == NO_LINE) {
        fail_as_minisign("get_password()");
    }
    fputs(line == LINE_READ && password->len == 0 ? "(empty)\n" : "\n", stderr);
    if (line == LINE_TOO_LONG) {
        fail_with_hint(NULL, "the password is too long", "use at most 1023 bytes");
    }
    if (line == LINE_NOT_UNICODE) {
        fail_with_hint(NULL, "the password is not UTF-8", UTF8_HINT);
    }
}
