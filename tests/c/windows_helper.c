/* SPDX-License-Identifier: MIT */
/*
 * Does things under wine that windows.py, a Python program on Linux, cannot do itself:
 *
 *     windows_helper hold FILE MILLISECONDS    keeps a file open, so that it cannot be replaced; prints `held` when it is open
 *     windows_helper lock FILE MILLISECONDS    does the same, but the file cannot be opened for writing either
 *     windows_helper lone PROGRAM              runs a program with the option -m and an argument that is not Unicode
 *     windows_helper version PROGRAM           prints the version resource of a program
 */
#include <stdio.h>
#include <stdlib.h>
#include <string.h>

#include <windows.h>

static int hold(const char *file, DWORD sharing, const char *milliseconds)
{
    HANDLE handle = CreateFileA(file, GENERIC_READ, sharing, NULL, OPEN_EXISTING, 0, NULL);

    if (handle == INVALID_HANDLE_VALUE) {
        return 1;
    }
    puts("held");
    fflush(stdout);
    Sleep((DWORD) atoi(milliseconds));
    return 0;
}

static int run_with_lone_surrogate(const char *program)
{
    wchar_t line[1024];
    STARTUPINFOW start = { .cb = sizeof start };
    PROCESS_INFORMATION process;
    DWORD status = 99;

    swprintf(line, 1024, L"\"%hs\" -V -m \xd800 -p a.pub", program);
    if (CreateProcessW(NULL, line, NULL, NULL, TRUE, 0, NULL, NULL, &start, &process)) {
        WaitForSingleObject(process.hProcess, INFINITE);
        GetExitCodeProcess(process.hProcess, &status);
    }
    return (int) status;
}

static int print_version(const char *program)
{
    static char information[65536];
    VS_FIXEDFILEINFO *fixed;
    char *text;
    UINT len;

    if (!GetFileVersionInfoA(program, 0, sizeof information, information)
        || !VerQueryValueA(information, "\\", (void **) &fixed, &len)
        || !VerQueryValueA(information, "\\StringFileInfo\\040904B0\\ProductVersion", (void **) &text, &len)) {
        return 1;
    }
    printf("%u.%u.%u %s", (unsigned) HIWORD(fixed->dwFileVersionMS), (unsigned) LOWORD(fixed->dwFileVersionMS),
           (unsigned) HIWORD(fixed->dwFileVersionLS), text);
    if (VerQueryValueA(information, "\\StringFileInfo\\040904B0\\OriginalFilename", (void **) &text, &len)) {
        printf(" %s", text);
    }
    return 0;
}

int main(int argc, char *argv[])
{
    if (argc == 4) {
        return hold(argv[2], strcmp(argv[1], "hold") == 0 ? FILE_SHARE_READ | FILE_SHARE_WRITE : FILE_SHARE_READ, argv[3]);
    }
    if (argc == 3 && strcmp(argv[1], "lone") == 0) {
        return run_with_lone_surrogate(argv[2]);
    }
    return argc == 3 && strcmp(argv[1], "version") == 0 ? print_version(argv[2]) : 2;
}
