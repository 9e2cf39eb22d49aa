/* SPDX-License-Identifier: MIT */
/*
 * Runs cleanup functions when the program ends: by exit, by a crash, or because of a console event, such as Ctrl-C,
 * Ctrl-Break, closing the window or logging off. For a console event, Windows starts another thread, which runs the
 * handler.
 */
#include "minisign/cleanup.h"

#include "minisign/messages.h"
#include "native.h"

/* The exit status that Windows gives a program that Ctrl-C ends. */
#ifndef STATUS_CONTROL_C_EXIT
#define STATUS_CONTROL_C_EXIT 0xc000013a
#endif

/* One each of keys.c and terminal.c, which clear secrets, and of replacing.c, which removes temporary files. */
enum { MAX_CLEANERS = 3 };

static void (*volatile cleaners[MAX_CLEANERS])(void);
static CRITICAL_SECTION termination;

void block_termination(void)
{
    EnterCriticalSection(&termination);
}

void allow_termination(void)
{
    LeaveCriticalSection(&termination);
}

static void run_cleaners(void)
{
    for (int i = 0; i < MAX_CLEANERS; i++) {
        if (cleaners[i] != NULL) {
            cleaners[i]();
        }
    }
}

/* Handles a console event. Does not leave the critical section, so that the main thread can no longer put a file in
 * place. */
static BOOL WINAPI clean_and_end(DWORD event)
{
    (void) event;
    block_termination();
    run_cleaners();
    TerminateProcess(GetCurrentProcess(), STATUS_CONTROL_C_EXIT);
    return TRUE;
}

static LONG WINAPI clean_after_crash(EXCEPTION_POINTERS *crash)
{
    (void) crash;
    run_cleaners();
    return EXCEPTION_CONTINUE_SEARCH;
}

static void clean_at_exit(void)
{
    block_termination();
    run_cleaners();
}

void clean_at_end(void (*cleaner)(void))
{
    static int count;

    if (count == 0) {
        InitializeCriticalSection(&termination);
    }
    if (count == MAX_CLEANERS || (count == 0 && atexit(clean_at_exit) != 0)) {
        fail_with_hint(NULL, "the clean-up at exit could not be registered", NULL);
    }
    cleaners[count++] = cleaner;
    if (count == 1) {
        SetConsoleCtrlHandler(clean_and_end, TRUE);
        SetUnhandledExceptionFilter(clean_after_crash);
    }
}
