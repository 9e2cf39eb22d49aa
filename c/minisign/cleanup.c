/* SPDX-License-Identifier: MIT */
/* Runs cleanup functions when the program ends, even if a signal ends it. */
#include "cleanup.h"

#include "messages.h"

/* One of keys.c, which clears secrets, and one of replacing.c, which removes temporary files. */
enum { MAX_CLEANERS = 2 };

static void (*volatile cleaners[MAX_CLEANERS])(void);

static void run_cleaners(void)
{
    for (int i = 0; i < MAX_CLEANERS; i++) {
        if (cleaners[i] != NULL) {
            cleaners[i]();
        }
    }
}

/* Handles a signal. All signals are blocked while the handler runs, so the raised signal ends the program when the
 * handler returns. */
static void clean_and_end(int signo)
{
    run_cleaners();
    signal(signo, SIG_DFL);
    raise(signo);
}

/* The other signals stop or continue a program, are ignored by default, or cannot be handled. */
bool ends_program(int signo)
{
    return signo != SIGKILL && signo != SIGSTOP && signo != SIGTSTP && signo != SIGTTIN && signo != SIGTTOU
           && signo != SIGCONT && signo != SIGCHLD && signo != SIGURG && signo != SIGWINCH
#ifdef SIGINFO
           /* macOS and the BSDs ignore these by default; Ctrl-T sends SIGINFO. */
           && signo != SIGINFO && signo != SIGIO
#endif
        ;
}

bool is_crash(int signo)
{
    return signo == SIGILL || signo == SIGTRAP || signo == SIGABRT || signo == SIGBUS || signo == SIGFPE
           || signo == SIGSEGV || signo == SIGSYS;
}

/* Handles all signals that end a program, unless the program was started with the signal ignored. For signals that the
 * C library reserves for itself, sigaction fails. */
static void watch_signals(void)
{
    struct sigaction action = { 0 }, old_action;

    action.sa_handler = clean_and_end;
    sigfillset(&action.sa_mask);
    for (int signo = 1; signo < NSIG; signo++) {
        if (ends_program(signo) && sigaction(signo, NULL, &old_action) == 0 && old_action.sa_handler == SIG_DFL) {
            sigaction(signo, &action, NULL);
        }
    }
}

void clean_at_end(void (*cleaner)(void))
{
    static int count;

    if (count == MAX_CLEANERS || (count == 0 && atexit(run_cleaners) != 0)) {
        fail_with_hint(NULL, "the clean-up at exit could not be registered", NULL);
    }
    cleaners[count++] = cleaner;
    if (count == 1) {
        watch_signals();
    }
}
