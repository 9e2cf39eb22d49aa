/* SPDX-License-Identifier: MIT */
/* Asks the user for passwords, on POSIX. */
#include "terminal.h"

#include <sys/select.h>
#include <termios.h>

#include "cleanup.h"
#include "files.h"

/* The signal that arrived during the prompt, or 0. */
static volatile sig_atomic_t caught_signal;

/* The state that is restored after the prompt: signal actions, the signal mask, and the terminal's settings. */
struct saved_state {
    struct sigaction actions[NSIG];
    sigset_t mask;
    struct termios modes;
    bool is_terminal;
};

static void record_signal(int signo)
{
    caught_signal = signo;
}

static bool is_stop_signal(int signo)
{
    return signo == SIGTSTP || signo == SIGTTIN || signo == SIGTTOU;
}

/* Returns true for the signals that end or stop a program. During the prompt they are caught, so that the echo can be
 * turned on before they take effect. */
static bool is_caught_at_prompt(int signo)
{
    return is_stop_signal(signo) || (ends_program(signo) && !is_crash(signo));
}

/* Blocks a signal, so that it is delivered only while `read_byte` waits, and catches it, unless it is ignored. */
static void catch_signal(struct saved_state *saved, int signo)
{
    struct sigaction action = { 0 };
    sigset_t blocked;

    action.sa_handler = record_signal;
    sigemptyset(&action.sa_mask);
    sigemptyset(&blocked);
    sigaddset(&blocked, signo);
    sigprocmask(SIG_BLOCK, &blocked, NULL);
    if (sigaction(signo, NULL, &saved->actions[signo]) == 0 && saved->actions[signo].sa_handler != SIG_IGN) {
        sigaction(signo, &action, NULL);
    }
}

/* Catches the signals, and turns off the terminal's echo. */
static void disable_echo(struct saved_state *saved)
{
    /* If this is a background process, SIGTTOU stops it here until it is in the foreground. */
    tcflush(STDIN_FILENO, TCIFLUSH);
    sigprocmask(SIG_BLOCK, NULL, &saved->mask);
    for (int signo = 1; signo < NSIG; signo++) {
        if (is_caught_at_prompt(signo) && signo != SIGTTOU) {
            catch_signal(saved, signo);
        }
    }
    saved->is_terminal = tcgetattr(STDIN_FILENO, &saved->modes) == 0;
    if (saved->is_terminal) {
        struct termios modes = saved->modes;

        modes.c_lflag &= ~(tcflag_t) ECHO;
        tcsetattr(STDIN_FILENO, TCSAFLUSH, &modes);
    }
    /* SIGTTOU is caught only now, so that it still stops a process that was moved to the background meanwhile. */
    catch_signal(saved, SIGTTOU);
}

static void restore_echo(const struct saved_state *saved)
{
    if (saved->is_terminal) {
        tcsetattr(STDIN_FILENO, TCSAFLUSH, &saved->modes);
    }
    for (int signo = 1; signo < NSIG; signo++) {
        if (is_caught_at_prompt(signo)) {
            sigaction(signo, &saved->actions[signo], NULL);
        }
    }
    sigprocmask(SIG_SETMASK, &saved->mask, NULL);
}

/* Reads one byte from standard input. Returns 1 on success, 0 at the end of the input, and -1 if a signal arrived or
 * reading failed. */
static ssize_t read_byte(const struct saved_state *saved, char *byte)
{
    fd_set ready;
    ssize_t count;

    do {
        FD_ZERO(&ready);
        FD_SET(STDIN_FILENO, &ready);
        count = caught_signal == 0 ? pselect(STDIN_FILENO + 1, &ready, NULL, NULL, NULL, &saved->mask) : -1;
        count = count < 0 ? -1 : read(STDIN_FILENO, byte, 1);
    } while (count < 0 && caught_signal == 0 && errno == EINTR);
    return count;
}

enum line { LINE_READ, LINE_TOO_LONG, NO_LINE };

/* Reads one line, and nothing after its line feed. The password ends at the first carriage return, line feed or zero
 * byte. */
static enum line read_password_line(const struct saved_state *saved, struct password *password)
{
    bool ended = false, has_input = false, fits = true;
    char byte;

    password->len = 0;
    while (read_byte(saved, &byte) > 0) {
        has_input = true;
        if (byte == '\n') {
            break;
        }
        ended = ended || byte == '\r' || byte == 0;
        fits = fits && (ended || password->len < sizeof password->bytes);
        if (!ended && fits) {
            password->bytes[password->len++] = (uint8_t) byte;
        }
    }
    return !has_input ? NO_LINE : fits ? LINE_READ : LINE_TOO_LONG;
}

void ask_password(struct password *password, const char *prompt)
{
    struct saved_state saved;
    enum line line;

    fflush(stdout);
    do {
        caught_signal = 0;
        disable_echo(&saved);
        /* Like Minisign, read no password if the prompt cannot be written. */
        line = fputs(prompt, stderr) < 0 ? NO_LINE : read_password_line(&saved, password);
        restore_echo(&saved);
        if (caught_signal != 0) {
            putc('\n', stderr);
            raise(caught_signal);
        }
    } while (is_stop_signal(caught_signal));
    if (caught_signal != 0 || line == NO_LINE) {
        fail_as_minisign("get_password()");
    }
    fputs(line == LINE_READ && password->len == 0 ? "(empty)\n" : "\n", stderr);
    if (line == LINE_TOO_LONG) {
        fail_with_hint(NULL, "the password is too long", "use at most 1023 bytes");
    }
}
