/* SPDX-License-Identifier: MIT */
/* Shows progress on standard error, if standard error is a terminal. */
#include "progress.h"

static bool is_hidden;

void hide_progress(void)
{
    is_hidden = true;
}

static bool has_viewer(void)
{
    return !is_hidden && isatty(STDERR_FILENO);
}

/* ---- Dots ---- */

/* A timer sends a real-time signal, because other code in the process may use SIGALRM. On a system without POSIX timers
 * or real-time signals, no dots are shown. */
#if defined _POSIX_TIMERS && _POSIX_TIMERS > 0 && defined SIGRTMIN

static timer_t timer;
static bool has_timer;
static struct sigaction old_action;

static void show_dot(int signo)
{
    ssize_t n = write(STDERR_FILENO, ".", 1);
    (void) n;
    (void) signo;
}

void begin_dots(void)
{
    static const struct itimerspec every_second = { { 1, 0 }, { 1, 0 } };
    struct sigevent event = { .sigev_notify = SIGEV_SIGNAL, .sigev_signo = SIGRTMIN };
    struct sigaction action = { 0 };

    if (!has_viewer()) {
        return;
    }
    action.sa_handler = show_dot;
    action.sa_flags = SA_RESTART;
    sigemptyset(&action.sa_mask);
    sigaction(SIGRTMIN, &action, &old_action);
    has_timer = timer_create(CLOCK_MONOTONIC, &event, &timer) == 0;
    if (has_timer) {
        timer_settime(timer, 0, &every_second, NULL);
    } else {
        sigaction(SIGRTMIN, &old_action, NULL);
    }
}

void end_dots(void)
{
    struct sigaction ignore = { 0 };

    if (has_timer) {
        has_timer = false;
        timer_delete(timer);
        /* Ignoring the signal discards a pending one. */
        ignore.sa_handler = SIG_IGN;
        sigaction(SIGRTMIN, &ignore, NULL);
        sigaction(SIGRTMIN, &old_action, NULL);
    }
}

#else

void begin_dots(void)
{
}

void end_dots(void)
{
}

#endif

/* ---- Amounts of data ---- */

#define MEBIBYTE (1 << 20)

static int64_t seconds_now(void)
{
    struct timespec time;
    clock_gettime(CLOCK_MONOTONIC, &time);
    return time.tv_sec;
}

struct progress begin_progress(const char *label, uint64_t size, bool keep_line)
{
    return (struct progress) {
        label, size, .keep_line = keep_line, .is_enabled = has_viewer(), .shown_at = seconds_now()
    };
}

void show_progress(struct progress *progress, uint64_t bytes)
{
    uint64_t previous = progress->done, done = previous + bytes;
    char total[32] = "";

    progress->done = done;
    if (!progress->is_enabled
        || (progress->keep_line ? done / MEBIBYTE == previous / MEBIBYTE : seconds_now() == progress->shown_at)) {
        return;
    }
    if (progress->size >= done) {
        snprintf(total, sizeof total, " of %" PRIu64, progress->size / MEBIBYTE);
    }
    fprintf(stderr, "\r%s %" PRIu64 "%s MiB", progress->label, done / MEBIBYTE, total);
    progress->is_visible = true;
    progress->shown_at = seconds_now();
}

void end_progress(struct progress *progress)
{
    if (progress->is_visible) {
        fputs(progress->keep_line ? "\n" : "\r\033[K", stderr);
        progress->is_visible = false;
    }
}
