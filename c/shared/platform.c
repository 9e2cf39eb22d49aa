/* SPDX-License-Identifier: MIT */
/* Implements platform.h for POSIX. */
#include "platform.h"

#include <sys/resource.h>

#include "streams.h"

static bool was_closed[STDERR_FILENO + 1];

bool reserve_standard_streams(void)
{
    for (int fd = STDIN_FILENO; fd <= STDERR_FILENO; fd++) {
        if (fcntl(fd, F_GETFD) < 0) {
            was_closed[fd] = true;
            /* A directory can be neither read nor written. open returns the lowest free descriptor. */
            if (open("/", O_RDONLY) != fd) {
                return false;
            }
        }
    }
    return true;
}

bool was_closed_at_start(int fd)
{
    return fd >= STDIN_FILENO && fd <= STDERR_FILENO && was_closed[fd];
}

bool arguments_to_utf8(int *argc, char ***argv)
{
    (void) argc;
    (void) argv;
    return true;
}

void forbid_core_dumps(void)
{
    struct rlimit no_core = { 0, 0 };

    setrlimit(RLIMIT_CORE, &no_core);
}

const char *home_directory(void)
{
    return getenv("HOME");
}

char *last_separator(const char *path)
{
    return strrchr(path, '/');
}
