/* SPDX-License-Identifier: MIT */
/*
 * Includes the headers of the C library and the system that several files of the programs use. Must be included first
 * in each file. A header that only one file needs is included in that file.
 */
#ifndef SYSTEM_H
#define SYSTEM_H

/* Makes the headers declare POSIX, and the common extensions of glibc, musl and the BSDs. A file that needs more than
 * that defines _GNU_SOURCE before it includes this file. */
#if !defined _GNU_SOURCE && !defined _DEFAULT_SOURCE
#define _DEFAULT_SOURCE
#endif

#include <errno.h>
#include <inttypes.h>
#include <stdbool.h>
#include <stddef.h>
#include <stdint.h>
#include <stdio.h>
#include <stdlib.h>
#include <string.h>
#include <time.h>

#ifdef _WIN32
#include "windows/posix.h"
#else
#include <fcntl.h>
#include <signal.h>
#include <sys/file.h>
#include <sys/stat.h>
#include <sys/types.h>
#include <unistd.h>
#endif

/* Retries a system call as long as a signal interrupts it, and returns its result. */
#define AGAIN(call)                              \
    __extension__({                              \
        __typeof__(call) result;                 \
        do {                                     \
            result = (call);                     \
        } while (result < 0 && errno == EINTR);  \
        result;                                  \
    })

#endif
