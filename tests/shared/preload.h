/* Macros for libraries that replace functions of the C library by LD_PRELOAD.

   REAL(name) is the function that was replaced.
   MODE_ARGUMENT(flags) is for replacements of open and openat. It is the argument `mode`, or 0 if a call with these flags
   cannot create a file, because the caller need not pass a mode then. */
#ifndef PRELOAD_H
#define PRELOAD_H

#define _GNU_SOURCE
#include <dlfcn.h>
#include <errno.h>
#include <fcntl.h>
#include <stdarg.h>
#include <stdio.h>
#include <stdlib.h>
#include <string.h>
#include <sys/stat.h>
#include <unistd.h>

#define REAL(name) ((__typeof__(name) *)dlsym(RTLD_NEXT, #name))

#define MODE_ARGUMENT(flags)                                                                                       \
    ({                                                                                                             \
        va_list arguments;                                                                                         \
        mode_t passed;                                                                                             \
                                                                                                                   \
        va_start(arguments, flags);                                                                                \
        passed = (flags) & O_CREAT || ((flags) & O_TMPFILE) == O_TMPFILE ? va_arg(arguments, mode_t) : 0;          \
        va_end(arguments);                                                                                         \
        passed;                                                                                                    \
    })

#endif
