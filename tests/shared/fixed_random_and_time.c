/* A library for LD_PRELOAD that makes the results of a program reproducible: getrandom() returns bytes that count up
   from 0, across calls, and time() always returns the same time. Two programs that request the same random bytes in the
   same order then write the same files. (Minisign and c/minisign
   take random bytes and timestamps from no other functions.) */
#include "preload.h"

#include <sys/types.h>
#include <time.h>

#define FIXED_TIME 1234567890

ssize_t getrandom(void *bytes, size_t length, unsigned flags)
{
    static unsigned char next;
    unsigned char *to = bytes;

    (void) flags;
    for (size_t at = 0; at < length; at++)
        to[at] = next++;
    return (ssize_t) length;
}

time_t time(time_t *result)
{
    if (result)
        *result = FIXED_TIME;
    return FIXED_TIME;
}
