/* SPDX-License-Identifier: MIT */
/* Reads and writes whole buffers. */
#include "streams.h"

ssize_t read_whole(int fd, uint8_t *bytes, size_t size)
{
    size_t len = 0;
    ssize_t n = 1;

    while (n > 0 && len < size) {
        n = AGAIN(read(fd, bytes + len, size - len));
        len += n > 0 ? (size_t) n : 0;
    }
    return n < 0 ? -1 : (ssize_t) len;
}

bool write_whole(int fd, const uint8_t *bytes, size_t len)
{
    while (len > 0) {
        ssize_t n = AGAIN(write(fd, bytes, len));

        if (n <= 0) {
            errno = n < 0 ? errno : EIO;
            return false;
        }
        bytes += n;
        len -= (size_t) n;
    }
    return true;
}
