/* SPDX-License-Identifier: MIT */
/* Opens and reads files, flushes standard output and joins strings. Ends the program on failure. */
#include "files.h"

#include "shared/reports.h"
#include "shared/streams.h"

int open_file(const char *file, const char *hint)
{
    int fd = open(file, O_RDONLY | O_CLOEXEC), saved_errno = errno;

    if (fd < 0) {
        print_errno(file);
        print_hint(saved_errno == ENOENT ? hint : NULL);
        exit(STATUS_ERROR);
    }
    return fd;
}

size_t read_or_exit(int fd, const char *file, uint8_t *buffer, size_t size)
{
    ssize_t len = read_whole(fd, buffer, size);

    check_errno(len >= 0, file);
    return (size_t) len;
}

uid_t read_text(uint8_t *bytes, size_t size, size_t *len, const char *file, enum text_kind expected)
{
    int fd = open_file(file, hint_for(expected));
    struct stat status;

    check_errno(fstat(fd, &status) == 0, file);
    *len = read_or_exit(fd, file, bytes, size);
    /* A file that fills the buffer may be longer. */
    errno = EFBIG;
    check_errno(*len < size, file);
    close(fd);
    return status.st_uid;
}

void flush_or_exit(FILE *to)
{
    check_errno(fflush(to) == 0 && !ferror(to), "standard output");
}

char *join(const char *front, const char *middle, const char *end)
{
    size_t size = strlen(front) + strlen(middle) + strlen(end) + 1;
    char *text = malloc(size);

    check_errno(text != NULL, front);
    snprintf(text, size, "%s%s%s", front, middle, end);
    return text;
}
