/* SPDX-License-Identifier: MIT */
/*
 * Opens and reads files, flushes standard output and joins strings. If a function fails, it prints a message on
 * standard error and ends the program with status STATUS_ERROR.
 */
#ifndef FILES_H
#define FILES_H

#include "shared/system.h"
#include "messages.h"
#include "minisign.h"

#define TEXT_BUFFER_BYTES 65536

/* The content of a key file or signature file, which must be shorter than TEXT_BUFFER_BYTES. */
struct text {
    uint8_t bytes[TEXT_BUFFER_BYTES];
    size_t len;
};

/* Opens a file for reading. If it does not exist, also prints the hint, unless it is NULL. */
int open_file(const char *file, const char *hint);

/* Reads until the buffer is full or the file ends, and returns the number of bytes. */
size_t read_or_exit(int fd, const char *file, uint8_t *buffer, size_t size);

/* Reads a key file or signature file, which must be shorter than `size`, and returns the user ID of its owner. If the
 * file does not exist, also prints the hint for the expected kind of file. */
uid_t read_text(uint8_t *bytes, size_t size, size_t *len, const char *file, enum text_kind expected);

/* Flushes standard output, or a stream with the same destination. Fails if any output to it could not be written. */
void flush_or_exit(FILE *to);

/* Returns the concatenation of these strings, allocated with malloc. */
char *join(const char *front, const char *middle, const char *end);

#endif
