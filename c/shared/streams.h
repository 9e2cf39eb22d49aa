/* SPDX-License-Identifier: MIT */
/* Reserves the descriptors of closed standard streams, and reads and writes whole buffers. Calls that a signal
 * interrupts are retried. */
#ifndef STREAMS_H
#define STREAMS_H

#include "system.h"

/* Opens a placeholder, which can be neither read nor written, for each standard stream that is closed. Otherwise the
 * next file that is opened would get the descriptor of the stream, and messages would be written into that file. Must
 * be called before anything is opened. Returns false on failure. */
bool reserve_standard_streams(void);

/* Returns true if this is a standard stream that was closed when the program started. */
bool was_closed_at_start(int fd);

/* Reads until the buffer is full or the file ends. Returns the number of bytes, or -1 and sets errno. */
ssize_t read_whole(int fd, uint8_t *bytes, size_t size);

/* Writes all bytes. On failure, returns false and sets errno. */
bool write_whole(int fd, const uint8_t *bytes, size_t len);

#endif
