/* SPDX-License-Identifier: MIT */
/* Validates UTF-8, and escapes texts so that a terminal only displays them. */
#ifndef TEXT_H
#define TEXT_H

#include "system.h"

/* Buffer size for an escaped character. */
#define ESCAPED_BYTES 12

/*
 * Copies the first character of a text to `escaped`, and escapes it if necessary. Control characters other than a tab,
 * and bidirectional formatting characters, become for example \u{1b}. A byte that is not UTF-8 becomes for example
 * \xff. Returns the number of bytes that were written, and sets *bytes to the number of bytes that were read.
 */
size_t escape_character(char escaped[ESCAPED_BYTES], const uint8_t *text, size_t len, size_t *bytes);

bool is_utf8(const uint8_t *text, size_t len);

/* Returns true if the last character is white space as Unicode defines it. The text must be UTF-8. */
bool ends_with_space(const uint8_t *text, size_t len);

/* Writes a text to a stream, and escapes each character as `escape_character` does. */
void write_escaped(FILE *to, const uint8_t *text, size_t len);

/* Buffer size for an escaped file name. A path that the system can open has fewer than 4096 bytes, and escaping makes
 * each byte at most six times as long. */
#define MAX_ESCAPED_NAME (6 * 4096)

struct escaped_name {
    char text[MAX_ESCAPED_NAME + ESCAPED_BYTES];
};

/* Escapes a file name for a message. Tabs are escaped too, as \u{9}. If the name is too long for the buffer, its end is
 * replaced by "..". The result need not be freed: escape_name(name).text is valid until the end of the statement. */
struct escaped_name escape_name(const char *name);

#endif
