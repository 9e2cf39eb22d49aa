/* SPDX-License-Identifier: MIT */
/* Validates UTF-8, and escapes texts so that a terminal only displays them. */
#include "text.h"

/* Returns the length of the UTF-8 sequence that begins with this byte, or 0 if none does. */
static size_t sequence_length(uint8_t first)
{
    return first < 0x80 ? 1 : first < 0xc2 ? 0 : first < 0xe0 ? 2 : first < 0xf0 ? 3 : first < 0xf5 ? 4 : 0;
}

/* Decodes the first character of a text. `bytes` is set to its length, or to 0 if it is not UTF-8. */
static uint32_t character_at(const uint8_t *text, size_t len, size_t *bytes)
{
    static const uint32_t smallest[] = { 0, 0, 0x80, 0x800, 0x10000 };
    uint32_t character = text[0];
    size_t length = sequence_length(text[0]);

    *bytes = 0;
    if (length == 0 || length > len) {
        return 0;
    }
    if (length > 1) {
        character &= 0xffu >> (length + 1);
    }
    for (size_t i = 1; i < length; i++) {
        if ((text[i] & 0xc0) != 0x80) {
            return 0;
        }
        character = character << 6 | (text[i] & 0x3f);
    }
    if (character >= smallest[length] && (character < 0xd800 || character > 0xdfff) && character <= 0x10ffff) {
        *bytes = length;
    }
    return character;
}

bool is_utf8(const uint8_t *text, size_t len)
{
    for (size_t at = 0, bytes; at < len; at += bytes) {
        character_at(text + at, len - at, &bytes);
        if (bytes == 0) {
            return false;
        }
    }
    return true;
}

bool ends_with_space(const uint8_t *text, size_t len)
{
    size_t at = len, bytes;
    uint32_t last;

    do {
        if (at == 0) {
            return false;
        }
        at--;
    } while ((text[at] & 0xc0) == 0x80);
    last = character_at(text + at, len - at, &bytes);
    return (last >= 0x9 && last <= 0xd) || last == 0x20 || last == 0x85 || last == 0xa0 || last == 0x1680
           || (last >= 0x2000 && last <= 0x200a) || last == 0x2028 || last == 0x2029 || last == 0x202f || last == 0x205f
           || last == 0x3000;
}

/* Returns true if a terminal may act on this character instead of displaying it: line and paragraph separators,
 * bidirectional formatting, the byte order mark, and control characters, except for a tab. */
static bool is_control(uint32_t character)
{
    return (character < 0x20 && character != '\t') || (character >= 0x7f && character < 0xa0) || character == 0x61c
           || character == 0x200e || character == 0x200f || (character >= 0x2028 && character <= 0x202e)
           || (character >= 0x2066 && character <= 0x2069) || character == 0xfeff;
}

size_t escape_character(char escaped[ESCAPED_BYTES], const uint8_t *text, size_t len, size_t *bytes)
{
    uint32_t character = character_at(text, len, bytes);

    if (*bytes == 0) {
        *bytes = 1;
        return (size_t) snprintf(escaped, ESCAPED_BYTES, "\\x%02x", text[0]);
    }
    if (is_control(character)) {
        return (size_t) snprintf(escaped, ESCAPED_BYTES, "\\u{%x}", (unsigned) character);
    }
    memcpy(escaped, text, *bytes);
    return *bytes;
}

void write_escaped(FILE *to, const uint8_t *text, size_t len)
{
    char escaped[ESCAPED_BYTES];

    for (size_t at = 0, bytes; at < len; at += bytes) {
        fwrite(escaped, 1, escape_character(escaped, text + at, len - at, &bytes), to);
    }
}

struct escaped_name escape_name(const char *name)
{
    const uint8_t *bytes = (const uint8_t *) name;
    struct escaped_name escaped;
    size_t len = strlen(name), written = 0;

    for (size_t at = 0, used = 1; at < len; at += used, used = 1) {
        if (written + ESCAPED_BYTES > MAX_ESCAPED_NAME) {
            written += (size_t) snprintf(escaped.text + written, ESCAPED_BYTES, "..");
            break;
        }
        written += name[at] == '\t' ? (size_t) snprintf(escaped.text + written, ESCAPED_BYTES, "\\u{9}")
                                    : escape_character(escaped.text + written, bytes + at, len - at, &used);
    }
    escaped.text[written] = 0;
    return escaped;
}
