/*
 * The common part of minisign_checksums.c, minisign_install_checksums.c and minisign_list_checksums.c. Each program makes
 * random calls to all functions of one header, and prints checksums of all bytes that they return. With the same seed, two
 * builds of the library must have the same output, even on processors with different byte orders or sizes of pointers.
 *
 *     PROGRAM SEED CALLS
 *
 * The first lines are the checksum after each 1000 calls. The other lines say how often each function returned each result:
 * `FUNCTION RESULT COUNT`. The result of functions that return no error number is 0.
 *
 * The output must not depend on the order in which a compiler evaluates arguments and operands. Therefore random numbers are
 * first stored in variables: no argument contains a call that generates a random number, and no expression has two such
 * calls as operands.
 */
#ifndef CALL_CHECKSUMS_H
#define CALL_CHECKSUMS_H

#include <stdlib.h>

#include "texts_for_tests.h"

/* The number of objects of each type on which the calls work, and the size of a buffer. */
enum { OBJECT_COUNT = 4, BUFFER_BYTES = 4096 };
enum { MAX_FUNCTIONS = 64, MAX_RESULTS = 256, STEP = 1000 };

/* ---- Random numbers ---- */

static uint64_t seed;

static uint64_t random_number(void)
{
    uint64_t mixed = seed += UINT64_C(0x9e3779b97f4a7c15);

    mixed = (mixed ^ mixed >> 30) * UINT64_C(0xbf58476d1ce4e5b9);
    mixed = (mixed ^ mixed >> 27) * UINT64_C(0x94d049bb133111eb);
    return mixed ^ mixed >> 31;
}

static uint32_t random_below(uint32_t limit)
{
    return (uint32_t) ((random_number() >> 20) % limit);
}

/* Returns true once in `times` calls on average. */
static int one_in(uint32_t times)
{
    return random_below(times) == 0;
}

static int any_object(void)
{
    return (int) random_below(OBJECT_COUNT);
}

static void fill(uint8_t *bytes, size_t len)
{
    for (size_t i = 0; i < len; i++) {
        bytes[i] = (uint8_t) random_number();
    }
}

/* Returns a power of two or another edge case, a number next to an edge case, or any number. */
static uint64_t edge_number(void)
{
    static const uint64_t edges[] = { 0, 1, 5, 16, 256, 32768, 65536, 524288, 1048576, 16777216, 33554432, UINT64_C(1) << 30,
                                      UINT64_C(1) << 31, UINT64_C(1) << 32, UINT64_C(1) << 40, UINT64_C(1) << 63 };
    uint64_t edge = edges[random_below(LENGTH(edges))], near_edge = edge + random_below(3) - 1;
    uint64_t number = random_number();

    return one_in(4) ? number >> random_below(64) : near_edge;
}

/* Returns a result of Ed25519: mostly yes, and sometimes a number that is not a valid result. */
static enum minisign_answer any_answer(void)
{
    uint32_t number = one_in(2) ? random_below(9) : (uint32_t) edge_number();

    return !one_in(5) ? MINISIGN_ANSWER_YES : !one_in(3) ? MINISIGN_ANSWER_NO : (enum minisign_answer) number;
}

/* ---- Results ---- */

static uint64_t checksum = UINT64_C(14695981039346656037);

/* Adds a number to the checksum, like FNV-1a, but eight bytes at a time. Each step is invertible, so a single difference
 * always changes the checksum. */
static void add_number(uint64_t number)
{
    checksum = (checksum ^ number) * UINT64_C(1099511628211);
    checksum ^= checksum >> 32;
}

static void add_bytes(const void *bytes, size_t len)
{
    const uint8_t *at = bytes;

    for (; len >= 8; len -= 8, at += 8) {
        add_number((uint64_t) at[0] | (uint64_t) at[1] << 8 | (uint64_t) at[2] << 16 | (uint64_t) at[3] << 24
                   | (uint64_t) at[4] << 32 | (uint64_t) at[5] << 40 | (uint64_t) at[6] << 48 | (uint64_t) at[7] << 56);
    }
    for (; len > 0; len--) {
        add_number(*at++);
    }
}

static inline void add_questions(const minisign_questions *questions)
{
    add_bytes(questions->public_key, sizeof questions->public_key);
    add_bytes(questions->digest, sizeof questions->digest);
    add_bytes(questions->signature, sizeof questions->signature);
    add_bytes(questions->comment_signature, sizeof questions->comment_signature);
    add_number(questions->message_len);
    add_number(questions->comment_offset);
    add_number(questions->comment_len);
    add_number(questions->legacy);
    add_number(questions->reserved);
}

/* The result of the last call of a function. */
static uint32_t last_result;

/* The functions that were called, and how often each returned each result. */
static struct function {
    const char *name;
    unsigned counts[MAX_RESULTS];
} functions[MAX_FUNCTIONS];

/* Adds the result of a function to the checksum, and returns it. */
static uint32_t add_result(const char *name, uint32_t result)
{
    struct function *function = functions;

    while (function->name != NULL && strcmp(function->name, name) != 0) {
        if (++function == functions + MAX_FUNCTIONS) {
            puts("MAX_FUNCTIONS is too small");
            exit(2);
        }
    }
    function->name = name;
    function->counts[result < MAX_RESULTS ? result : MAX_RESULTS - 1]++;
    add_number(result);
    return last_result = result;
}

/* Calls a function that returns an error number, or another small number. */
#define CALL(function, ...) add_result(#function, (uint32_t) function(__VA_ARGS__))
/* Records the call of a function that returns nothing, or a result that is added to the checksum separately. */
#define RECORD_CALL(function) add_result(#function, 0)

/* ---- Texts ---- */

struct text {
    uint8_t bytes[BUFFER_BYTES];
    size_t len;
};

static void set_text(struct text *text, const void *bytes, size_t len)
{
    if (len <= BUFFER_BYTES) {
        memcpy(text->bytes, bytes, len);
        text->len = len;
    }
}

static void append(struct text *text, const void *bytes, size_t len)
{
    if (text->len + len <= BUFFER_BYTES) {
        memcpy(text->bytes + text->len, bytes, len);
        text->len += len;
    }
}

static void append_string(struct text *text, const char *string)
{
    append(text, string, strlen(string));
}

static void append_decimal(struct text *text, uint64_t number)
{
    char digits[20];
    size_t at = sizeof digits;

    do {
        digits[--at] = (char) ('0' + number % 10);
        number /= 10;
    } while (number > 0);
    append(text, digits + at, sizeof digits - at);
}

/* Removes `len` bytes at the offset `at`. */
static void remove_bytes(struct text *text, size_t at, size_t len)
{
    memmove(text->bytes + at, text->bytes + at + len, text->len - at - len);
    text->len -= len;
}

/* Damages one line: replaces one of its first characters by another base64 character, removes its last characters, or
 * removes the line. */
static void damage_line(struct text *text)
{
    static const char base64[] = "ABCDEFGHIJKLMNOPQRSTUVWXYZabcdefghijklmnopqrstuvwxyz0123456789+/";
    uint32_t line = random_below(4), change = random_below(4), removed = 4 * (1 + random_below(4));
    size_t begin = 0, end, at = random_below(4);
    char replacement = base64[random_below(64)];

    while (line > 0 && begin < text->len) {
        line -= text->bytes[begin++] == '\n';
    }
    for (end = begin; end < text->len && text->bytes[end] != '\n'; end++) {
    }
    if (change == 0) {
        remove_bytes(text, begin, end - begin + (end < text->len));
    } else if (change == 1 && removed <= end - begin) {
        remove_bytes(text, end - removed, removed);
    } else if (change == 2) {
        text->len = begin;
    } else if (begin + at < end) {
        text->bytes[begin + at] = (uint8_t) replacement;
    }
}

/* Replaces the last `count` characters of the last line by base64 padding. */
static void pad_last_line(struct text *text, size_t count)
{
    size_t end = text->len - (text->bytes[text->len - 1] == '\n');

    for (size_t i = 0; i < count && i < end; i++) {
        text->bytes[end - 1 - i] = i < 2 ? '=' : 'A';
    }
}

/* Returns one of the texts: mostly unchanged, and sometimes with CR LF, or with a damaged, missing or additional byte. */
static struct text any_text(const struct text texts[OBJECT_COUNT])
{
    struct text text = texts[random_below(OBJECT_COUNT)];
    size_t at = random_below((uint32_t) text.len + 1), end = 0;

    if (one_in(8)) {
        struct text copy = text;

        for (size_t i = 0; i < copy.len && end + 2 < BUFFER_BYTES; i++) {
            if (copy.bytes[i] == '\n') {
                text.bytes[end++] = '\r';
            }
            text.bytes[end++] = copy.bytes[i];
        }
        text.len = end;
    }
    if (!one_in(3) || at >= text.len || text.len + 1 >= BUFFER_BYTES) {
        return text;
    }
    switch (random_below(12)) {
    case 0: text.bytes[at] ^= (uint8_t) (1 << random_below(8)); break;
    case 1: text.bytes[at] = (uint8_t) random_number(); break;
    case 2: text.len = at; break;
    case 3: memmove(text.bytes + at, text.bytes + at + 1, --text.len - at); break;
    case 4:
        memmove(text.bytes + at + 1, text.bytes + at, text.len++ - at);
        text.bytes[at] = one_in(3) ? '\n' : (uint8_t) random_number();
        break;
    case 5: text.bytes[text.len++] = (uint8_t) random_number(); break;
    case 6: pad_last_line(&text, 1 + random_below(4)); break;
    default: damage_line(&text); break;
    }
    return text;
}

/* Returns the pointer that is passed for a text, which may be NULL if the length is 0. */
static const uint8_t *bytes_or_null(const struct text *text)
{
    return text->len == 0 ? NULL : text->bytes;
}

/* Returns a comment. Most comments are allowed in a signature file. */
static struct text any_comment(void)
{
    static const char *const parts[] = { "timestamp:", "version:", "file:", "expires:", "size:", "\t", "\t", "12", "7", "0", "5",
                                         "18446744073709551615", "18446744073709551616", "app", "hashed", "abc", " ", "Expires:",
                                         "\xc3\xa9", "\xf0\x9f\x94\x92", "\xe2\x80\x83", "x" };
    static const char *const rare[] = { "\n", "\r", "\0", "\xff", "\xed\xa0\x80", "\xc0\x80" };
    struct text comment = { .len = 0 };
    int count = (int) random_below(9);

    if (one_in(4)) {
        set_text(&comment, "version:7\tfile:app", 18);
    }
    while (count-- > 0) {
        const char *part = parts[random_below(LENGTH(parts))];
        uint64_t number = edge_number();

        append_string(&comment, part);
        if (one_in(8)) {
            append_decimal(&comment, number);
        }
    }
    if (one_in(12)) {
        const char *part = rare[random_below(LENGTH(rare))];

        append(&comment, part, *part == 0 ? 1 : strlen(part));
    }
    if (one_in(60)) {
        size_t added = 900 + random_below(200);

        memset(comment.bytes + comment.len, 'y', added);
        comment.len += added;
    }
    return comment;
}

/* ---- Running ---- */

/* The main function of a program: calls `begin` once, calls `make_calls` until enough calls were made, and prints the
 * checksums and results. */
static int run(int argc, char **argv, void (*begin)(void), void (*make_calls)(void))
{
    unsigned long calls = argc == 3 ? strtoul(argv[2], NULL, 10) : 0;

    if (calls == 0) {
        puts("usage: PROGRAM SEED CALLS");
        return 2;
    }
    seed = strtoul(argv[1], NULL, 10);
    begin();
    for (unsigned long i = 1; i <= calls; i++) {
        make_calls();
        if (i % STEP == 0) {
            printf("%08lx%08lx\n", (unsigned long) (checksum >> 32), (unsigned long) (checksum & 0xffffffff));
        }
    }
    for (struct function *function = functions; function < functions + MAX_FUNCTIONS && function->name != NULL; function++) {
        for (int result = 0; result < MAX_RESULTS; result++) {
            if (function->counts[result] != 0) {
                printf("%s %d %u\n", function->name, result, function->counts[result]);
            }
        }
    }
    return 0;
}

#endif
