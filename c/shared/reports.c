/* SPDX-License-Identifier: MIT */
/* Prints errors and hints. */
#include "reports.h"

#include "text.h"

void print_error(const char *file, const char *message)
{
    if (file == NULL) {
        fprintf(stderr, "error: %s\n", message);
    } else {
        fprintf(stderr, "error: %s: %s\n", escape_name(file).text, message);
    }
}

void print_hint(const char *hint)
{
    if (hint != NULL) {
        fprintf(stderr, "hint: %s\n", hint);
    }
}
