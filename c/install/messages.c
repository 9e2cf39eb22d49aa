/* SPDX-License-Identifier: MIT */
/* Prints a system error. */
#include "messages.h"

#include "shared/text.h"

void print_system_error(const char *file, int error_number)
{
    fprintf(stderr, "error: %s: %s (os error %d)\n", escape_name(file).text, strerror(error_number), error_number);
}
