/* SPDX-License-Identifier: MIT */
/* Records the outcomes of a run of minisign-check, and ends the program. */
#include "outcomes.h"

#include "shared/reports.h"

/* The outcomes, in order of precedence. */
static const enum outcome precedence[] = { LIST_REJECTED, OTHER_CONTENT, NOT_ONE_ENTRY, MISSING_FILE, UNLISTED_FILE,
                                           UNUSABLE_FILE };

/* True for each outcome that was recorded. */
static bool is_recorded[UNLISTED_FILE + 1];

void record_outcome(enum outcome outcome)
{
    is_recorded[outcome] = true;
}

enum outcome final_outcome(void)
{
    for (size_t i = 0; i < sizeof precedence / sizeof precedence[0]; i++) {
        if (is_recorded[precedence[i]]) {
            return precedence[i];
        }
    }
    return ALL_MATCH;
}

void exit_with_error(enum outcome outcome, const char *file, const char *message, const char *hint)
{
    print_error(file, message);
    print_hint(hint);
    exit(outcome);
}

void exit_with_errno(const char *file)
{
    exit_with_error(UNUSABLE_FILE, file, strerror(errno), NULL);
}

void *allocate(size_t count, size_t size)
{
    void *memory = count < SIZE_MAX / 2 / size ? malloc(count * size + 1) : NULL;

    if (memory == NULL) {
        exit_with_error(UNUSABLE_FILE, NULL, "out of memory", NULL);
    }
    return memset(memory, 0, count * size);
}
