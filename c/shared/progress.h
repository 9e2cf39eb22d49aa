/* SPDX-License-Identifier: MIT */
/* Shows progress on standard error, if standard error is a terminal. */
#ifndef PROGRESS_H
#define PROGRESS_H

#include "system.h"

/* Shows no progress from now on. */
void hide_progress(void);

/* Between these two calls, a dot is printed every second. */
void begin_dots(void);
void end_dots(void);

/* The progress of a task that has processed `done` of `size` bytes. `size` is 0 if it is unknown. */
struct progress {
    const char *label;
    uint64_t size;
    uint64_t done;
    /* If true, the line is updated after each MiB, and remains on the screen. If false, it is updated once per second,
     * but not in the first second, and is erased at the end. */
    bool keep_line;
    /* False if no progress is shown at all. */
    bool is_enabled;
    /* True if a line was printed. */
    bool is_visible;
    /* The time of the last update, or of the start, in seconds. */
    int64_t shown_at;
};

struct progress begin_progress(const char *label, uint64_t size, bool keep_line);

/* Adds `bytes` to the bytes that are done, and updates the line if it is time. */
void show_progress(struct progress *progress, uint64_t bytes);

/* Ends the line, or erases it unless it should remain. */
void end_progress(struct progress *progress);

#endif
