/* SPDX-License-Identifier: MIT */
/* Runs many small tasks in several threads, and reports their results in order. */
#ifndef CHECK_PARALLEL_H
#define CHECK_PARALLEL_H

#include "shared/system.h"

/* The size of the buffer of each thread. */
#define WORK_BYTES 131072

/*
 * Tasks, which have the indexes 0 to count - 1. `work` runs one task, in any thread, with the buffer of this thread.
 *
 * The other two functions may be NULL. They are called in the thread that has called `run_tasks`. `report` is called
 * once for each task, in the order of the indexes, as soon as this task and all tasks before it are done.
 * `while_waiting` is called several times a second while this thread waits for a task.
 */
struct tasks {
    size_t count;
    void *context;
    void (*work)(void *context, size_t index, uint8_t *buffer);
    void (*report)(void *context, size_t index);
    void (*while_waiting)(void *context);
};

/* Runs all tasks. Uses one thread per processor, or the calling thread if no thread can be created. Ends the program if
 * memory runs out. */
void run_tasks(const struct tasks *tasks);

#endif
