/* SPDX-License-Identifier: MIT */
/* Runs many small tasks in several threads, and reports their results in order. */
#include "parallel.h"

#include <pthread.h>

#include "outcomes.h"

#define MAX_THREADS 32

/* The interval at which `while_waiting` is called, in nanoseconds. */
#define WAIT_INTERVAL_NS 200000000

/* The state of a call of `run_tasks`. */
struct task_run {
    const struct tasks *tasks;
    pthread_mutex_t lock;
    pthread_cond_t task_done;
    /* The index of the next task to start, and for each task whether it is done. Both are protected by `lock`. */
    size_t next;
    bool *is_done;
};

struct thread {
    struct task_run *run;
    uint8_t *buffer;
    pthread_t id;
};

static size_t processor_count(void)
{
#ifdef _SC_NPROCESSORS_ONLN
    long count = sysconf(_SC_NPROCESSORS_ONLN);
#else
    long count = 1;
#endif
    return count < 1 ? 1 : count > MAX_THREADS ? MAX_THREADS : (size_t) count;
}

/* Runs the next task that no thread has started. Returns false if there is none. */
static bool run_next(struct task_run *run, uint8_t *buffer)
{
    const struct tasks *tasks = run->tasks;
    size_t index;

    pthread_mutex_lock(&run->lock);
    index = run->next;
    run->next += index < tasks->count ? 1 : 0;
    pthread_mutex_unlock(&run->lock);
    if (index == tasks->count) {
        return false;
    }
    tasks->work(tasks->context, index, buffer);
    pthread_mutex_lock(&run->lock);
    run->is_done[index] = true;
    pthread_cond_signal(&run->task_done);
    pthread_mutex_unlock(&run->lock);
    return true;
}

static void *run_thread(void *argument)
{
    struct thread *thread = argument;

    while (run_next(thread->run, thread->buffer)) {
    }
    return NULL;
}

/* Starts up to `count` threads, and returns the number of threads that were started. */
static size_t start_threads(struct thread *threads, size_t count)
{
    size_t started = 0;

    while (started < count && pthread_create(&threads[started].id, NULL, run_thread, &threads[started]) == 0) {
        started++;
    }
    return started;
}

/* Waits until a task is done. If somebody sets the clock, only the current interval becomes longer or shorter. */
static void wait_for_task(struct task_run *run, size_t index)
{
    struct timespec until;

    pthread_mutex_lock(&run->lock);
    while (!run->is_done[index]) {
        clock_gettime(CLOCK_REALTIME, &until);
        until.tv_nsec += WAIT_INTERVAL_NS;
        until.tv_sec += until.tv_nsec / 1000000000;
        until.tv_nsec %= 1000000000;
        pthread_cond_timedwait(&run->task_done, &run->lock, &until);
        if (run->tasks->while_waiting != NULL) {
            pthread_mutex_unlock(&run->lock);
            run->tasks->while_waiting(run->tasks->context);
            pthread_mutex_lock(&run->lock);
        }
    }
    pthread_mutex_unlock(&run->lock);
}

void run_tasks(const struct tasks *tasks)
{
    size_t thread_count = processor_count() < tasks->count ? processor_count() : tasks->count, started;
    struct task_run run = { .tasks = tasks, .is_done = allocate(tasks->count, sizeof *run.is_done) };
    struct thread *threads = allocate(thread_count, sizeof *threads);
    uint8_t *buffers = allocate(thread_count, WORK_BYTES);

    pthread_mutex_init(&run.lock, NULL);
    pthread_cond_init(&run.task_done, NULL);
    for (size_t i = 0; i < thread_count; i++) {
        threads[i] = (struct thread) { .run = &run, .buffer = buffers + i * WORK_BYTES };
    }
    started = start_threads(threads, thread_count);
    for (size_t index = 0; index < tasks->count; index++) {
        if (started > 0) {
            wait_for_task(&run, index);
        } else {
            run_next(&run, buffers);
        }
        if (tasks->report != NULL) {
            tasks->report(tasks->context, index);
        }
    }
    for (size_t i = 0; i < started; i++) {
        pthread_join(threads[i].id, NULL);
    }
    pthread_cond_destroy(&run.task_done);
    pthread_mutex_destroy(&run.lock);
    free(run.is_done);
    free(threads);
    free(buffers);
}
