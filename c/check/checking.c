/* SPDX-License-Identifier: MIT */
/* Compares files with their entries in the list, and prints the results. */
#include "checking.h"

#include <pthread.h>

#include "outcomes.h"
#include "parallel.h"
#include "shared/error_words.h"
#include "shared/handles.h"
#include "shared/progress.h"
#include "shared/reports.h"
#include "shared/streams.h"
#include "shared/text.h"

/* The number of bytes that all threads have read so far, and the lock that protects it. */
static pthread_mutex_t bytes_lock;
static uint64_t bytes_read;

/* ---- The files ---- */

/* The context of `look_up_entry`: the list, and the files whose entries are looked up in it. */
struct lookup {
    const struct listing *listing;
    struct checked_file *checked;
};

/* Looks up the entry of a file that the command line names. A task for `run_tasks`. */
static void look_up_entry(void *context, size_t index, uint8_t *buffer)
{
    const struct lookup *lookup = context;
    struct checked_file *checked = &lookup->checked[index];
    uint64_t line;
    enum minisign_error error = find_entry(lookup->listing, checked->name, &checked->entry, &line);

    (void) buffer;
    checked->error = error;
    if (error == MINISIGN_OK) {
        checked->line = checked->entry.line;
    } else {
        checked->line = error == MINISIGN_LISTED_TWICE ? line : UINT64_MAX;
    }
    if (error == MINISIGN_NOT_UTF8 || error == MINISIGN_BAD_NAME || error == MINISIGN_NOT_LISTED
        || error == MINISIGN_LISTED_TWICE) {
        checked->outcome = NOT_ONE_ENTRY;
        checked->reason = error == MINISIGN_NOT_UTF8 ? "this name is not UTF-8, so no list can contain it" : NULL;
    } else if (error != MINISIGN_OK) {
        checked->outcome = LIST_REJECTED;
    }
}

/* Orders files by their lines in the list, for qsort. */
static int compare_lines(const void *first, const void *second)
{
    const struct checked_file *first_file = first, *second_file = second;

    if (first_file->line != second_file->line) {
        return first_file->line < second_file->line ? -1 : 1;
    }
    return first_file->position < second_file->position ? -1 : 1;
}

/* Returns the files that the command line names. */
static struct files files_from_arguments(const struct listing *listing, const struct check_options *options)
{
    struct files files = { .count = options->file_count, .output = stdout };
    struct lookup lookup = { listing, NULL };

    files.checked = allocate(files.count, sizeof *files.checked);
    lookup.checked = files.checked;
    for (size_t i = 0; i < files.count; i++) {
        files.checked[i].name = options->files[i];
        files.checked[i].position = i;
    }
    run_tasks(&(struct tasks) { .count = files.count, .context = &lookup, .work = look_up_entry });
    qsort(files.checked, files.count, sizeof *files.checked, compare_lines);
    return files;
}

/* Returns all files of the list. */
static struct files files_from_list(const struct listing *listing, const struct check_options *options)
{
    struct files files = { NULL, listing->count, options->listed_only, stdout };

    files.checked = allocate(files.count, sizeof *files.checked);
    for (size_t i = 0; i < files.count; i++) {
        const struct named_entry *listed = &listing->entries[i];
        struct checked_file *checked = &files.checked[i];
        size_t count = count_matching_entries(listing, listed->name);

        *checked = (struct checked_file) { .name = listed->name, .line = listed->entry.line, .entry = listed->entry };
        if (count == 0) {
            checked->outcome = MISSING_FILE;
            checked->reason = "names with a backslash or with escapes are not supported";
        } else if (count > 1) {
            checked->outcome = NOT_ONE_ENTRY;
            checked->error = MINISIGN_LISTED_TWICE;
        }
    }
    return files;
}

struct files files_to_check(const struct listing *listing, const struct check_options *options)
{
    pthread_mutex_init(&bytes_lock, NULL);
    return options->file_count > 0 ? files_from_arguments(listing, options) : files_from_list(listing, options);
}

/* ---- Comparing ---- */

static void count_bytes(size_t len)
{
    pthread_mutex_lock(&bytes_lock);
    bytes_read += len;
    pthread_mutex_unlock(&bytes_lock);
}

static void set_system_error(struct checked_file *checked)
{
    checked->outcome = UNUSABLE_FILE;
    checked->system_error = errno;
}

/* Opens a regular file. On failure, stores the reason in `checked` and returns -1. */
static int open_regular(struct checked_file *checked)
{
    struct handle handle;
    int fd = -1;

    if (!look_up(&handle, AT_FDCWD, checked->name, true)) {
        set_system_error(checked);
        if (errno == ENOENT || errno == ENOTDIR || errno == ENAMETOOLONG) {
            checked->outcome = MISSING_FILE;
        }
        return -1;
    }
    if (S_ISREG(handle.status.st_mode)) {
        fd = open_handle(&handle, checked->name, O_RDONLY | O_CLOEXEC);
        if (fd < 0) {
            set_system_error(checked);
        }
    } else {
        checked->outcome = UNUSABLE_FILE;
        checked->reason = "this is not a regular file";
    }
    close_if_open(&handle.fd);
    return fd;
}

/* Hashes an open file, and returns the result of comparing the digest with that of the entry. If reading fails, stores
 * the reason in `checked` and returns MINISIGN_READING_FAILED. */
static enum minisign_error hash_file(int fd, struct checked_file *checked, uint8_t *buffer,
                                     void (*on_piece)(const uint8_t *piece, size_t len))
{
    minisign_list_file state;
    enum minisign_error error = minisign_list_begin(&checked->entry, &state);
    ssize_t len = 1;

    while (error == MINISIGN_OK && (len = read_whole(fd, buffer, WORK_BYTES)) > 0) {
        error = minisign_list_update(&state, buffer, (size_t) len);
        count_bytes((size_t) len);
        if (on_piece != NULL) {
            on_piece(buffer, (size_t) len);
        }
    }
    if (len < 0) {
        set_system_error(checked);
        return MINISIGN_READING_FAILED;
    }
    return error == MINISIGN_OK ? minisign_list_finish(&state) : error;
}

int compare_file(struct checked_file *checked, uint8_t *buffer, void (*on_piece)(const uint8_t *piece, size_t len))
{
    int fd = checked->outcome == ALL_MATCH ? open_regular(checked) : -1;

    if (fd < 0) {
        return -1;
    }
    checked->error = hash_file(fd, checked, buffer, on_piece);
    if (checked->error != MINISIGN_OK) {
        close_if_open(&fd);
        /* If reading failed, the outcome is already set. */
        if (checked->outcome == ALL_MATCH) {
            checked->outcome = OTHER_CONTENT;
        }
    }
    return fd;
}

/* ---- Results ---- */

static void print_reason(const struct checked_file *checked)
{
    char text[MINISIGN_ERROR_TEXT_BYTES];

    if (checked->reason != NULL || checked->system_error != 0) {
        print_error(checked->name, checked->reason != NULL ? checked->reason : strerror(checked->system_error));
    } else {
        describe_error(checked->error, text);
        print_error(checked->name, text);
    }
}

void report_file(const struct files *files, const struct checked_file *checked)
{
    if (checked->outcome == MISSING_FILE && files->skips_missing) {
        return;
    }
    fprintf(files->output, "%s: %s\n", escape_name(checked->name).text,
            checked->outcome == ALL_MATCH ? "OK" : "FAILED");
    if (checked->outcome != ALL_MATCH) {
        record_outcome(checked->outcome);
        /* Flushed, so that the error comes after the result even if both streams are the same file. */
        fflush(files->output);
        print_reason(checked);
    }
}

/* The context of the functions below, which `run_tasks` calls. */
struct check_run {
    struct files *files;
    struct progress progress;
    /* The number of bytes that the progress line shows. */
    uint64_t shown_bytes;
    /* The number of files that exist, of the files whose result was printed so far. */
    size_t existing_count;
};

static void check_one(void *context, size_t index, uint8_t *buffer)
{
    const struct check_run *run = context;
    int fd = compare_file(&run->files->checked[index], buffer, NULL);

    close_if_open(&fd);
}

static void report_one(void *context, size_t index)
{
    struct check_run *run = context;
    const struct checked_file *checked = &run->files->checked[index];

    end_progress(&run->progress);
    report_file(run->files, checked);
    run->existing_count += checked->outcome != MISSING_FILE ? 1 : 0;
}

static void show_bytes_read(void *context)
{
    struct check_run *run = context;
    uint64_t bytes;

    pthread_mutex_lock(&bytes_lock);
    bytes = bytes_read;
    pthread_mutex_unlock(&bytes_lock);
    show_progress(&run->progress, bytes - run->shown_bytes);
    run->shown_bytes = bytes;
}

/* Returns the total size of the files, for the progress line. */
static uint64_t total_size(const struct files *files)
{
    uint64_t size = 0;
    struct stat status;

    for (size_t i = 0; i < files->count; i++) {
        if (files->checked[i].outcome == ALL_MATCH && stat(files->checked[i].name, &status) == 0
            && S_ISREG(status.st_mode)) {
            size += (uint64_t) status.st_size;
        }
    }
    return size;
}

void check_files(struct files *files)
{
    struct check_run run = { .files = files, .progress = begin_progress("checked", 0, false) };

    if (run.progress.is_enabled) {
        run.progress.size = total_size(files);
    }
    run_tasks(&(struct tasks) { files->count, &run, check_one, report_one, show_bytes_read });
    end_progress(&run.progress);
    if (files->skips_missing && run.existing_count == 0) {
        record_outcome(MISSING_FILE);
        print_error(NULL, "none of the listed files exists");
    }
}
