/* SPDX-License-Identifier: MIT */
/* Finds files that are not in the list. */
#include "unlisted.h"

#include <dirent.h>

#include "outcomes.h"
#include "shared/handles.h"
#include "shared/reports.h"

/* The names of unlisted files, allocated with malloc. */
struct names {
    char **names;
    size_t count;
};

static void add_name(struct names *names, const char *name)
{
    size_t size = strlen(name) + 1;

    /* The array doubles whenever the number of names is a power of two. */
    if ((names->count & (names->count - 1)) == 0) {
        names->names = realloc(names->names, (names->count == 0 ? 1 : 2 * names->count) * sizeof *names->names);
        if (names->names == NULL) {
            exit_with_error(UNUSABLE_FILE, NULL, "out of memory", NULL);
        }
    }
    names->names[names->count] = allocate(size, 1);
    memcpy(names->names[names->count++], name, size);
}

/* Returns true if this is a regular file, or a symbolic link to one, and neither the list nor its signature file. */
static bool must_be_listed(const struct listing *listing, const char *name)
{
    struct handle handle;

    if (!look_up(&handle, AT_FDCWD, name, true)) {
        /* ENOENT: a dangling symbolic link, or a file that was removed meanwhile. */
        if (errno != ENOENT) {
            print_error(name, strerror(errno));
            record_outcome(UNUSABLE_FILE);
        }
        return false;
    }
    close_if_open(&handle.fd);
    return S_ISREG(handle.status.st_mode) && !is_same_file(&handle.status, &listing->status)
           && !is_same_file(&handle.status, &listing->signature_status);
}

static int compare_strings(const void *first, const void *second)
{
    char *const *first_string = first, *const *second_string = second;

    return strcmp(*first_string, *second_string);
}

void find_unlisted(const struct listing *listing)
{
    struct names names = { NULL, 0 };
    DIR *directory = opendir(".");
    struct dirent *entry;

    if (directory == NULL) {
        exit_with_errno(".");
    }
    for (;;) {
        errno = 0;
        entry = readdir(directory);
        if (entry == NULL && errno != 0 && errno != EINTR) {
            exit_with_errno(".");
        } else if (entry == NULL && errno == 0) {
            break;
        }
        if (entry != NULL && count_matching_entries(listing, entry->d_name) == 0
            && must_be_listed(listing, entry->d_name)) {
            add_name(&names, entry->d_name);
        }
    }
    closedir(directory);
    if (names.count > 0) {
        qsort(names.names, names.count, sizeof *names.names, compare_strings);
        record_outcome(UNLISTED_FILE);
    }
    for (size_t i = 0; i < names.count; i++) {
        print_error(names.names[i], "this file is not in the list");
        free(names.names[i]);
    }
    free(names.names);
}
