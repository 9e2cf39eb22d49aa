/* SPDX-License-Identifier: MIT */
/* Names and locks temporary files, and removes those that killed runs left. */
#include "leftovers.h"

#include "shared/handles.h"
#include "shared/temporary_files.h"

/* The maximum number of directories that are remembered as cleaned. After that, the oldest are forgotten. */
#define MAX_DIRECTORIES 32

bool random_temporary_name(char name[TEMPORARY_NAME_BYTES])
{
    strcpy(name, TEMPORARY_PREFIX);
    return random_hex(name + strlen(name), TEMPORARY_RANDOM_BYTES);
}

bool lock_temporary_file(int fd)
{
    return flock(fd, LOCK_EX | LOCK_NB) == 0 || errno != EWOULDBLOCK;
}

/* Removes a temporary file if it is a regular file that no run has locked. Checks the name again after locking the
 * file, because another run may have renamed the file in between. */
static void remove_if_unlocked(int directory, const char *name)
{
    int fd = openat(directory, name, O_RDWR | O_NOFOLLOW | O_NONBLOCK | O_CLOEXEC);
    struct stat opened, named;

    if (fd < 0) {
        return;
    }
    if (fstat(fd, &opened) == 0 && S_ISREG(opened.st_mode) && flock(fd, LOCK_EX | LOCK_NB) == 0
        && fstatat(directory, name, &named, AT_SYMLINK_NOFOLLOW) == 0 && is_same_file(&named, &opened)) {
        unlinkat(directory, name, 0);
    }
    close(fd);
}

/* Returns true if this directory was cleaned before. Otherwise remembers it as cleaned. */
static bool was_cleaned(int directory)
{
    static struct stat cleaned[MAX_DIRECTORIES];
    static unsigned count;
    struct stat status;

    if (fstat(directory, &status) != 0) {
        return true;
    }
    for (unsigned i = 0; i < count && i < MAX_DIRECTORIES; i++) {
        if (is_same_file(&cleaned[i], &status)) {
            return true;
        }
    }
    cleaned[count++ % MAX_DIRECTORIES] = status;
    return false;
}

void remove_unlocked_files(int directory)
{
    if (!was_cleaned(directory)) {
        for_each_random_name(directory, TEMPORARY_PREFIX, TEMPORARY_RANDOM_BYTES, remove_if_unlocked);
    }
}
