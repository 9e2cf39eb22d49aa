/* SPDX-License-Identifier: MIT */
/*
 * Copies a verified file to standard output. The file is read twice: once to verify it, and once to copy it. Because
 * the file may change in between, each piece of the second reading is compared with the first, by a tag. So the file
 * need not be kept in memory.
 */
#include "copying.h"

#include "outcomes.h"
#include "parallel.h"
#include "shared/handles.h"
#include "shared/piece_tags.h"
#include "shared/reports.h"
#include "shared/streams.h"

/* compare_file passes pieces of up to WORK_BYTES to keep_tag, and tag_of takes up to MAX_TAGGED_BYTES. */
_Static_assert(WORK_BYTES <= MAX_TAGGED_BYTES, "WORK_BYTES");

static uint8_t piece_buffer[WORK_BYTES];
static int verified_file = -1;

/* The size of the verified file, and the tags of its pieces. */
static uint64_t verified_size;
static struct tag *verified_tags;
static size_t tag_count;

/* Stores the tag of a piece that compare_file has read. */
static void keep_tag(const uint8_t *bytes, size_t len)
{
    /* The array doubles whenever the number of tags is a power of two. */
    if ((tag_count & (tag_count - 1)) == 0) {
        verified_tags = realloc(verified_tags, (tag_count == 0 ? 1 : 2 * tag_count) * sizeof *verified_tags);
        if (verified_tags == NULL) {
            exit_with_error(UNUSABLE_FILE, NULL, "out of memory", NULL);
        }
    }
    verified_tags[tag_count++] = tag_of(bytes, len);
    verified_size += len;
}

void check_before_copy(struct files *files)
{
    files->output = stderr;
    generate_tag_key();
    verified_file = compare_file(&files->checked[0], piece_buffer, keep_tag);
    report_file(files, &files->checked[0]);
}

/* Reads the verified file a second time and writes it to standard output. Returns false at the first piece that differs
 * from the first reading. */
static bool reread_and_write(const char *name)
{
    uint64_t remaining = verified_size;
    ssize_t len;

    if (lseek(verified_file, 0, SEEK_SET) != 0) {
        exit_with_errno(name);
    }
    for (size_t piece = 0; (len = read_whole(verified_file, piece_buffer, sizeof piece_buffer)) > 0; piece++) {
        if (piece == tag_count || (uint64_t) len > remaining
            || !is_same_tag(tag_of(piece_buffer, (size_t) len), verified_tags[piece])) {
            return false;
        }
        if (!write_whole(STDOUT_FILENO, piece_buffer, (size_t) len)) {
            exit_with_errno("standard output");
        }
        remaining -= (uint64_t) len;
    }
    if (len < 0) {
        exit_with_errno(name);
    }
    return remaining == 0;
}

void copy_checked_file(const struct files *files)
{
    const char *name = files->checked[0].name;

    if (!reread_and_write(name)) {
        exit_with_error(OTHER_CONTENT, name, "the file changed between verification and output",
                        "do not use the output");
    }
    close_if_open(&verified_file);
    free(verified_tags);
}
