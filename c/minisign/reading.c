/* SPDX-License-Identifier: MIT */
/* Hashes data while reading it, and copies it to the output after verification. */
#include "reading.h"

#include "shared/progress.h"
#include "shared/text.h"

/* The size of a piece of data that is read only once. Data that is read twice has larger pieces, of MAX_TAGGED_BYTES,
 * because each piece needs a tag. */
#define READ_BYTES 32768
/* The initial size of the buffer for data that is kept in memory. */
#define INITIAL_BYTES 65536

static uint8_t piece[MAX_TAGGED_BYTES];

struct data open_data(const char *file)
{
    return (struct data) { .file = file, .fd = open_file(file, NULL) };
}

static void feed(minisign_state *state, const uint8_t *bytes, size_t len)
{
    if (minisign_update(state, bytes, len) != MINISIGN_OK) {
        fail_with_hint(NULL, "the data could not be hashed", NULL);
    }
}

/* Reads all data into memory. */
static void read_all(struct data *data)
{
    struct contents *contents = &data->contents;
    size_t size = 0;

    do {
        size = size == 0 ? INITIAL_BYTES : 2 * size;
        contents->bytes = realloc(contents->bytes, size);
        check_errno(contents->bytes != NULL, data->file);
        contents->len += read_or_exit(data->fd, data->file, contents->bytes + contents->len, size - contents->len);
    } while (contents->len == size);
}

/* Stores the tag of the piece that was read, which has `len` bytes. */
static void store_tag(struct data *data, size_t len)
{
    /* The array doubles whenever the number of tags is a power of two. */
    if ((data->tag_count & (data->tag_count - 1)) == 0) {
        size_t size = data->tag_count == 0 ? 1 : 2 * data->tag_count;

        data->tags = realloc(data->tags, size * sizeof *data->tags);
        check_errno(data->tags != NULL, data->file);
    }
    data->tags[data->tag_count++] = tag_of(piece, len);
    data->size += len;
}

static bool can_be_read_again(const struct data *data)
{
    return lseek(data->fd, 0, SEEK_CUR) == 0 && lseek(data->fd, 0, SEEK_END) > 0 && lseek(data->fd, 0, SEEK_SET) == 0;
}

void feed_data(struct data *data, minisign_state *state, enum reading_mode mode)
{
    struct stat status;
    bool has_size = fstat(data->fd, &status) == 0 && S_ISREG(status.st_mode);
    struct escaped_name name = escape_name(data->file);
    struct progress progress = begin_progress(name.text, has_size ? (uint64_t) status.st_size : 0, false);
    size_t size = mode == COPY_LATER ? MAX_TAGGED_BYTES : READ_BYTES, len;

    if (mode == KEEP_BYTES || (mode == COPY_LATER && !can_be_read_again(data))) {
        read_all(data);
        feed(state, data->contents.bytes, data->contents.len);
    } else {
        if (mode == COPY_LATER) {
            generate_tag_key();
        }
        while ((len = read_or_exit(data->fd, data->file, piece, size)) > 0) {
            feed(state, piece, len);
            if (mode == COPY_LATER) {
                store_tag(data, len);
            }
            show_progress(&progress, len);
        }
    }
    end_progress(&progress);
}

static void write_data(const uint8_t *bytes, size_t len)
{
    check_errno(fwrite(bytes, 1, len, stdout) == len, "standard output");
}

bool copy_data(const struct data *data)
{
    uint64_t remaining = data->size;
    size_t index, len;

    if (data->contents.bytes != NULL) {
        write_data(data->contents.bytes, data->contents.len);
        return true;
    }
    check_errno(lseek(data->fd, 0, SEEK_SET) == 0, data->file);
    for (index = 0; (len = read_or_exit(data->fd, data->file, piece, sizeof piece)) > 0; index++, remaining -= len) {
        if (index == data->tag_count || len > remaining || !is_same_tag(tag_of(piece, len), data->tags[index])) {
            return false;
        }
        write_data(piece, len);
    }
    return remaining == 0;
}

void close_data(struct data *data)
{
    close(data->fd);
    free(data->contents.bytes);
    free(data->tags);
}
