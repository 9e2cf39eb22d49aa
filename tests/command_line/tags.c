/* Prints the tag of a piece of data, which c/shared/piece_tags.c makes. Reads the key of the tags and then the
 * piece from standard input. command_safety.py runs it. */
#include <inttypes.h>
#include <stdio.h>
#include <stdlib.h>

#include <sodium.h>

#include "shared/piece_tags.h"

/* Replaces libsodium's function, so that the key of the tags is known. */
void randombytes_buf(void *const bytes, const size_t len)
{
    if (fread(bytes, 1, len, stdin) != len)
        exit(2);
}

int main(void)
{
    static uint8_t piece[MAX_TAGGED_BYTES];
    struct tag tag;
    size_t len;

    generate_tag_key();
    len = fread(piece, 1, sizeof piece, stdin);
    tag = tag_of(piece, len);
    printf("%016" PRIx64 "%016" PRIx64 "\n", tag.high, tag.low);
    return is_same_tag(tag, tag_of(piece, len)) ? 0 : 1;
}
