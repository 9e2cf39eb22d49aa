/* Makes random calls to all functions of minisign_list.h, and prints checksums of all bytes that they return
 * (call_checksums.h). Most lists are well-formed, and most are verified before they are used. */
#include "call_checksums.h"

#include "minisign_list.h"

/* The digests in lists: SHA-256, SHA-512 and BLAKE2b of empty data, of `abc`, and of 200 letters a. */
static const char *const digests[][3] = {
    { "e3b0c44298fc1c149afbf4c8996fb92427ae41e4649b934ca495991b7852b855",
      "cf83e1357eefb8bdf1542850d66d8007d620e4050b5715dc83f4a921d36ce9ce"
      "47d0d13c5d85f2b0ff8318d2877eec2f63b931bd47417a81a538327af927da3e",
      "786a02f742015903c6c6fd852552d272912f4740e15847618a86e217f71f5419"
      "d25e1031afee585313896444934eb04b903a685b1448b755d56f701afe9be2ce" },
    { "ba7816bf8f01cfea414140de5dae2223b00361a396177a9cb410ff61f20015ad",
      "ddaf35a193617abacc417349ae20413112e6fa4e89a97ea20a9eeee64b55d39a"
      "2192992a274fc1a836ba3c23a3feebbd454d4423643ce80e2a9ac94fa54ca49f",
      BLAKE2B_OF_ABC },
    { "c2a908d98f5df987ade41b5fce213067efbcc21ef2240212a41e54b5e7c28ae5",
      "4b11459c33f52a22ee8236782714c150a3b2c60994e9acee17fe68947a3e6789"
      "f31e7668394592da7bef827cddca88c4e6f86e4df7ed1ae6cba71f3e98faee9f",
      "932355851d75f09c18646a9da87c25e055bc57f113121ad1ec63d45e7a1d62ab"
      "9133f8b7d1d7de9e0afa784eb6a8a11d78683013d0a672611f17668d9577d209" },
};
/* The data with these digests. NULL stands for 200 letters a. */
static const char *const contents[] = { "", "abc", NULL };
static const char *const hash_names[] = { "SHA256", "SHA512", "BLAKE2b" };

enum { ENTRIES = MINISIGN_LIST_ENTRIES(BUFFER_BYTES) };

/* ---- The objects on which the calls work ---- */

/* The first key is the published one. The last one was not read. */
static minisign_public_key keys[OBJECT_COUNT];
static minisign_signature signatures[OBJECT_COUNT];
static struct text signature_files[OBJECT_COUNT];
static minisign_list lists[OBJECT_COUNT];
/* The text of each list, as it was passed to minisign_list_ask, and texts that are written line by line. */
static struct text list_texts[OBJECT_COUNT], written_texts[OBJECT_COUNT];
static minisign_questions questions;
static minisign_list_entry found_entries[OBJECT_COUNT], entries[ENTRIES];
static minisign_list_file files[OBJECT_COUNT];
static uint8_t many_letters[200], data[5000], output[BUFFER_BYTES];

/* ---- Adding structs to the checksum ---- */

static void add_list(const minisign_list *list)
{
    add_number(list->mark);
    add_bytes(list->text_digest, sizeof list->text_digest);
    add_bytes(list->key_id, sizeof list->key_id);
    add_number(list->whole);
    add_number(list->is_named);
}

static void add_entry(const minisign_list_entry *entry)
{
    add_number(entry->mark);
    add_number(entry->line);
    add_number(entry->name_offset);
    add_number(entry->name_len);
    add_bytes(entry->digest, sizeof entry->digest);
    add_number(entry->hash);
    add_number(entry->is_escaped);
}

static void add_file(const minisign_list_file *file)
{
    add_bytes(file, sizeof *file);
}

/* ---- Random arguments ---- */

/* Returns one of a small set of names. A list may contain most of them. */
static const char *any_name(void)
{
    static const char *const good[] = { "a", "b", "./a", "d/e", "x) = y", " c", "*c", "\xc3\xa9", "a b", "..a", "f" };
    static const char *const bad[] = {
        "", "/a", "d/../a", "././a", "a\\b", "d//e", "d/", ".", "..", "d/.", "d/..", "d/.x", "a\x7f", "\xff", "a\tb",
        "\xc0\x80", "a\nb", "\xc2\x85",
    };
    const char *usual = good[random_below(LENGTH(good))], *rare = bad[random_below(LENGTH(bad))];

    return one_in(12) ? rare : usual;
}

static const char *any_list_name(void)
{
    static const char *const names[] = { "SHA256SUMS", "SHA256SUM", "", "\xff" };
    const char *rare = names[random_below(LENGTH(names))];

    return one_in(6) ? rare : names[0];
}

static enum minisign_hash any_hash(uint32_t first)
{
    uint32_t rare = one_in(2) ? random_below(6) : (uint32_t) edge_number(), usual = first + random_below(4 - first);

    return one_in(20) ? (enum minisign_hash) rare : (enum minisign_hash) usual;
}

/* Appends the digits of a digest, sometimes partly in upper case. */
static void append_digits(struct text *text, int hash)
{
    const char *digits = digests[random_below(LENGTH(digests))][hash];
    int is_upper = one_in(6);

    for (; *digits != 0; digits++) {
        char upper = *digits >= 'a' ? (char) (*digits - 32) : *digits;

        append(text, is_upper && one_in(2) ? &upper : digits, 1);
    }
}

/* Appends a line, rarely a malformed one. */
static void append_line(struct text *list, int is_good)
{
    static const char *const comments[] = { "", "# a comment", "#", "# \xc3\xa9" };
    static const char *const bad[] = {
        "x", " ", "MD5 (a) = 00", "SHA256 (a) = 00", "SHA256 (a) =", "\t", "SHA384 (a) = ", "# a\tb", "\\", "\xff",
    };
    int hash = (int) random_below(3), form = (int) random_below(8);
    const char *name = any_name(), *comment = comments[random_below(LENGTH(comments))], *rare = bad[random_below(LENGTH(bad))];

    if (is_good && (*name == '/' || strpbrk(name, "\\\t\n\x7f\xff\xc0\xc2") != NULL || strstr(name, "//") != NULL || *name == 0)) {
        name = "g";
    }
    if (form == 0) {
        append_string(list, comment);
    } else if (!is_good && one_in(12)) {
        append_string(list, rare);
    } else if (form < 4) {
        append_string(list, hash_names[hash]);
        append_string(list, " (");
        append_string(list, name);
        append_string(list, ") = ");
        append_digits(list, hash);
    } else {
        int is_escaped = one_in(10);

        append_string(list, is_escaped ? "\\" : "");
        append_digits(list, hash);
        append_string(list, !is_good && one_in(20) ? " x" : form < 6 ? "  " : " *");
        append_string(list, is_escaped ? "q\\nr" : name);
    }
    append_string(list, one_in(6) ? "\r\n" : "\n");
}

/* Returns the text of a list: one that the library wrote, one with random lines, or a damaged one. */
static struct text any_list(void)
{
    struct text list = { .len = 0 };
    int lines = (int) random_below(9), is_good = !one_in(4);

    if (one_in(3)) {
        list = any_text(written_texts);
    } else {
        while (lines-- > 0) {
            append_line(&list, is_good);
        }
        if (one_in(5) && list.len > 0) {
            list.len--;
        }
    }
    return list;
}

/* ---- Verifying a list ---- */

static void call_read_signature(void)
{
    static const char *const published_files[] = { LEGACY_SIGNATURE, OTHER_KEY_SIGNATURE, SIGNATURE };
    static const char *const comments[] = {
        "timestamp:1\tfile:SHA256SUMS\thashed", "file:SHA256SUMS", "file:SHA256SUM\tfile:SHA256SUMS", "file:",
    };
    int i = any_object();
    const minisign_public_key *key = &keys[random_below(OBJECT_COUNT - 1)];
    const char *published_file = published_files[random_below(LENGTH(published_files))];
    struct text comment = any_comment();
    minisign_signed_parts parts = { .trusted_comment = comment.bytes };
    size_t len = 0;

    if (!one_in(5)) {
        const char *rare = comments[random_below(LENGTH(comments))], *text = one_in(3) ? rare : comments[0];

        set_text(&comment, text, strlen(text));
    }
    parts.trusted_comment_len = comment.len;
    fill(parts.signature, sizeof parts.signature);
    fill(parts.comment_signature, sizeof parts.comment_signature);
    if (!one_in(16)) {
        parts.signature[63] &= 0x0f;
        parts.comment_signature[63] &= 0x0f;
    }
    if (one_in(10)) {
        set_text(&signature_files[i], published_file, strlen(published_file));
    } else if (minisign_signed_text(key, &parts, output, sizeof output, &len) == MINISIGN_OK) {
        set_text(&signature_files[i], output, len);
        if (one_in(12)) {
            /* The last line is truncated: some bytes of the comment signature are missing. */
            signature_files[i].len -= 9;
        }
    }
    if (minisign_read_signature(signature_files[i].bytes, signature_files[i].len, &signatures[i]) != MINISIGN_OK || one_in(20)) {
        memset(&signatures[i], 0, sizeof signatures[i]);
    }
}

static void call_ask(void)
{
    int i = any_object(), at = any_object(), is_any = one_in(3);
    const minisign_public_key *key = &keys[any_object()];
    struct text file = one_in(12) ? any_text(signature_files) : signature_files[at], list = any_list();
    const char *name = any_list_name();
    size_t near_needed = 64 + random_below(60), capacity = one_in(12) ? near_needed : one_in(20) ? 0 : sizeof output;
    uint8_t *message = capacity == 0 ? NULL : output;

    for (int n = 0, is_same = !one_in(10); is_same && n < OBJECT_COUNT; n++) {
        key = memcmp(keys[n].key_id, signatures[at].key_id, sizeof keys[n].key_id) == 0 ? &keys[n] : key;
    }
    memset(output, 0x5a, sizeof output);
    if (is_any) {
        CALL(minisign_list_ask_any, &lists[i], key, &signatures[at], bytes_or_null(&file), file.len, bytes_or_null(&list), list.len,
             &questions, message, capacity);
    } else {
        CALL(minisign_list_ask, &lists[i], key, &signatures[at], bytes_or_null(&file), file.len, *name == 0 ? NULL : bytes_of(name),
             strlen(name), bytes_or_null(&list), list.len, &questions, message, capacity);
    }
    if (last_result == MINISIGN_OK) {
        list_texts[i] = list;
    }
    add_list(&lists[i]);
    add_questions(&questions);
    add_bytes(output, sizeof output);
    if (last_result == MINISIGN_OK && !one_in(5)) {
        CALL(minisign_list_verdict, &lists[i], MINISIGN_ANSWER_YES, MINISIGN_ANSWER_YES);
        add_list(&lists[i]);
    }
}

static void call_verdict(void)
{
    minisign_list *list = &lists[any_object()];
    enum minisign_answer first = any_answer(), second = any_answer();

    CALL(minisign_list_verdict, list, first, second);
    add_list(list);
}

/* Clears, copies or damages an object, as a caller might. */
static void call_nothing(void)
{
    int i = any_object(), source = any_object();

    switch (random_below(8)) {
    case 0: memset(&lists[i], 0, sizeof lists[i]); break;
    case 1: lists[i].mark ^= UINT64_C(1) << random_below(64); break;
    case 2: found_entries[i].mark ^= UINT64_C(1) << random_below(64); break;
    case 3: memset(&files[i], 0, sizeof files[i]); break;
    case 4: written_texts[i].len = 0; break;
    case 5: files[i] = files[source]; break;
    case 6: list_texts[i] = list_texts[source]; break;
    default: found_entries[i] = found_entries[source]; break;
    }
}

/* ---- Entries ---- */

static void call_find(void)
{
    int i = any_object();
    const struct text text = one_in(16) ? any_text(list_texts) : list_texts[i];
    enum minisign_hash hash = any_hash(1) == MINISIGN_HASH_SHA256 && !one_in(12) ? MINISIGN_HASH_NONE : any_hash(2);
    const char *name = any_name();
    minisign_list_entry *entry = &found_entries[any_object()];
    uint64_t line = 0x5a;

    CALL(minisign_list_find, &lists[i], bytes_or_null(&text), text.len, hash, *name == 0 ? NULL : bytes_of(name),
         strlen(name), entry, &line);
    add_number(line);
    add_entry(entry);
}

static void call_entries(void)
{
    int i = any_object();
    const struct text text = one_in(16) ? any_text(list_texts) : list_texts[i];
    enum minisign_hash hash = any_hash(1) == MINISIGN_HASH_SHA256 && !one_in(12) ? MINISIGN_HASH_NONE : any_hash(2);
    size_t few = random_below(6), capacity = one_in(6) ? few : ENTRIES, count = 0x5a;
    uint64_t line = 0x5a;

    memset(entries, 0x5a, sizeof entries);
    CALL(minisign_list_entries, &lists[i], bytes_or_null(&text), text.len, hash, capacity == 0 ? NULL : entries, capacity, &count,
         &line);
    add_number(count);
    add_number(line);
    for (size_t n = 0; n < ENTRIES; n++) {
        add_entry(&entries[n]);
    }
    if (last_result == MINISIGN_OK && count > 0) {
        found_entries[i] = entries[random_below((uint32_t) count)];
    }
}

/* ---- Checking a file ---- */

static void call_begin(void)
{
    const minisign_list_entry *entry = &found_entries[any_object()];
    minisign_list_file *file = &files[any_object()];

    CALL(minisign_list_begin, entry, file);
    add_file(file);
}

static void call_update(void)
{
    minisign_list_file *file = &files[any_object()];
    size_t len = one_in(20) ? random_below(sizeof data) : one_in(9) ? 0 : random_below(300);
    size_t at = random_below((uint32_t) (sizeof data - len));

    CALL(minisign_list_update, file, len == 0 ? NULL : data + at, len);
    add_file(file);
}

static void call_finish(void)
{
    minisign_list_file *file = &files[any_object()];

    CALL(minisign_list_finish, file);
    add_file(file);
}

/* Checks data for which some entries have the digest, in two pieces. */
static void call_whole_file(void)
{
    const minisign_list_entry *entry = &found_entries[any_object()];
    minisign_list_file *file = &files[any_object()];
    const char *content = contents[random_below(LENGTH(contents))];
    const uint8_t *bytes = content == NULL ? many_letters : bytes_of(content);
    size_t len = content == NULL ? sizeof many_letters : strlen(content), first = random_below((uint32_t) len + 1);

    CALL(minisign_list_begin, entry, file);
    CALL(minisign_list_update, file, bytes, first);
    add_file(file);
    CALL(minisign_list_update, file, bytes + first, len - first);
    add_file(file);
    CALL(minisign_list_finish, file);
    add_file(file);
}

static void call_compare(void)
{
    const minisign_list_entry *entry = &found_entries[any_object()];
    uint8_t digest[64];
    enum minisign_hash rare = any_hash(0), hash = one_in(8) ? rare : (enum minisign_hash) entry->hash;
    size_t len = hash == MINISIGN_HASH_SHA256 ? 32 : 64, wrong_len = random_below(sizeof digest + 1),
           at = random_below(sizeof digest);

    memcpy(digest, entry->digest, sizeof digest);
    if (one_in(3)) {
        digest[at] ^= (uint8_t) (1 << random_below(8));
    }
    if (one_in(8)) {
        len = wrong_len;
    }
    CALL(minisign_list_compare_trusting_your_hash, entry, hash, len == 0 ? NULL : digest, len);
}

/* ---- Writing a list ---- */

static void call_append(void)
{
    struct text *list = &written_texts[any_object()];
    struct text text = one_in(16) ? any_list() : one_in(16) ? any_text(written_texts) : *list;
    enum minisign_hash hash = any_hash(1);
    uint8_t digest[64];
    const char *name = any_name();
    size_t usual = hash == MINISIGN_HASH_SHA256 ? 32 : 64, rare = random_below(sizeof digest + 1),
           digest_len = one_in(16) ? rare : usual;
    size_t near_needed = text.len + 60 + random_below(120),
           capacity = one_in(12) ? near_needed : one_in(20) ? random_below(200) : BUFFER_BYTES;
    size_t len = text.len;

    fill(digest, sizeof digest);
    capacity = capacity < BUFFER_BYTES ? capacity : BUFFER_BYTES;
    memset(output, 0x5a, sizeof output);
    memcpy(output, text.bytes, text.len);
    CALL(minisign_list_append, hash, digest_len == 0 ? NULL : digest, digest_len, *name == 0 ? NULL : bytes_of(name), strlen(name),
         capacity == 0 ? NULL : output, capacity, &len);
    add_number(len);
    add_bytes(output, sizeof output);
    if (last_result == MINISIGN_OK) {
        set_text(list, output, len);
    } else if (last_result == MINISIGN_LISTED_TWICE && one_in(3)) {
        list->len = 0;
    }
}

/* ---- Running ---- */

static void make_calls(void)
{
    static void (*const all[])(void) = {
        call_nothing, call_read_signature, call_ask, call_ask, call_verdict, call_find, call_find, call_find, call_entries,
        call_begin, call_begin, call_update, call_update, call_finish, call_whole_file, call_whole_file, call_compare,
        call_append, call_append,
    };

    all[random_below(LENGTH(all))]();
}

static void begin(void)
{
    fill(data, sizeof data);
    memset(many_letters, 'a', sizeof many_letters);
    for (int i = 0; i < OBJECT_COUNT - 1; i++) {
        minisign_new_key new_key;
        minisign_secret_key secret;

        fill(new_key.secret, sizeof new_key.secret);
        memset(new_key.key_id, i, sizeof new_key.key_id);
        minisign_take_secret_key(&new_key, &secret);
        CHECK(minisign_public_key_of(&secret, &keys[i]) == MINISIGN_OK);
    }
    keys[0] = key_of(KEY);
    for (int i = 0; i < 3 * OBJECT_COUNT; i++) {
        call_read_signature();
    }
}

int main(int argc, char **argv)
{
    return run(argc, argv, begin, make_calls);
}
