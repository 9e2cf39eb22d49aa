/* Makes random calls to all functions of minisign_install.h, and prints checksums of all bytes that they return
 * (call_checksums.h). Most calls report the operation that is due, and mostly as successful. Some sequences of calls are
 * complete runs, which install one update after the other at the same target. */
#include "call_checksums.h"

#include "minisign_install.h"

/* The digests of no data. */
#define SHA256_OF_NOTHING "e3b0c44298fc1c149afbf4c8996fb92427ae41e4649b934ca495991b7852b855"
#define SHA512_OF_NOTHING                                              \
    "cf83e1357eefb8bdf1542850d66d8007d620e4050b5715dc83f4a921d36ce9ce" \
    "47d0d13c5d85f2b0ff8318d2877eec2f63b931bd47417a81a538327af927da3e"
#define BLAKE2B_OF_NOTHING                                             \
    "786a02f742015903c6c6fd852552d272912f4740e15847618a86e217f71f5419" \
    "d25e1031afee585313896444934eb04b903a685b1448b755d56f701afe9be2ce"

static minisign_installation installations[OBJECT_COUNT];
/* The first and the third key have the same key ID. The second is the published key. The last one was not read. */
static minisign_public_key keys[OBJECT_COUNT];
/* The signature file of each installation, and records. */
static struct text signature_files[OBJECT_COUNT], records[OBJECT_COUNT];
/* True during a complete run, in which all calls are made in order and mostly succeed; and the record that the last such run
 * wrote. */
static int is_whole_run;
static struct text last_record;
static uint8_t data[300], output[BUFFER_BYTES];

static size_t any_capacity(size_t usual)
{
    memset(output, 0x5a, sizeof output);
    return one_in(9) ? random_below(200) : usual;
}

/* Returns a size for the message buffer: mostly a large one, and sometimes about the required size or exactly this size. */
static size_t any_message_capacity(void)
{
    size_t near_needed = 64 + random_below(60);

    memset(output, 0x5a, sizeof output);
    return one_in(20) ? 0 : one_in(9) ? near_needed : sizeof output;
}

static uint32_t any_flag(uint32_t times)
{
    uint32_t rare = (uint32_t) edge_number();

    return one_in(60) ? rare : (uint32_t) one_in(times);
}

static struct text any_name(void)
{
    static const char *const rare_names[] = { "", "abc", "ap", "\xff", "./app", "../app" };
    struct text name = { .len = 0 };
    const char *rare = rare_names[random_below(LENGTH(rare_names))], *chosen = one_in(20) ? rare : "app";

    set_text(&name, chosen, strlen(chosen));
    return name;
}

static uint64_t any_time(void)
{
    uint64_t rare = edge_number();

    return one_in(8) ? rare : 5;
}

/* Returns a time, which may be before 1970. */
static int64_t any_clock(void)
{
    uint64_t time = any_time();

    return time <= INT64_MAX ? (int64_t) time : -1 - (int64_t) (UINT64_MAX - time);
}

static void add_installation(const minisign_installation *installation)
{
    uint64_t size = 0x5a5a;

    add_bytes(installation, sizeof *installation);
    CALL(minisign_install_due, installation);
    CALL(minisign_install_error, installation);
    CALL(minisign_install_is_signed, installation);
    CALL(minisign_install_size, installation, &size);
    add_number(size);
    add_number(minisign_install_version(installation));
    RECORD_CALL(minisign_install_version);
    add_number(minisign_install_line(installation));
    RECORD_CALL(minisign_install_line);
}

/* ---- Calls ---- */

/* Appends a label and a number: mostly `usual`, and sometimes another number or text. */
static void append_number(struct text *comment, const char *label, uint64_t usual)
{
    static const char *const odd_numbers[] = { "", "+7", "x", "7x", " 7", "-1", "007", "18446744073709551615",
                                               "18446744073709551616", "99999999999999999999", "184467440737095516150" };
    const char *odd_number = odd_numbers[random_below(LENGTH(odd_numbers))];
    uint64_t low = random_below(1000), number = random_number(), any = number >> random_below(64);

    append_string(comment, label);
    if (one_in(10)) {
        append_string(comment, odd_number);
    } else {
        append_decimal(comment, !one_in(8) ? usual : one_in(2) ? low : any);
    }
}

/* Returns a trusted comment with fields in random order. Most of these comments are accepted. */
static struct text any_fields(void)
{
    static const char *const extra_fields[] = {
        "hashed", "x", "expires", "Expires:9", "expire:9", "file:ap", "version:6", "timestamp:6", "size:11", "",
    };
    struct text comment = { .len = 0 };
    int first = (int) random_below(5);

    for (int i = 0; i < 5; i++) {
        const char *extra_field = extra_fields[random_below(LENGTH(extra_fields))];
        size_t len = comment.len;
        uint64_t number = 7 + random_below(3);

        append_string(&comment, len == 0 ? "" : "\t");
        switch ((first + i) % 5) {
        case 0: append_number(&comment, "version:", number); break;
        case 1: append_number(&comment, "timestamp:", number); break;
        case 2: append_string(&comment, "file:app"); break;
        case 3: append_number(&comment, "expires:", number); break;
        default: append_number(&comment, "size:", 12); break;
        }
        if (one_in((first + i) % 5 < 3 ? 12 : 2)) {
            comment.len = len;
        }
        if (one_in(24)) {
            append_string(&comment, "\t");
            append_string(&comment, extra_field);
        }
    }
    return comment;
}

/* Returns a trusted comment that is accepted, or that is rejected for a single reason, or any comment. */
static struct text any_update(void)
{
    static const char *const good[] = { "version:7\ttimestamp:7\tfile:app", "version:8\tfile:app\tsize:12\ttimestamp:8",
                                        "file:app\tversion:7\ttimestamp:6\texpires:7", "file:app\tversion:9\ttimestamp:9\thashed",
                                        "timestamp:18446744073709551615\tversion:1234567890123\tfile:app" };
    static const char *const bad[] = {
        "version:7\ttimestamp:7\tfile:app\tExpires:7", "version:7\ttimestamp:7\tfile:app\texpires: 7",
        "version:7\ttimestamp:7\tfile:app\texpires:7\texpires:7", "version:7\ttimestamp:7\tfile:app\texpires:4",
        "version:7\ttimestamp:7\tfile:app\tsize:", "version:7\ttimestamp:7\tfile:app\tsize:12\tsize:12",
        "version:7\ttimestamp:7\tfile:app\tsize:18446744073709551616", "version:x\ttimestamp:-1\tfile:app",
        "file:app", "version:7\ttimestamp:7\tfile:ap", "version:7\ttimestamp:7",
    };
    struct text comment = any_comment();
    const char *usual = good[random_below(LENGTH(good))], *rare = bad[random_below(LENGTH(bad))];

    if (one_in(3)) {
        comment = any_fields();
    } else if (!one_in(12)) {
        const char *chosen = one_in(6) ? rare : usual;

        set_text(&comment, chosen, strlen(chosen));
    }
    return comment;
}

static void make_file(const minisign_public_key *key, struct text *file)
{
    static const char *const published_files[] = { LEGACY_SIGNATURE, OTHER_KEY_SIGNATURE };
    struct text comment = any_update();
    const char *published_file = published_files[random_below(LENGTH(published_files))];
    minisign_signed_parts parts = { .trusted_comment = comment.bytes, .trusted_comment_len = comment.len };
    size_t len = 0;

    fill(parts.signature, sizeof parts.signature);
    fill(parts.comment_signature, sizeof parts.comment_signature);
    if (one_in(30)) {
        set_text(file, published_file, strlen(published_file));
    } else if (minisign_signed_text(key, &parts, output, sizeof output, &len) == MINISIGN_OK) {
        set_text(file, output, len);
    }
}

/* Chooses if the signature is that of a list, and what 128 digits mean. */
static void choose_list(minisign_install_options *options)
{
    static const uint32_t meanings[] = { 0, 2, 3 };
    uint32_t usual = meanings[random_below(LENGTH(meanings))], rare = any_flag(2);

    options->is_list = any_flag(3);
    options->long_digest = one_in(60) ? rare : usual;
}

/* Returns a list. Most of these lists are accepted, and have the digest of empty data under the name `app`. */
static struct text any_list(void)
{
    static const char *const lines[] = {
        SHA256_OF_NOTHING "  app\n", SHA256_OF_NOTHING " *./app\r\n", "SHA256 (app) = " SHA256_OF_NOTHING "\n",
        SHA512_OF_NOTHING "  app\n", "SHA512 (app) = " SHA512_OF_NOTHING "\n", BLAKE2B_OF_NOTHING "  app\n",
        "BLAKE2b (app) = " BLAKE2B_OF_NOTHING "\n", "SHA512 (app) = " BLAKE2B_OF_NOTHING "\n",
    };
    static const char *const extra_lines[] = {
        "# text\n", "\n", "text\n", SHA256_OF_NOTHING "  abc\n", SHA256_OF_NOTHING "  app\n",
        SHA512_OF_NOTHING "  abc\n", "\\" SHA256_OF_NOTHING "  a\\nb\n", SHA256_OF_NOTHING " app\n",
    };
    struct text list = { .len = 0 };
    const char *line = lines[random_below(LENGTH(lines))];
    int place = (int) random_below(4);

    for (int i = 0; i < 4; i++) {
        const char *extra_line = extra_lines[random_below(LENGTH(extra_lines))];

        if (one_in(8)) {
            append_string(&list, extra_line);
        }
        if (i == place && !one_in(20)) {
            append_string(&list, line);
        }
    }
    if (one_in(30) && list.len > 0) {
        size_t at = random_below((uint32_t) list.len);

        list.bytes[at] = (uint8_t) random_number();
    }
    return list;
}

static void call_list(minisign_installation *installation)
{
    struct text list = any_list(), name = any_name();

    CALL(minisign_install_list, installation, bytes_or_null(&list), list.len, bytes_or_null(&name), name.len);
}

/* Begins an installation. In half of the cases, the two keys are the same key, or have the same key ID. The signature is mostly
 * made with the first key. */
static void call_init(void)
{
    int i = any_object(), first = (int) random_below(3), second = one_in(2) ? 2 - first : any_object();
    const minisign_public_key *key = one_in(40) ? &keys[OBJECT_COUNT - 1] : &keys[first];
    const minisign_public_key *signer = one_in(8) ? &keys[any_object()] : &keys[first];
    minisign_install_options options;

    make_file(signer, &signature_files[i]);
    options.numbering = !one_in(60) ? !one_in(5) : any_flag(2);
    options.is_first = any_flag(4);
    options.again = any_flag(4);
    options.is_check = any_flag(6);
    options.must_expire = any_flag(8);
    options.new_key = any_flag(8);
    options.roll_back = any_flag(8);
    choose_list(&options);
    CALL(minisign_install_init, &installations[i], key, &keys[second], &options);
}

/* Writes and stores the new record. Another run may begin with it. */
static void call_record_text(const minisign_installation *installation)
{
    size_t capacity = any_capacity(MINISIGN_RECORD_TEXT_BYTES), len = minisign_install_record_text(installation, output, capacity);

    RECORD_CALL(minisign_install_record_text);
    add_number(len);
    add_bytes(output, sizeof output);
    if (len > 0) {
        set_text(is_whole_run ? &last_record : &records[any_object()], output, len);
    }
}

static void call_signature(minisign_installation *installation)
{
    struct text file = !is_whole_run && one_in(5) ? any_text(signature_files)
                                                  : signature_files[installation - installations];
    struct text name = any_name();
    int64_t now = any_clock();
    size_t capacity = any_message_capacity(), len = 0x5a;

    CALL(minisign_install_signature, installation, bytes_or_null(&file), file.len, bytes_or_null(&name), name.len, now,
         capacity == 0 ? NULL : output, capacity, &len);
    add_number(len);
    add_bytes(output, sizeof output);
}

static void call_question(const minisign_installation *installation)
{
    memset(output, 0x5a, 160);
    CALL(minisign_install_question, installation, output, output + 32, output + 96);
    add_bytes(output, 160);
}

static void call_answer(minisign_installation *installation)
{
    int is_target_changed = minisign_install_due(installation) == MINISIGN_DUE_CHECK_TARGET && one_in(2);
    enum minisign_answer usual = is_target_changed ? MINISIGN_ANSWER_NO : MINISIGN_ANSWER_YES, rare = any_answer();
    enum minisign_answer answer = is_whole_run && !one_in(8) ? usual : rare;

    CALL(minisign_install_answer, installation, answer);
}

/* Replaces a record by another one, because otherwise the versions in the records would only grow. */
static void renew_record(void)
{
    static const char *const texts[] = {
        "version:7", "7\n", "timestamp:6\n", "version:6", "version:18446744073709551616", "timestamp:7\n",
        "version:1", "timestamp:18446744073709551615", "0", "version:3\n", "7x", "7x\n", "version:7x", "version:x",
        "timestamp:x", "x", "18446744073709551619", "99999999999999999999", "184467440737095516150",
        "timestamp:184467440737095516150", "",
    };
    const char *text = texts[random_below(LENGTH(texts))];
    struct text *record = &records[any_object()];

    set_text(record, text, strlen(text));
    if (one_in(12)) {
        record->len = random_below(300);
        memset(record->bytes, '7', record->len);
    }
}

static void call_record(minisign_installation *installation)
{
    struct text record = is_whole_run ? last_record : one_in(6) ? any_text(records) : records[any_object()];

    if (is_whole_run ? record.len == 0 : one_in(8)) {
        CALL(minisign_install_no_record, installation);
    } else {
        CALL(minisign_install_record, installation, bytes_or_null(&record), record.len);
    }
    if (one_in(4)) {
        renew_record();
    }
}

static void call_piece(minisign_installation *installation)
{
    size_t len = one_in(2) ? 0 : random_below(sizeof data), at = random_below((uint32_t) (sizeof data - len));

    CALL(minisign_install_piece, installation, len == 0 ? NULL : data + at, len);
}

static void call_copied(minisign_installation *installation)
{
    static const size_t lens[] = { 0, 5, 7, 12, 12, 100, 0xffffffff };
    size_t len = lens[random_below(LENGTH(lens))];

    CALL(minisign_install_copied, installation, len);
}

static void call_failed(minisign_installation *installation)
{
    static const enum minisign_error reasons[] = { MINISIGN_OUT_OF_MEMORY, MINISIGN_READING_FAILED, MINISIGN_WRITING_FAILED,
                                                   MINISIGN_RANDOM_SOURCE_FAILED, MINISIGN_TARGET_IN_USE };
    uint32_t rare = random_below(100);
    enum minisign_error usual = reasons[random_below(LENGTH(reasons))], reason = one_in(4) ? (enum minisign_error) rare : usual;

    CALL(minisign_install_failed, installation, reason);
}

static void call_judge_comment(void)
{
    struct text comment = any_update(), name = any_name();
    uint32_t numbering = any_flag(2);
    uint64_t now = any_time(), recorded = one_in(2) ? 0 : edge_number(), number = 0x5a;

    CALL(minisign_judge_comment, bytes_or_null(&comment), comment.len, bytes_or_null(&name), name.len, numbering, now,
         recorded, &number);
    add_number(number);
}

static void call_done(minisign_installation *installation)
{
    CALL(minisign_install_done, installation);
}

static void call_no_target(minisign_installation *installation)
{
    CALL(minisign_install_no_target, installation);
}

/* Makes a random call, which in most cases does not report the operation that is due. */
static void call_anything(minisign_installation *installation)
{
    switch (random_below(11)) {
    case 0: call_record_text(installation); break;
    case 10: call_list(installation); break;
    case 1: call_signature(installation); break;
    case 2: call_question(installation); break;
    case 3: call_answer(installation); break;
    case 4: call_record(installation); break;
    case 5: call_piece(installation); break;
    case 6: call_copied(installation); break;
    case 7: call_no_target(installation); break;
    case 8: call_done(installation); break;
    default: call_failed(installation); break;
    }
}

/* Reports copied data, in several pieces. In most cases, their total size is one of the sizes in the comments. */
static void call_copy(minisign_installation *installation)
{
    size_t first = random_below(13);

    if (one_in(5)) {
        call_copied(installation);
    } else {
        CALL(minisign_install_copied, installation, first);
        CALL(minisign_install_copied, installation, 12 - first);
    }
    if (!one_in(4)) {
        call_done(installation);
    }
}

/* Makes a call that reports the operation that is due. */
static void call_due(minisign_installation *installation)
{
    if (!is_whole_run && one_in(30)) {
        call_failed(installation);
        return;
    }
    switch (minisign_install_due(installation)) {
    case MINISIGN_DUE_READ_RECORD: call_record(installation); break;
    case MINISIGN_DUE_READ_SIGNATURE: call_signature(installation); break;
    case MINISIGN_DUE_READ_LIST: call_list(installation); break;
    case MINISIGN_DUE_CHECK_COMMENT:
    case MINISIGN_DUE_CHECK_LIST:
    case MINISIGN_DUE_CHECK_RECORD:
    case MINISIGN_DUE_CHECK_TARGET:
    case MINISIGN_DUE_CHECK_DATA:
        call_question(installation);
        call_answer(installation);
        break;
    case MINISIGN_DUE_READ_TARGET:
        if (one_in(6)) {
            call_no_target(installation);
        } else {
            call_piece(installation);
        }
        break;
    case MINISIGN_DUE_READ_BACK: call_piece(installation); break;
    case MINISIGN_DUE_COPY_DATA: call_copy(installation); break;
    case MINISIGN_DUE_WRITE_RECORD:
        call_record_text(installation);
        call_done(installation);
        break;
    default: call_done(installation); break;
    }
}

/* Makes a complete run. It installs an update over the one that the previous such run installed, or rejects it, or one of the
 * operations fails. */
static void call_whole_run(void)
{
    minisign_installation *installation = &installations[0];
    int first = one_in(2) ? 0 : 2, second = one_in(2) ? 2 - first : first;
    static uint64_t last_version;
    uint64_t other_version = random_below(one_in(2) ? 100 : 100000), version = one_in(3) ? last_version : other_version;
    minisign_signed_parts parts;
    minisign_install_options options;
    struct text comment = { .len = 0 };
    size_t len = 0;
    uint32_t failing_step = random_below(60);

    options.numbering = one_in(8);
    options.is_first = last_record.len == 0 || one_in(4);
    options.again = one_in(4);
    options.is_check = one_in(8);
    options.must_expire = 0;
    options.new_key = one_in(6);
    options.roll_back = one_in(6);
    choose_list(&options);
    options.is_list = options.is_list == 1;
    append_string(&comment, "file:app\tversion:");
    append_decimal(&comment, version);
    append_string(&comment, "\ttimestamp:");
    append_decimal(&comment, version);
    append_string(&comment, one_in(2) ? "\tsize:12" : "");
    memset(&parts, 0, sizeof parts);
    parts.trusted_comment = comment.bytes;
    parts.trusted_comment_len = comment.len;
    fill(parts.signature, sizeof parts.signature);
    fill(parts.comment_signature, sizeof parts.comment_signature);
    parts.signature[63] &= 0x0f;
    parts.comment_signature[63] &= 0x0f;
    CHECK(minisign_signed_text(&keys[first], &parts, output, sizeof output, &len) == MINISIGN_OK);
    set_text(&signature_files[0], output, len);
    if (one_in(12)) {
        last_record.len = 0;
    }
    is_whole_run = 1;
    CALL(minisign_install_init, installation, &keys[first], &keys[second], &options);
    for (uint32_t step = 0, due = 0; step < 34 && due < MINISIGN_DUE_INSTALLED; step++) {
        if (step == failing_step) {
            call_failed(installation);
        } else {
            call_due(installation);
        }
        add_installation(installation);
        due = minisign_install_due(installation);
    }
    is_whole_run = 0;
    if (minisign_install_due(installation) == MINISIGN_DUE_INSTALLED) {
        last_version = version;
    }
}

static void make_calls(void)
{
    minisign_installation *installation = &installations[any_object()];
    uint32_t due = minisign_install_due(installation);

    if (one_in(200)) {
        minisign_clear(installation, sizeof *installation);
    } else if (one_in(15)) {
        call_judge_comment();
    } else if (one_in(12)) {
        call_whole_run();
    } else if (one_in(25)) {
        call_anything(installation);
    } else if (one_in(100) || ((due == MINISIGN_DUE_NOTHING || due >= MINISIGN_DUE_INSTALLED) && !one_in(6))) {
        call_init();
    } else {
        call_due(installation);
    }
    add_installation(installation);
}

/* ---- Running ---- */

static void begin(void)
{
    fill(data, sizeof data);
    for (int i = 0; i < OBJECT_COUNT - 1; i++) {
        minisign_new_key new_key;
        minisign_secret_key secret;

        fill(new_key.secret, sizeof new_key.secret);
        memset(new_key.key_id, i % 2, sizeof new_key.key_id);
        minisign_take_secret_key(&new_key, &secret);
        CHECK(minisign_public_key_of(&secret, &keys[i]) == MINISIGN_OK);
    }
    keys[1] = key_of(KEY);
    for (int i = 0; i < OBJECT_COUNT; i++) {
        set_text(&signature_files[i], SIGNATURE, strlen(SIGNATURE));
        set_text(&records[i], "7\n", 2);
    }
}

int main(int argc, char **argv)
{
    return run(argc, argv, begin, make_calls);
}
