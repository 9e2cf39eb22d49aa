/* SPDX-License-Identifier: MIT */
/* Parses the command line of minisign-install. */
#include "options.h"

#include "messages.h"
#include "minisign_list.h"
#include "shared/reports.h"
#include "shared/text.h"
#include "usage.h"

enum { MAX_PATHS = 4 };

/* The options. Their order matters: MODE and all options after it take a value. MODE to WAIT cannot be combined with
 * --check, and NEW_KEY and ROLL_BACK cannot be combined with --first. */
enum option {
    IS_CHECK,
    IS_FIRST,
    MUST_EXPIRE,
    IS_AGAIN,
    USES_BLAKE2B,
    NEW_KEY,
    ROLL_BACK,
    MODE,
    MAX_SIZE,
    WAIT,
    NUMBERING,
    NAME,
    LIST,
    KEY,
    INSTALL_OPTION_COUNT
};

/* The name of each option. --most is the former name of --max-size: it is not documented, but still accepted. */
static const struct {
    const char *word;
    enum option option;
} option_table[] = {
    { "--check", IS_CHECK }, { "--first", IS_FIRST },       { "--must-expire", MUST_EXPIRE },
    { "--again", IS_AGAIN }, { "--new-key", NEW_KEY },      { "--roll-back", ROLL_BACK },
    { "--mode", MODE },      { "--most", MAX_SIZE },        { "--max-size", MAX_SIZE },
    { "--wait", WAIT },      { "--numbering", NUMBERING },  { "--name", NAME },
    { "--list", LIST },      { "--blake2b", USES_BLAKE2B }, { "--key", KEY },
};

/* The arguments, before they are checked. */
struct command_line {
    /* For each option, its name as it was given, or NULL if it was not given; and its value, if it takes one. */
    const char *words[INSTALL_OPTION_COUNT];
    const char *values[INSTALL_OPTION_COUNT];
    /* The values of --key. */
    const char *keys[MAX_PUBLIC_KEYS];
    int key_count;
    /* One more than the maximum: if there are too many paths, the error message names the last one. */
    const char *paths[MAX_PATHS + 1];
    int path_count;
};

/* Prints the help or the version, in two parts, and ends the program. */
static _Noreturn void print_text_and_exit(const char *text, const char *more_text)
{
    exit(fputs(text, stdout) >= 0 && fputs(more_text, stdout) >= 0 && fflush(stdout) == 0 ? MINISIGN_STATUS_INSTALLED
                                                                                           : MINISIGN_STATUS_FAILED);
}

static _Noreturn void exit_with_usage(void)
{
    fputs(USAGE "\n", stderr);
    print_hint("use --help to list the options");
    exit(MINISIGN_STATUS_MISUSE);
}

/* Reports what is wrong with an argument, or with the whole command line if `word` is NULL, and ends the program. */
static _Noreturn void reject_argument(const char *word, const char *message)
{
    print_error(word, message);
    exit_with_usage();
}

/* Stores an option. --key can be given twice, and each other option once. */
static void add_option(struct command_line *line, enum option option, const char *word, const char *value)
{
    if (option == KEY) {
        if (line->key_count == MAX_PUBLIC_KEYS) {
            reject_argument(word, "this option can be given only twice");
        }
        line->keys[line->key_count++] = value;
    } else if (line->words[option] != NULL) {
        reject_argument(word, "this option can be given only once");
    }
    line->words[option] = word;
    line->values[option] = value;
}

/* Ends the program if there are too many or too few paths, or if options cannot be combined. With --check, DATA is
 * omitted, and with --key, PK. */
static void check_command_line(const struct command_line *line)
{
    /* The expected paths: [--check given][--key given]. */
    static const char *const expected_paths[2][2] = { { "PK DATA SIG TARGET", "DATA SIG TARGET" },
                                                      { "PK SIG TARGET", "SIG TARGET" } };
    int is_check = line->words[IS_CHECK] != NULL, has_key = line->words[KEY] != NULL;
    int expected_count = MAX_PATHS - is_check - has_key;

    if (line->path_count > expected_count) {
        fprintf(stderr, "error: %s: unexpected argument, expected %s\n", escape_name(line->paths[expected_count]).text,
                expected_paths[is_check][has_key]);
        exit_with_usage();
    }
    for (int option = MODE; line->words[IS_CHECK] != NULL && option <= WAIT; option++) {
        if (line->words[option] != NULL) {
            reject_argument(line->words[option], "this option cannot be combined with --check");
        }
    }
    for (int option = NEW_KEY; line->words[IS_FIRST] != NULL && option <= ROLL_BACK; option++) {
        if (line->words[option] != NULL) {
            reject_argument(line->words[option], "this option cannot be combined with --first");
        }
    }
    if (line->words[USES_BLAKE2B] != NULL && line->words[LIST] == NULL) {
        reject_argument(line->words[USES_BLAKE2B], "this option needs --list");
    }
    if (line->path_count < expected_count) {
        fprintf(stderr, "error: missing arguments, expected %s\n", expected_paths[is_check][has_key]);
        exit_with_usage();
    }
}

static enum option find_option_by_name(const char *word)
{
    for (size_t i = 0; i < sizeof option_table / sizeof option_table[0]; i++) {
        if (strcmp(word, option_table[i].word) == 0) {
            return option_table[i].option;
        }
    }
    return INSTALL_OPTION_COUNT;
}

static struct command_line parse_command_line(int argc, char *argv[])
{
    struct command_line line = { 0 };
    bool only_paths = false;

    for (int i = 1; i < argc; i++) {
        const char *word = argv[i];
        enum option option = find_option_by_name(word);

        if (only_paths || word[0] != '-' || word[1] == 0) {
            if (line.path_count <= MAX_PATHS) {
                line.paths[line.path_count++] = word;
            }
        } else if (strcmp(word, "--") == 0) {
            only_paths = true;
        } else if (option == INSTALL_OPTION_COUNT) {
            reject_argument(word, "unknown option");
        } else if (option >= MODE && ++i == argc) {
            reject_argument(word, "this option needs a value");
        } else {
            add_option(&line, option, word, argv[i]);
        }
    }
    check_command_line(&line);
    return line;
}

static _Noreturn void reject_value(const char *option, const char *expected, const char *value)
{
    fprintf(stderr, "error: %s: invalid value \"%s\", expected %s\n", option, escape_name(value).text, expected);
    exit_with_usage();
}

static enum minisign_numbering numbering_of(const char *text)
{
    if (text == NULL || strcmp(text, "timestamp") == 0) {
        return MINISIGN_NUMBERING_TIMESTAMP;
    }
    if (strcmp(text, "version") != 0) {
        reject_value("--numbering", "timestamp or version", text);
    }
    return MINISIGN_NUMBERING_VERSION;
}

/* Parses three octal digits, with or without a leading 0. */
static mode_t mode_of(const char *text)
{
    size_t len = strlen(text);

    if (strspn(text, "01234567") != len || !(len == 3 || (len == 4 && text[0] == '0'))) {
        reject_value("--mode", "three octal digits such as 644", text);
    }
    return (mode_t) strtoul(text, NULL, 8);
}

/* Returns how many bytes the suffix of a size stands for, or 1 if it is not K, M, G or T. */
static uint64_t unit_of(const char *text)
{
    switch (text[0]) {
    case 'K': return UINT64_C(1) << 10;
    case 'M': return UINT64_C(1) << 20;
    case 'G': return UINT64_C(1) << 30;
    case 'T': return UINT64_C(1) << 40;
    default: return 1;
    }
}

/* Parses a decimal number of bytes, which may have a suffix. */
static uint64_t bytes_of(const char *option, const char *text)
{
    size_t len = strspn(text, "0123456789");
    uint64_t unit = unit_of(text + len);
    unsigned long long number;

    errno = 0;
    number = strtoull(text, NULL, 10);
    if (len == 0 || strlen(text) != len + (unit > 1 ? 1 : 0) || errno != 0 || number > UINT64_MAX / unit) {
        reject_value(option, "a number of bytes such as 5000, 100K or 20M", text);
    }
    return number * unit;
}

/* Parses a decimal number of seconds, up to a day. */
static uint32_t seconds_of(const char *text)
{
    size_t len = strlen(text);
    unsigned long seconds = strtoul(text, NULL, 10);

    if (len == 0 || len > 5 || strspn(text, "0123456789") != len || seconds > 24 * 60 * 60) {
        reject_value("--wait", "a number of seconds from 0 to 86400", text);
    }
    return (uint32_t) seconds;
}

struct request parse_request(int argc, char *argv[])
{
    struct request request = { 0 };
    minisign_installing_options *options = &request.options;
    struct command_line line;

    for (int i = 1; i < argc; i++) {
        if (!is_utf8((const uint8_t *) argv[i], strlen(argv[i]))) {
            reject_argument(NULL, "an argument is not UTF-8");
        }
    }
    if (argc == 2 && (strcmp(argv[1], "--help") == 0 || strcmp(argv[1], "-h") == 0)) {
        print_text_and_exit(USAGE "\n" OPTIONS_HELP, STATUS_HELP);
    }
    if (argc == 2 && strcmp(argv[1], "--version") == 0) {
        print_text_and_exit("minisign-install " MINISIGN_VERSION_TEXT "\n", "");
    }
    line = parse_command_line(argc, argv);
    *options = (minisign_installing_options) {
        .target = line.paths[line.path_count - 1], .signature_name = line.paths[line.path_count - 2],
        .choices = { .numbering = numbering_of(line.values[NUMBERING]), .is_first = line.words[IS_FIRST] != NULL,
                     .again = line.words[IS_AGAIN] != NULL, .is_check = line.words[IS_CHECK] != NULL,
                     .must_expire = line.words[MUST_EXPIRE] != NULL, .new_key = line.words[NEW_KEY] != NULL,
                     .roll_back = line.words[ROLL_BACK] != NULL,
                     .long_digest = line.words[USES_BLAKE2B] != NULL ? MINISIGN_HASH_BLAKE2B : MINISIGN_HASH_SHA512 },
        .has_max_size = line.words[MAX_SIZE] != NULL, .has_mode = line.words[MODE] != NULL, .name = line.values[NAME],
        .list_name = line.values[LIST]
    };
    if (options->name != NULL && *options->name == 0) {
        reject_value("--name", "a file name", options->name);
    }
    options->data = options->choices.is_check != 0 ? NULL : line.paths[line.path_count - 3];
    options->max_size = options->has_max_size != 0 ? bytes_of(line.words[MAX_SIZE], line.values[MAX_SIZE]) : 0;
    options->mode = options->has_mode != 0 ? mode_of(line.values[MODE]) : 0;
    options->wait = line.words[WAIT] != NULL ? seconds_of(line.values[WAIT]) : 0;
    memcpy(request.base64_keys, line.keys, sizeof request.base64_keys);
    request.key_count = line.key_count;
    request.key_file = line.key_count > 0 ? NULL : line.paths[0];
    return request;
}
