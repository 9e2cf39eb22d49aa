/* SPDX-License-Identifier: MIT */
/* Parses the command line of minisign-check. */
#include "options.h"

#include "minisign.h"
#include "outcomes.h"
#include "shared/reports.h"
#include "usage.h"

/* The options. KEY_FILE to IN_DIRECTORY take a value. */
enum check_option {
    KEY_FILE,
    BARE_KEY,
    SIGNATURE_FILE,
    IN_DIRECTORY,
    LISTED_ONLY,
    NOTHING_ELSE,
    ANY_LIST,
    BLAKE2B,
    COPIES,
    CHECK_OPTION_COUNT
};

/* The name of each option. */
static const char *const option_words[] = {
    [KEY_FILE] = "-p",
    [BARE_KEY] = "-P",
    [SIGNATURE_FILE] = "-x",
    [IN_DIRECTORY] = "--in",
    [LISTED_ONLY] = "--listed",
    [NOTHING_ELSE] = "--nothing-else",
    [ANY_LIST] = "--any-list",
    [BLAKE2B] = "--blake2b",
    [COPIES] = "-o"
};

/* The arguments, split into options and paths. */
struct arguments {
    /* For each option that was given: its value, or any string if it takes none. NULL if it was not given. */
    const char *values[CHECK_OPTION_COUNT];
    /* LIST and all FILE. */
    const char **paths;
    size_t count;
};

/* Prints the help or the version, in two parts, and ends the program. */
static _Noreturn void print_help_and_exit(const char *text, const char *more_text)
{
    exit(fputs(text, stdout) >= 0 && fputs(more_text, stdout) >= 0 && fflush(stdout) == 0 ? ALL_MATCH : UNUSABLE_FILE);
}

/* Prints what is wrong with an argument, or with the whole command line if `word` is NULL, and ends the program. */
static _Noreturn void reject_arguments(const char *word, const char *message)
{
    print_error(word, message);
    fputs(USAGE "\n", stderr);
    print_hint("use --help to list the options");
    exit(WRONG_USAGE);
}

/* Returns the option that an argument names, or CHECK_OPTION_COUNT if there is none. If the argument also contains the
 * value, as in -pFILE, *value points to it, otherwise *value is NULL. Only -p, -P and -x may be given so. */
static enum check_option find_option(const char *word, const char **value)
{
    *value = NULL;
    for (enum check_option option = KEY_FILE; option < CHECK_OPTION_COUNT; option++) {
        if (strcmp(word, option_words[option]) == 0) {
            return option;
        }
        if (option < IN_DIRECTORY && strncmp(word, option_words[option], 2) == 0) {
            *value = word + 2;
            return option;
        }
    }
    return CHECK_OPTION_COUNT;
}

/* Splits the command line into options and paths. Ends the program for an unknown or repeated option. */
static struct arguments split_arguments(int argc, char *argv[])
{
    struct arguments arguments = { .paths = allocate((size_t) argc, sizeof *arguments.paths) };
    bool options_have_ended = false;

    for (int i = 1; i < argc; i++) {
        const char *word = argv[i], *value;
        enum check_option option;

        if (options_have_ended || word[0] != '-' || word[1] == 0) {
            arguments.paths[arguments.count++] = word;
            continue;
        }
        if (strcmp(word, "--") == 0) {
            options_have_ended = true;
            continue;
        }
        option = find_option(word, &value);
        if (option == CHECK_OPTION_COUNT) {
            reject_arguments(word, "unknown option");
        }
        if (option <= IN_DIRECTORY && value == NULL && ++i == argc) {
            reject_arguments(word, "this option needs a value");
        }
        if (arguments.values[option] != NULL) {
            reject_arguments(option_words[option], "this option can be given only once");
        }
        arguments.values[option] = value != NULL ? value : argv[i];
    }
    return arguments;
}

/* Ends the program if an argument is missing, or options cannot be combined. */
static void check_arguments(const struct arguments *arguments)
{
    if (arguments->values[KEY_FILE] != NULL && arguments->values[BARE_KEY] != NULL) {
        reject_arguments("-P", "this option cannot be combined with -p");
    }
    if (arguments->values[KEY_FILE] == NULL && arguments->values[BARE_KEY] == NULL) {
        reject_arguments(NULL, "the public key is missing, expected -p PUBKEY or -P KEY");
    }
    if (arguments->count == 0) {
        reject_arguments(NULL, "missing argument, expected LIST");
    }
    if (arguments->values[LISTED_ONLY] != NULL && arguments->count > 1) {
        reject_arguments("--listed", "this option cannot be combined with FILE");
    }
    if (arguments->values[COPIES] != NULL && arguments->count != 2) {
        reject_arguments("-o", "this option needs exactly one FILE");
    }
}

struct check_options parse_arguments(int argc, char *argv[])
{
    struct arguments arguments;

    if (argc == 2 && (strcmp(argv[1], "--help") == 0 || strcmp(argv[1], "-h") == 0)) {
        print_help_and_exit(USAGE "\n" OPTIONS_HELP, STATUS_HELP);
    }
    if (argc == 2 && strcmp(argv[1], "--version") == 0) {
        print_help_and_exit("minisign-check " MINISIGN_VERSION_TEXT "\n", "");
    }
    arguments = split_arguments(argc, argv);
    check_arguments(&arguments);
    return (struct check_options) {
        .key_file = arguments.values[KEY_FILE],
        .bare_key = arguments.values[BARE_KEY],
        .signature = arguments.values[SIGNATURE_FILE],
        .directory = arguments.values[IN_DIRECTORY],
        .listed_only = arguments.values[LISTED_ONLY] != NULL,
        .nothing_else = arguments.values[NOTHING_ELSE] != NULL,
        .any_list = arguments.values[ANY_LIST] != NULL,
        .blake2b = arguments.values[BLAKE2B] != NULL,
        .copies = arguments.values[COPIES] != NULL,
        .list = arguments.paths[0],
        .files = arguments.paths + 1,
        .file_count = arguments.count - 1
    };
}
