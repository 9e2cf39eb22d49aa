/*
 * Calls `minisign_install_file` once, with options and functions that the words choose, and prints what it passed to the
 * functions.
 *
 *     install_file [WORD ..] PK SIG TARGET
 *
 * The words:
 *
 *     data=PATH  fd=PATH  read=PATH        the data: a path, a descriptor, or a function that reads in pieces of 1000 bytes
 *     read=fails|nothing|too-long          a function that fails, writes no length, or writes a length above the size
 *     first  again  check  roll-back       options
 *     other=PK                             a second public key
 *     name=NAME  mode=MODE  max=BYTES  wait=SECONDS
 *     list=PATH                            a signed list; its name is PATH
 *     list-name=NAME                       another name of the list, or none
 *     is_list=NUMBER  long=NUMBER          choices about the list
 *     now=SECONDS  now=none                a function that shows this time, or writes no time
 *     verify=all|none                      a function without context that accepts all signatures, or none
 *     answer=libsodium|all|none|nothing    a function with context that verifies with libsodium, accepts all signatures,
 *                                          accepts none, or writes no answer
 *     stop=PHASE  SIGTERM=PHASE            stops the run in this phase, or sends the signal to itself
 *     silent                               passes no functions for messages, progress and comment
 *     without=FIELD                        leaves out a required field of the options
 *
 * A message is printed as `message KIND, FILE, TEXT, ERRNO`, followed by the number of the line of a list if it has one. The
 * last line is `result STATUS, error ERROR, phases:` with each phase once. The exit status is 0.
 */
#include <errno.h>
#include <fcntl.h>
#include <signal.h>
#include <stdio.h>
#include <stdlib.h>
#include <string.h>
#include <unistd.h>

#include <sodium.h>

#include <minisign_installing.h>

enum { TEXT_BYTES = 1 << 20 };

static uint8_t key_text[TEXT_BYTES], signature[TEXT_BYTES], list[TEXT_BYTES];
/* The values of the words read, answer, verify and now. */
static const char *reading, *answering, *verifying, *clock_word;
static FILE *source;
static int stop_at, signal_at, last_phase;
static char phases[100];

static void read_piece(void *context, uint8_t *bytes, size_t size, size_t *len)
{
    (void) context;
    if (strcmp(reading, "too-long") == 0) {
        *len = size + 1;
        reading = "end";
    } else if (strcmp(reading, "end") == 0) {
        *len = 0;
    } else if (strcmp(reading, "fails") == 0) {
        errno = ENETDOWN;
    } else if (strcmp(reading, "nothing") != 0) {
        *len = fread(bytes, 1, size < 1000 ? size : 1000, source);
    }
}

static int verify(const unsigned char *sig, const unsigned char *m, unsigned long long m_len, const unsigned char *pk)
{
    (void) sig, (void) m, (void) m_len, (void) pk;
    return strcmp(verifying, "all") == 0 ? 0 : -1;
}

static void answer(void *context, const uint8_t *sig, const uint8_t *m, size_t m_len, const uint8_t *pk,
                   enum minisign_answer *result)
{
    if (context != &last_phase || strcmp(answering, "nothing") == 0) {
        return;
    }
    *result = strcmp(answering, "all") == 0
                      || (strcmp(answering, "libsodium") == 0 && crypto_sign_verify_detached(sig, m, m_len, pk) == 0)
                  ? MINISIGN_ANSWER_YES
                  : MINISIGN_ANSWER_NO;
}

static void show_time(void *context, int64_t *now)
{
    (void) context;
    if (strcmp(clock_word, "none") != 0) {
        *now = strtoll(clock_word, NULL, 10);
    }
}

static void show_comment(void *context, uint64_t version, const uint8_t *comment, size_t len)
{
    (void) context;
    printf("comment %llu %.*s\n", (unsigned long long) version, (int) len, (const char *) comment);
}

static void show_phase(void *context, minisign_installing_progress *progress)
{
    char text[20];

    (void) context;
    if (last_phase != (int) progress->phase) {
        last_phase = (int) progress->phase;
        snprintf(text, sizeof text, " %d", last_phase);
        strncat(phases, text, sizeof phases - strlen(phases) - 1);
        if (last_phase == signal_at) {
            raise(SIGTERM);
        }
    }
    progress->goes_on = last_phase != stop_at;
}

static void show_message(void *context, const minisign_installing_message *message)
{
    (void) context;
    printf("message %d, %s, %s, %d", (int) message->kind, message->file == NULL ? "NULL" : message->file,
           message->text, message->system_error);
    if (message->line != 0) {
        printf(", line %llu", (unsigned long long) message->line);
    }
    putchar('\n');
}

static void ignore_signal(int number)
{
    (void) number;
}

static size_t read_text(const char *name, uint8_t *text)
{
    FILE *file = fopen(name, "rb");
    size_t len = file == NULL ? 0 : fread(text, 1, TEXT_BYTES, file);

    if (file != NULL) {
        fclose(file);
    }
    return len;
}

/* Returns the value of a word NAME=VALUE, or NULL. */
static const char *value_of(const char *word, const char *name)
{
    size_t len = strlen(name);

    return strncmp(word, name, len) == 0 && word[len] == '=' ? word + len + 1 : NULL;
}

static void leave_out(minisign_installing_options *options, const char *field)
{
    if (strcmp(field, "target") == 0) {
        options->target = NULL;
    } else if (strcmp(field, "signature") == 0) {
        options->signature = NULL;
    } else if (strcmp(field, "key") == 0) {
        options->key = NULL;
    } else if (strcmp(field, "verify") == 0) {
        options->verify = NULL;
    }
}

static void set_number_option(minisign_installing_options *options, const char *word)
{
    const char *value;

    if ((value = value_of(word, "mode")) != NULL) {
        options->has_mode = 1;
        options->mode = (uint32_t) strtoul(value, NULL, 8);
    } else if ((value = value_of(word, "max")) != NULL) {
        options->has_max_size = 1;
        options->max_size = strtoull(value, NULL, 10);
    } else if ((value = value_of(word, "wait")) != NULL) {
        options->wait = (uint32_t) strtoul(value, NULL, 10);
    } else if ((value = value_of(word, "stop")) != NULL) {
        stop_at = atoi(value);
    } else if ((value = value_of(word, "SIGTERM")) != NULL) {
        signal_at = atoi(value);
        signal(SIGTERM, ignore_signal);
    }
}

static void set_function(minisign_installing_options *options, const char *word)
{
    const char *value;

    if ((value = value_of(word, "read")) != NULL) {
        reading = value;
        source = fopen(value, "rb");
        options->read = read_piece;
    } else if ((value = value_of(word, "verify")) != NULL) {
        verifying = value;
        options->verify = verify;
    } else if ((value = value_of(word, "answer")) != NULL) {
        answering = value;
        options->answer = answer;
    } else if ((value = value_of(word, "now")) != NULL) {
        clock_word = value;
        options->now = show_time;
    } else if (strcmp(word, "silent") == 0) {
        options->message = NULL;
        options->progress = NULL;
        options->signed_comment = NULL;
    }
}

static void set_list(minisign_installing_options *options, const char *word)
{
    const char *value;

    if ((value = value_of(word, "list")) != NULL) {
        options->list = list;
        options->list_len = read_text(value, list);
        options->list_name = value;
    } else if ((value = value_of(word, "list-name")) != NULL) {
        options->list_name = strcmp(value, "none") == 0 ? NULL : value;
    } else if ((value = value_of(word, "is_list")) != NULL) {
        options->choices.is_list = (uint32_t) strtoul(value, NULL, 10);
    } else if ((value = value_of(word, "long")) != NULL) {
        options->choices.long_digest = (uint32_t) strtoul(value, NULL, 10);
    }
}

static void apply_word(minisign_installing_options *options, const char *word)
{
    static minisign_public_key other_key;
    const char *value;

    options->choices.is_first |= strcmp(word, "first") == 0;
    options->choices.again |= strcmp(word, "again") == 0;
    options->choices.is_check |= strcmp(word, "check") == 0;
    options->choices.roll_back |= strcmp(word, "roll-back") == 0;
    if ((value = value_of(word, "is_check")) != NULL) {
        options->choices.is_check = (uint32_t) strtoul(value, NULL, 10);
    } else if ((value = value_of(word, "data")) != NULL) {
        options->data = value;
    } else if ((value = value_of(word, "fd")) != NULL) {
        options->data_fd = open(value, O_RDONLY);
    } else if ((value = value_of(word, "other")) != NULL) {
        if (minisign_read_public_key(key_text, read_text(value, key_text), &other_key) == MINISIGN_OK) {
            options->other_key = &other_key;
        }
    } else if ((value = value_of(word, "name")) != NULL) {
        options->name = value;
    } else if ((value = value_of(word, "numbering")) != NULL) {
        options->choices.numbering = (uint32_t) strtoul(value, NULL, 10);
    } else if ((value = value_of(word, "without")) != NULL) {
        leave_out(options, value);
    }
    set_number_option(options, word);
    set_function(options, word);
    set_list(options, word);
}

int main(int argc, char **argv)
{
    minisign_installing_options options = { 0 };
    minisign_public_key key = { 0 };
    enum minisign_error error = MINISIGN_NOT_BEGUN;
    enum minisign_install_status status;

    if (argc < 4 || sodium_init() < 0) {
        return 2;
    }
    /* If the key cannot be read, it remains zeros, which the function rejects. */
    (void) (minisign_read_public_key(key_text, read_text(argv[argc - 3], key_text), &key) == MINISIGN_OK);
    options.key = &key;
    options.signature = signature;
    options.signature_len = read_text(argv[argc - 2], signature);
    options.target = argv[argc - 1];
    options.verify = crypto_sign_verify_detached;
    options.signed_comment = show_comment;
    options.progress = show_phase;
    options.message = show_message;
    options.context = &last_phase;
    for (int i = 1; i < argc - 3; i++) {
        apply_word(&options, argv[i]);
    }
    status = minisign_install_file(&options, &error);
    printf("result %d, error %d, phases:%s\n", (int) status, (int) error, phases);
    return 0;
}
