/* SPDX-License-Identifier: MIT */
/* Parses the command line of minisign, and names the default files. */
#include "options.h"

#include "files.h"
#include "shared/platform.h"

/* The version of Minisign that this program imitates, and this program's own version. */
#define VERSION "minisign 0.11\nMinisign in Rattle " MINISIGN_VERSION_TEXT

/* The maximum of -k. */
#define MAX_ROWS 1048576

/* The maximum and the default of -K. No key can require more work than the maximum. */
#define MAX_WORK 1073741824
#define USUAL_WORK 16

static _Noreturn void print_and_exit(const char *text, int status)
{
    puts(text);
    flush_or_exit(stdout);
    exit(status);
}

static _Noreturn void print_usage_and_exit(void)
{
    print_and_exit("Usage:\n"
                   "minisign -G [-f] [-p pubkey_file] [-s seckey_file] [-W]\n"
                   "minisign -R [-s seckey_file] [-p pubkey_file]\n"
                   "minisign -C [-s seckey_file] [-W]\n"
                   "minisign -S [-l] [-x sig_file] [-s seckey_file] [-c untrusted_comment]\n"
                   "            [-t trusted_comment] -m file [file ...]\n"
                   "minisign -V [-H] [-x sig_file] [-p pubkey_file | -P pubkey] [-o] [-q] -m file\n"
                   "\n"
                   "-G                generate a new key pair\n"
                   "-R                recreate a public key file from a secret key file\n"
                   "-C                change/remove the password of the secret key\n"
                   "-S                sign files\n"
                   "-V                verify that a signature is valid for a given file\n"
                   "-H                require input to be prehashed\n"
                   "-l                sign using the legacy format\n"
                   "-m <file>         file to sign/verify\n"
                   "-o                combined with -V, output the file content after verification\n"
                   "-p <pubkey_file>  public key file (default: ./minisign.pub)\n"
                   "-P <pubkey>       public key, as a base64 string\n"
                   "-s <seckey_file>  secret key file (default: ~/.minisign/minisign.key)\n"
                   "-W                do not encrypt/decrypt the secret key with a password\n"
                   "-k <rows>         keep only one of every <rows> rows of scrypt in memory: 16 takes\n"
                   "                  66 MiB instead of 1 GiB, and three times as long (default: 1)\n"
                   "-K <work>         decrypt a key only if that takes at most <work> times as long\n"
                   "                  as with Minisign's default limits (default: 16)\n"
                   "-x <sigfile>      signature file (default: <file>.minisig)\n"
                   "-c <comment>      add a one-line untrusted comment\n"
                   "-t <comment>      add a one-line trusted comment\n"
                   "-q                quiet mode, suppress output\n"
                   "-Q                pretty quiet mode, only print the trusted comment\n"
                   "-f                force. Combined with -G, overwrite a previous key pair\n"
                   "-v                display version number\n",
                   STATUS_ERROR);
}

/* Returns the default secret key file, which is in MINISIGN_CONFIG_DIR if this variable is set, otherwise in
 * ~/.minisign. */
static const char *default_secret_file(void)
{
    const char *directory = getenv("MINISIGN_CONFIG_DIR");
    const char *home = home_directory();

    if (directory != NULL) {
        return join(directory, "/minisign.key", "");
    }
    return home == NULL ? "minisign.key" : join(home, "/.minisign/minisign.key", "");
}

/* Parses a decimal number from 1 to `max`. */
static uint32_t parse_number(const char *text, uint32_t max)
{
    char *end;
    unsigned long number;

    errno = 0;
    number = strtoul(text, &end, 10);
    if (errno != 0 || *text < '0' || *text > '9' || *end != 0 || number < 1 || number > max) {
        print_usage_and_exit();
    }
    return (uint32_t) number;
}

static void set_command(struct options *options, enum command command)
{
    if (options->command != NO_COMMAND && options->command != command) {
        print_usage_and_exit();
    }
    options->command = command;
}

static struct options parse_flags(int argc, char *argv[])
{
    struct options options = { .rows = 1, .work = USUAL_WORK };
    int flag;

    while ((flag = getopt(argc, argv, "GSVRCHhc:fk:K:lm:oP:p:qQs:t:vWx:")) != -1) {
        switch (flag) {
        case 'G': set_command(&options, GENERATE); break;
        case 'R': set_command(&options, RECREATE); break;
        case 'C': set_command(&options, CHANGE); break;
        case 'S': set_command(&options, SIGN); break;
        case 'V': set_command(&options, VERIFY); break;
        case 'H': options.prehashed_only = true; break;
        case 'c': options.comment = optarg; break;
        case 'f': options.force = true; break;
        case 'k': options.rows = parse_number(optarg, MAX_ROWS); break;
        case 'K': options.work = parse_number(optarg, MAX_WORK); break;
        case 'l': options.legacy = true; break;
        case 'm': options.data_file = optarg; break;
        case 'o': options.output = true; break;
        case 'P': options.public_key = optarg; break;
        case 'p': options.public_file = optarg; break;
        case 'q': options.quiet = PRINT_NOTHING; break;
        case 'Q': options.quiet = PRINT_COMMENT; break;
        case 's': options.secret_file = optarg; break;
        case 't': options.trusted_comment = optarg; break;
        case 'v': print_and_exit(VERSION, STATUS_OK);
        case 'W': options.unsealed = true; break;
        case 'x': options.signature_file = optarg; break;
        default: print_usage_and_exit();
        }
    }
    options.further_files = argv + optind;
    return options;
}

/* An option with an empty value counts as not given. */
static const char *null_if_empty(const char *text)
{
    return text == NULL || *text == 0 ? NULL : text;
}

struct options parse_options(int argc, char *argv[])
{
    struct options options = parse_flags(argc, argv);
    bool with_data = options.command == SIGN || options.command == VERIFY;

    if (options.command == NO_COMMAND || (with_data && options.data_file == NULL)
        || (options.command != SIGN && options.further_files[0] != NULL)) {
        print_usage_and_exit();
    }
    options.signature_file = null_if_empty(options.signature_file);
    options.comment = null_if_empty(options.comment);
    options.trusted_comment = null_if_empty(options.trusted_comment);
    if (options.public_file == NULL && options.command != SIGN
        && (options.command != VERIFY || options.public_key == NULL)) {
        options.public_file = "minisign.pub";
    }
    if (options.secret_file == NULL && options.command != VERIFY) {
        options.secret_file = default_secret_file();
    }
    return options;
}
