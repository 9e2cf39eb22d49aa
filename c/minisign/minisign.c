/* SPDX-License-Identifier: MIT */
/*
 * The program minisign, which does what Minisign 0.11 does: it has the same options, prompts, messages, files and exit
 * statuses.
 *
 * The library of minisign.h parses and encodes keys and signatures, hashes the data, derives keys from passwords and
 * decides whether a signature is valid. libsodium provides Ed25519, random bytes and memory for secrets. The other
 * files of this directory parse the command line (options), ask for passwords (terminal), decrypt, generate and change
 * keys (keys), sign (signing), verify (verifying), read data (reading), find out where to write a file (destinations),
 * and replace files in one step (replacing).
 */
#include "keys.h"

#include <sodium.h>

#include "shared/platform.h"
#include "shared/progress.h"
#include "shared/streams.h"
#include "signing.h"
#include "verifying.h"

/* Runs the command. Each command flushes its output, and fails if the output cannot be written. */
static int run(const struct options *options)
{
    if (options->command == VERIFY) {
        return verify_file(options);
    }
    allocate_secrets();
    switch (options->command) {
    case GENERATE: return generate_keys(options);
    case RECREATE: return recreate_public_key(options);
    case CHANGE: return change_password(options);
    default: return sign_files(options);
    }
}

int main(int argc, char *argv[])
{
    struct options options;

    if (!reserve_standard_streams()) {
        return STATUS_ERROR;
    }
    if (!arguments_to_utf8(&argc, &argv)) {
        fail_with_hint(NULL, "an argument is not valid Unicode", "if it is a file name, rename the file");
    }
    options = parse_options(argc, argv);
    if (options.quiet != PRINT_ALL) {
        hide_progress();
    }
    if (sodium_init() < 0) {
        fail_as_minisign("Unable to initialize the Sodium library");
    }
    return run(&options);
}
