"""Test cases for the command line of `minisign-check`, and for the keys, signatures and lists that it rejects."""

import os

from check_running import (A, B, LIST, MISUSED, NO_SUCH_FILE, OK, OTHER_SECRET_FILE, PUBLIC_FILE, REJECTED, UNUSABLE,
                           comment_of, entries, entry, errors, shown_comment)
from running import expect, read, write

USAGE = b"usage: minisign-check -p PUBKEY [OPTION ..] LIST [FILE ..]\n"
KEY = ("-p", PUBLIC_FILE)
ONLY_ONCE, NEEDS_VALUE, UNKNOWN = "this option can be given only once", "this option needs a value", "unknown option"
KEY_HINT = "use -p PUBKEY to name the public key file, or -P KEY to give the key itself"
SIGNATURE_HINT = "use -x SIG to name the signature of the list"
DOWNLOAD_HINT = "download the list and its signature again"


def misuse(name, arguments, argument, reason):
    """Returns a case: its name, the arguments, and the error output. `argument` is the one that the error names, or None."""
    return (
        f"rejects {name}",
        arguments,
        errors((argument, reason) if argument else (reason,)) + USAGE + errors("use --help to list the options"),
    )


MISUSES = (
    misuse("an empty command line", [], None, "the public key is missing, expected -p PUBKEY or -P KEY"),
    misuse("a command line without a key", [LIST], None, "the public key is missing, expected -p PUBKEY or -P KEY"),
    misuse("a command line without a list", [*KEY], None, "missing argument, expected LIST"),
    misuse("both -p and -P", [*KEY, "-P", "key", LIST], "-P", "this option cannot be combined with -p"),
    *(
        misuse(f"{option} twice", [*KEY, option, *value, LIST, "a", option, *value], option, ONLY_ONCE)
        for option, *value in (
            ("-p", "k"),
            ("-x", "s"),
            ("--in", "."),
            ("--listed",),
            ("--nothing-else",),
            ("--any-list",),
            ("--blake2b",),
            ("-o",),
        )
        if option != "-p"
    ),
    misuse("-p twice", [*KEY, LIST, *KEY], "-p", ONLY_ONCE),
    misuse("an attached -p twice", [f"-p{PUBLIC_FILE}", LIST, *KEY], "-p", ONLY_ONCE),
    *(misuse(f"{option} without a value", [LIST, option], option, NEEDS_VALUE) for option in ("-p", "-P", "-x", "--in")),
    *(misuse(f"the unknown option {option}", [*KEY, option, LIST], option, UNKNOWN)
      for option in ("--list", "--in=dir", "-h", "-q", "--help", "--version", "-ox", "--Listed", "-V")),
    misuse("--listed with a file", [*KEY, "--listed", LIST, "a"], "--listed", "this option cannot be combined with FILE"),
    misuse("-o without a file", [*KEY, "-o", LIST], "-o", "this option needs exactly one FILE"),
    misuse("-o with two files", [*KEY, "-o", LIST, "a", "b"], "-o", "this option needs exactly one FILE"),
)


def rejects_usage(runner, arguments, error_output):
    """Checks that a run with these arguments prints the error, the usage and a hint."""
    directory = runner.directory_with_list(entries(a=A), {"a": A})
    runner.expect(directory, arguments, MISUSED, b"", error_output)


def prints_help(runner, option, expected_start):
    result = runner.run(runner.runs_directory, [option])
    expect(result.status == OK and result.stdout.startswith(expected_start) and not result.stderr, result)
    with open("/dev/full", "wb") as full:
        result = runner.run(runner.runs_directory, [option], stdout=full)
    expect(result.status == UNUSABLE, result)


ACCEPTED_ARGUMENTS = (
    ("-p before the list", [*KEY, LIST, "a"]),
    ("-p after the files", [LIST, "a", *KEY]),
    ("an attached -p", [f"-p{PUBLIC_FILE}", LIST, "a"]),
    ("-P", ["-P", "KEY", LIST, "a"]),
    ("an attached -P", ["-PKEY", LIST, "a"]),
    ("-x", [*KEY, "-x", "moved.sig", LIST, "a"]),
    ("-- before the list", [*KEY, "--", LIST, "a"]),
    ("-- between list and file", [*KEY, LIST, "--", "a"]),
    ("a path of the list", [*KEY, f"./{LIST}", "a"]),
)


def accepts_arguments(runner, arguments):
    directory = runner.directory_with_list(entries(a=A, b=B), {"a": A})
    if "-x" in arguments:
        os.rename(f"{directory}/{LIST}.minisig", f"{directory}/moved.sig")
    with_key = [runner.key if word == "KEY" else f"-P{runner.key}" if word == "-PKEY" else word for word in arguments]
    runner.expect(directory, with_key, OK, b"a: OK\n", b"")


def accepts_file_after_end_of_options(runner):
    directory = runner.directory_with_list(entry("--listed", A), {"--listed": A})
    runner.expect(directory, [*KEY, LIST, "--", "--listed"], OK, b"--listed: OK\n", b"")


# ---- Keys, signatures and lists that are rejected ----


def rejects_files(runner, change, arguments, status, message):
    """Calls `change` for a directory with a signed list. Checks that a run then prints this error and no result."""
    directory = runner.directory_with_list(entries(a=A), {"a": A})
    if change:
        change(runner, directory)
    result = runner.run(directory, arguments)
    is_expected = result.status == status and result.stderr == message and not result.stdout
    expect(is_expected, result, f"expected status {status} and {message}")


# Each of the following functions returns a function that changes a directory with a signed list.

def replace_file(name, data):
    return lambda runner, directory: write(directory, name, data)


def remove_file(name):
    return lambda runner, directory: os.remove(f"{directory}/{name}")


def sign_again(**options):
    return lambda runner, directory: runner.sign(directory, **options)


def flip_bit_at(name, offset):
    """Flips the lowest bit of the byte at `offset` in a file."""

    def change(_, directory):
        data = bytearray(read(directory, name))
        data[offset] ^= 1
        write(directory, name, bytes(data))

    return change


def change_signature(line, offset=20):
    """Changes a byte on a line of the signature file."""

    def change(_, directory):
        lines = read(directory, f"{LIST}.minisig").split(b"\n")
        letter = b"A" if lines[line][offset:offset + 1] != b"A" else b"B"
        lines[line] = lines[line][:offset] + letter + lines[line][offset + 1:]
        write(directory, f"{LIST}.minisig", b"\n".join(lines))

    return change


def replace_list(text, **options):
    """Replaces the list and signs the new one."""

    def change(runner, directory):
        write(directory, LIST, text)
        runner.sign(directory, **options)

    return change


PLAIN, SIG = [*KEY, LIST, "a"], f"{LIST}.minisig"
ALL = [*KEY, LIST]
LINE_HINT = "see minisign-check(1) for the lines that a list may have"
OTHER_LIST = "the trusted comment does not name the list"
OTHER_KEY, LEGACY = "the signature was made with a different key: the key IDs differ", "Legacy signatures are not accepted"
ANY_LIST = "use --any-list if you know that the list was signed under another name"
MALFORMED = (
    ("an absolute path", entries(a=A) + entry("/a", A), 2),
    ("the parent directory", entry("../a", A) + entries(a=A), 1),
    ("a part .. inside", entries(a=A) + entry("b/../a", A), 2),
    ("an empty part", entries(a=A) + b"\n# comment\n" + entry("b//a", A), 4),
    ("two leading ./", entry("././a", A), 1),
    ("a line of another function", entries(a=A) + b"MD5 (b) = " + b"0" * 32 + b"\n", 2),
    ("a short BLAKE2b digest", entries(a=A) + b"BLAKE2b-256 (b) = " + b"0" * 64 + b"\n", 2),
    ("one space between digits and name", entries(a=A) + entry("b", B, separator=b" "), 2),
    ("a control character in a name", entries(a=A) + entry("b\x1b", B), 2),
    ("a tab in a name", entries(a=A) + entry("b\tc", B), 2),
    ("a zero byte", entries(a=A) + entry("a\0b", A), 2),
    ("a carriage return inside a line", entries(a=A) + entry("b\rc", A), 2),
    ("a word", b"hello\n" + entries(a=A), 1),
    ("an untagged MD5 digest", b"0" * 32 + b"  b\n" + entries(a=A), 1),
    ("a space before an entry", b" " + entries(a=A), 1),
)
FILES = (
    ("a missing list", remove_file(LIST), PLAIN, UNUSABLE, errors((LIST, NO_SUCH_FILE))),
    ("a missing signature", remove_file(SIG), PLAIN, UNUSABLE, errors((SIG, NO_SUCH_FILE), SIGNATURE_HINT)),
    ("a missing key file", remove_file(PUBLIC_FILE), PLAIN, UNUSABLE, errors((PUBLIC_FILE, NO_SUCH_FILE), KEY_HINT)),
    ("a directory as the list", None, [*KEY, "-x", SIG, ".", "a"], UNUSABLE, errors((".", "Is a directory"))),
    ("a missing directory", None, [*KEY, "--in", "none", LIST],
     UNUSABLE, shown_comment(comment_of()) + errors(("none", NO_SUCH_FILE))),
    ("a changed list", flip_bit_at(LIST, 0), PLAIN, REJECTED, errors((LIST, "Signature verification failed"), DOWNLOAD_HINT)),
    (
        "a list with a line added",
        replace_file(LIST, entries(a=A, b=B)),
        PLAIN,
        REJECTED,
        errors((LIST, "Signature verification failed"), DOWNLOAD_HINT),
    ),
    (
        "a changed trusted comment",
        change_signature(2),
        PLAIN,
        REJECTED,
        errors((SIG, "Comment signature verification failed"), DOWNLOAD_HINT),
    ),
    ("a list of another signer", sign_again(secret=OTHER_SECRET_FILE), PLAIN, REJECTED,
     errors((SIG, OTHER_KEY), "use -p or -P to give the public key of the signer")),
    (
        "a legacy signature",
        sign_again(flags=("-l",)),
        PLAIN,
        REJECTED,
        errors((SIG, LEGACY), "have the list signed again, without -l"),
    ),
    ("a comment without file:", sign_again(comment="timestamp:1"), PLAIN, REJECTED, errors((SIG, OTHER_LIST), ANY_LIST)),
    (
        "a comment with another list",
        sign_again(comment=comment_of("SHA256SUMS2")),
        PLAIN,
        REJECTED,
        errors((SIG, OTHER_LIST), ANY_LIST),
    ),
    (
        "a comment with a part of the name",
        sign_again(comment=comment_of("SHA256SUM")),
        PLAIN,
        REJECTED,
        errors((SIG, OTHER_LIST), ANY_LIST),
    ),
    (
        "a comment with the name in another field",
        sign_again(comment=f"name:{LIST}"),
        PLAIN,
        REJECTED,
        errors((SIG, OTHER_LIST), ANY_LIST),
    ),
    ("a changed list with --any-list", flip_bit_at(LIST, 0), [*PLAIN, "--any-list"], REJECTED,
     errors((LIST, "Signature verification failed"), DOWNLOAD_HINT)),
    (
        "an unnamed list signed with another key with --any-list",
        sign_again(secret=OTHER_SECRET_FILE, comment="x"),
        [*PLAIN, "--any-list"],
        REJECTED,
        errors((SIG, OTHER_KEY), "use -p or -P to give the public key of the signer"),
    ),
    ("a key file as the signature", None, [*KEY, "-x", PUBLIC_FILE, LIST], REJECTED,
     errors((PUBLIC_FILE, "this is a public key, not a signature"), SIGNATURE_HINT)),
    (
        "a signature as the key file",
        None,
        ["-p", SIG, LIST],
        REJECTED,
        errors((SIG, "this is a signature, not a public key"), KEY_HINT),
    ),
    ("a short key", None, ["-P", "RWQ", LIST], REJECTED,
     errors(("-P", "a public key has 56 characters, but this has 3"), "copy the second line of the public key file")),
    ("a signature of more than 1 MiB", replace_file(SIG, bytes(1 << 20) + b"x"), PLAIN, REJECTED,
     errors((SIG, "this file is larger than 1 MiB"), SIGNATURE_HINT)),
    ("a key file of more than 1 MiB", replace_file(PUBLIC_FILE, bytes(1 << 20) + b"x"), PLAIN, REJECTED,
     errors((PUBLIC_FILE, "this file is larger than 1 MiB"), KEY_HINT)),
    *((f"a list with {description}", replace_list(text), arguments, REJECTED,
       shown_comment(comment_of()) + errors((LIST, f"line {line} is malformed"), LINE_HINT))
      for description, text, line in MALFORMED for arguments in (PLAIN, ALL)),
    *((f"a list {description}", replace_list(text), arguments, REJECTED, shown_comment(comment_of()) + errors((LIST, reason)))
      for description, text, reason in (("that is not UTF-8", entries(a=A) + b"\xff\n", "this list is not UTF-8"),
                                        ("without entries", b"# nothing\n\n", "this list has no entries"),
                                        ("that is empty", b"", "this list has no entries")) for arguments in (PLAIN, ALL)),
)


def accepts_any_list(runner):
    """Checks that --any-list accepts a list which the trusted comment does not name, with a warning, and a list which
    it names, without."""
    warning = f"warning: {LIST}: the trusted comment does not name this list\n".encode()
    for comment, expected_warning in (("timestamp:1", warning), (comment_of(), b"")):
        directory = runner.directory_with_list(entries(a=A), {"a": A}, comment=comment)
        result = runner.run(directory, [*PLAIN, "--any-list"])
        expect((result.status, result.stdout, result.stderr) == (OK, b"a: OK\n", expected_warning + shown_comment(comment)), result)


def escapes_trusted_comment(runner):
    directory = runner.directory_with_list(entries(a=A), {"a": A}, comment=f"file:{LIST}\t\x1b[31mred")
    result = runner.run(directory, PLAIN)
    expect(result.status == OK and result.stderr == shown_comment(f"file:{LIST}\t\\u{{1b}}[31mred"), result)


def command_line_cases(runner):
    """Yields the names of the cases, with their functions and arguments."""
    for name, *arguments in MISUSES:
        yield name, rejects_usage, runner, *arguments
    yield "prints the help for --help", prints_help, runner, "--help", USAGE
    yield "prints the help for -h", prints_help, runner, "-h", USAGE
    yield "prints the version", prints_help, runner, "--version", b"minisign-check 0."
    for name, arguments in ACCEPTED_ARGUMENTS:
        yield f"accepts {name}", accepts_arguments, runner, arguments
    yield "accepts a file that begins with a dash after --", accepts_file_after_end_of_options, runner
    for name, change, arguments, status, message in FILES:
        title = f"{name}, of one file" if arguments is PLAIN and name.startswith("a list ") else name
        yield f"rejects {title}", rejects_files, runner, change, arguments, status, message
    yield "accepts a list of another name with --any-list, and warns", accepts_any_list, runner
    yield "escapes control characters of the trusted comment", escapes_trusted_comment, runner
