"""Checks which command lines `minisign-install` accepts, and the messages for those that it rejects, for unreadable files, and
about progress. (tests/command_line/command_line.py is about c/minisign.)"""

import errno
import os

from at_terminal import AtTerminal
from installers import (ARGUMENT_ORDER, CHECK_ARGUMENTS, FAILED, FIRST, LOCK, MISSING_DIRECTORY_ERROR, MISUSED, NAME,
                        NEW_DATA, OLD_DATA, PK, RECORD, REJECTED, TARGET, UNRECORDED, error_text)
from running import expect
from runs import Cases

command_line_cases = Cases()

USAGE = b"usage: minisign-install [OPTION ..] PK DATA SIG TARGET\n"
# The arguments PK DATA SIG TARGET.
PATHS = (PK, "new", "new.sig", TARGET)
# An option with a public key under which no update of the tests is signed.
OTHER_KEY = ("--key", "RWQf6LRCGA9i53mlYecO4IzT51TGPpvWucNSCh1CBM0QTaLn73Y7GFO3")
MISSING_FILE = "No such file or directory (os error 2)"


def check_report(directory, arguments, status, error_output, output=b""):
    """Checks that a run with these arguments exits with this status. Its error output contains `error_output`, and is empty
    if `error_output` is. Its standard output begins with `output`. The run creates no file except the lock. The file `bytes`
    is not UTF-8."""
    directory.put("bytes", b"\xff\n")
    before = os.listdir(directory.path)
    result = directory.run(arguments)
    has_error = error_output in result.stderr and bool(error_output) == bool(result.stderr)
    expect(result.status == status and has_error and result.stdout.startswith(output), result,
           f"expected status {status}, the error {error_output} and the output {output}")
    after = os.listdir(directory.path)
    expect({*after} - {LOCK} == {*before}, f"the directory has {sorted(after)}, expected {sorted(before)}")
    expect(directory.content() == OLD_DATA, f"the target holds {str(directory.content())[:40]}, expected {str(OLD_DATA)[:40]}")


def misuse(name, arguments, argument, reason):
    """Returns a row for `check_report`: an invalid command line. The program prints the error `reason`, about `argument` unless
    that is None, then the usage and a hint."""
    error_output = (
        (error_text(argument, reason) if argument else f"{reason}\n".encode())
        + USAGE
        + b"hint: use --help to list the options\n"
    )
    return f"rejects {name}", arguments, MISUSED, error_output


# Parts of messages.
GIVEN_TWICE = "this option can be given only once"
NOT_WITH_CHECK = "this option cannot be combined with --check"
NOT_WITH_FIRST = "this option cannot be combined with --first"
NEEDS_VALUE = "this option needs a value"
MISSING = "error: missing arguments, expected "
UNEXPECTED = "unexpected argument, expected "
# Descriptions of valid option values, as the program's error messages give them.
FIELD = "timestamp or version"
OCTAL = "three octal digits such as 644"
SIZE = "a number of bytes such as 5000, 100K or 20M"
DURATION = "a number of seconds from 0 to 86400"
# Rows of a name and the arguments of `check_report`. The sizes that end in T or G and are rejected are 2^64 bytes.
REPORTS = (
    *(misuse(f"{option} {value!r}", [option, value, *PATHS], option, f'invalid value "{value}", expected {expected}')
      for option, expected, values in (
          ("--numbering", FIELD, ("versions",)),
          ("--mode", OCTAL, ("75", "00755", "4755", "758")),
          ("--max-size", SIZE, ("5m", "5MB", "K", "16777216T", "17179869184G", "-1K", "+1000000", " 1000000", str(2 ** 64))),
          ("--most", SIZE, ("10X",)),
          ("--wait", DURATION, ("1.5", "86401", "99999", "")),
          ("--name", "a file name", ("",)))
      for value in values),
    # --help and -h are only known without other arguments.
    *(misuse(f"the unknown option {option}", [option, *value, *PATHS], option, "unknown option")
      for option, *value in (("--frist",), ("--num", "version"), ("-h",), ("-f",), ("--name=app",), ("--First",), ("--help",))),
    *(misuse(f"{arguments[0]} twice", [*arguments, *PATHS, *arguments], arguments[0], GIVEN_TWICE)
      for arguments in (FIRST, ("--name", "a"), ("--check",), ("--must-expire",), ("--new-key",), ("--roll-back",), ("--list", "a"),
                        ("--blake2b", "--list", "a"))),
    *(misuse(f"--check with {' '.join(arguments)}", [*arguments, "--check", PK, "new.sig", TARGET], arguments[0], NOT_WITH_CHECK)
      for arguments in (("--mode", "755"), ("--wait", "1"), ("--max-size", "1M"), ("--most", "1M"))),
    misuse("--blake2b without --list", ["--blake2b", *PATHS], "--blake2b", "this option needs --list"),
    misuse("--list without a value", [*PATHS, "--list"], "--list", NEEDS_VALUE),
    *(misuse(f"--first with {option}", ["--first", *PATHS, option], option, NOT_WITH_FIRST)
      for option in ("--new-key", "--roll-back")),
    misuse("--check and --first with --roll-back", ["--first", "--roll-back", *CHECK_ARGUMENTS], "--roll-back",
           NOT_WITH_FIRST),
    misuse("--most with --max-size", ["--most", "1M", "--max-size", "1M", *PATHS], "--max-size", GIVEN_TWICE),
    misuse("an empty command line", [], None, MISSING + "PK DATA SIG TARGET"),
    misuse("three paths", PATHS[:3], None, MISSING + "PK DATA SIG TARGET"),
    misuse("five paths", [*PATHS, "more"], "more", UNEXPECTED + "PK DATA SIG TARGET"),
    misuse("an option after the end of options", ["--", "--first", *PATHS], TARGET, UNEXPECTED + "PK DATA SIG TARGET"),
    misuse("--mode without a value", [*PATHS, "--mode"], "--mode", NEEDS_VALUE),
    misuse("an argument that is not UTF-8", [*PATHS[:3], b"pl\xe4ce"], None, "error: an argument is not UTF-8"),
    misuse("--check with four paths", ["--check", *PATHS], TARGET, UNEXPECTED + "PK SIG TARGET"),
    misuse("--check with two paths", CHECK_ARGUMENTS[:3], None, MISSING + "PK SIG TARGET"),
    misuse("three keys", [*OTHER_KEY * 3, *PATHS[1:]], "--key", "this option can be given only twice"),
    misuse("--key with a key file", [*OTHER_KEY, *PATHS], TARGET, UNEXPECTED + "DATA SIG TARGET"),
    misuse("--key without data", [*OTHER_KEY, "new.sig", TARGET], None, MISSING + "DATA SIG TARGET"),
    misuse("--check --key with three paths", [*OTHER_KEY, *CHECK_ARGUMENTS], TARGET, UNEXPECTED + "SIG TARGET"),
    misuse("--check --key with one path", ["--check", *OTHER_KEY, TARGET], None, MISSING + "SIG TARGET"),
    misuse("--key without a value", [*PATHS, "--key"], "--key", NEEDS_VALUE),
    *(
        (
            f"rejects {description} as the target",
            [*PATHS[:3], path],
            MISUSED,
            error_text(
                path,
                "this path does not end with a file name",
                "give the path of the file to install, not of its directory",
            ),
        )
        for description, path in (
            ("a path that ends with a slash", f"{TARGET}/"),
            ("the current directory", "."),
            ("the parent directory", ".."),
        )
    ),
    (
        "shows control characters of a name as escapes",
        ["none\x1b[31m", *PATHS[1:]],
        FAILED,
        error_text("none\\u{1b}[31m", MISSING_FILE),
    ),
    *((f"reports a missing {description}", [*PATHS[:index], "none", *PATHS[index + 1:]], FAILED, error_text("none", MISSING_FILE))
      for index, description in enumerate(("key file", "data file", "signature file"))),
    ("reports a missing directory", [*PATHS[:3], f"none/{TARGET}"], FAILED, MISSING_DIRECTORY_ERROR),
    (
        "finds no record of a target in the root directory",
        ["--name", TARGET, "--check", PK, "new.sig", "/no-such-target"],
        UNRECORDED,
        error_text("//.no-such-target.number", "no version is recorded yet", "use --first for the first installation"),
    ),
    ("rejects a directory as the key", [".", *PATHS[1:]], FAILED, error_text(".", "Is a directory (os error 21)")),
    ("rejects a signature file as the key", ["new.sig", *PATHS[1:]], REJECTED, b"error: new.sig: "),
    ("rejects a key file as the signature", [PK, "new", PK, TARGET], REJECTED, b"error: key.pub: "),
    ("rejects a key file that is not UTF-8", ["bytes", *PATHS[1:]], REJECTED,
     error_text("bytes", "this file is not UTF-8", ARGUMENT_ORDER)),
    ("rejects a signature file that is not UTF-8", [PK, "new", "bytes", TARGET], REJECTED,
     error_text("bytes", "this file is not UTF-8", ARGUMENT_ORDER)),
    ("hints at a key in place of the signature", [PK, "new", PK, TARGET], REJECTED,
     error_text("key.pub", "this is a public key, not a signature", ARGUMENT_ORDER)),
    ("hints at a signature in place of the key", ["new.sig", *PATHS[1:]], REJECTED,
     error_text("new.sig", "this is a signature, not a public key", ARGUMENT_ORDER)),
    *((f"{word} prints the usage", [word], 0, b"", USAGE) for word in ("--help", "-h")),
    ("--version prints the version", ["--version"], 0, b"", b"minisign-install 0.3.0\n"),
)
command_line_cases.table(*REPORTS)(check_report)


@command_line_cases.table(
    ("takes options after the paths", [*PATHS, "--first", "--mode", "0640"], 0o640),
    ("takes options between the paths", [PK, "--mode", "640", "new", "--max-size", "1000000", "new.sig", "--first", TARGET], 0o640),
    ("takes options before the paths", ["--max-size", "1000000", "--numbering", "timestamp", "--name", TARGET, *PATHS]),
    ("takes --max-size with a unit", ["--max-size", "1M", *PATHS]),
    ("takes the greatest --max-size", ["--max-size", "16777215T", *PATHS]),
    # --most is the former name of --max-size.
    ("takes --most as --max-size", ["--most", str(len(NEW_DATA)), *PATHS]),
    ("takes -- before the paths", ["--", *PATHS]),
    ("takes -- between the paths", [PK, "--first", "new", "--", "new.sig", TARGET]),
    ("takes a name that begins with a dash", ["--", *PATHS[:3], "--first"], dict(name="--first", signed_name="--first")),
    ("takes a file name other than the signed one", [*PATHS[:3], "app", "--name", "app-1.2"],
     dict(name="app", signed_name="app-1.2")),
)
def takes_arguments(directory, arguments, mode=0o751, name=TARGET, signed_name=TARGET):
    """Installs an update with these arguments. `name` is the target, and `signed_name` the file name in the trusted comment."""
    directory.offer(signed_name=signed_name)
    for old_name, new_name in ((TARGET, name), (RECORD, f".{name}.number")):
        os.rename(directory.path_of(old_name), directory.path_of(new_name))
    directory.expect_run(arguments, 0)
    data, record = directory.content(name), directory.content(f".{name}.number")
    expect((data, record) == (NEW_DATA, b"6"), f"the target holds {str(data)[:40]}, and the record {record}, expected version 6")
    directory.expect_mode(mode, name)


@command_line_cases.table("reports that libsodium cannot be initialized")
def reports_failing_libsodium(directory):
    result = directory.install_broken(AT=1, CALLS="sodium_init", ERRNO=errno.EIO)
    error_output = b"error: libsodium could not be initialized\n"
    expect((result.status, result.stderr) == (FAILED, error_output), result, f"expected status {FAILED} and {error_output}")
    expect(directory.content() == OLD_DATA, f"the target holds {str(directory.content())[:40]}, expected {str(OLD_DATA)[:40]}")


@command_line_cases.table("shows progress at a terminal")
def shows_progress(directory):
    """If standard error is a terminal, the run shows there how much was copied and verified."""
    data = b"large" * 1000000
    directory.offer(data=data)
    terminal = AtTerminal([NAME, *PATHS], directory.runner.program, directory.path, {})
    status = terminal.finish()
    expect(not status and b"copied 4 of 4 MiB\r" in terminal.shown and b"verified 4 MiB\r" in terminal.shown,
           f"it exited with status {status} and showed {terminal.shown}, expected status 0 and both lines of progress")
    directory.expect_installed(data, b"6")
