"""Checks that `install` and `check` of the Python package pass the cases of tests/installer. The function `install` below takes
the arguments of `minisign-install`, calls the package, and prints what the program would print. Where a case starts the program,
this script forks instead, and the child process calls this function, so that the package is loaded only once. `python.py` runs
this script in a Python that has the package installed, with `faulty_calls.c` preloaded.

It prints a line for each case that failed or was skipped; the last line counts the cases. Needs Python 3.9 or later,
minisign and setfacl.
"""

import ctypes.util
import getopt
import os
import signal
import subprocess
import sys
import threading
from unittest import mock

import minisign_proved as minisign

HERE = os.path.dirname(os.path.realpath(__file__))
sys.path += [os.path.join(HERE, "..", name) for name in ("shared", "tool", "installer")]

import test_script
from command_lines import command_line_cases
from interrupted_runs import INITIAL_STATES, CUTS
from downloads import download_cases
from installers import (ALREADY_INSTALLED, ARGUMENT_ORDER, DOWNLOAD_AGAIN, EXPIRED, FAILED, IN_USE, MISUSED, NOT_ON_DISK,
                        OLDER_VERSION, REJECTED, SAME_VERSION, UNRECORDED, Signer)
from list_updates import DOWNLOAD_LIST_AGAIN, LINE_HINT, NO_LIMIT_ERROR, TWICE_HINT
from installer_program import cases_of
from running import expect, run_cases
from runs import InstallerRunner

OFFERS = {minisign.Offer.NEWER: 0, minisign.Offer.THERE: ALREADY_INSTALLED, minisign.Offer.OLDER: OLDER_VERSION}
# The options of `minisign-install`. --most is the former name of --max-size.
OPTIONS = [
    "first", "again", "check", "must-expire", "new-key", "roll-back", "key=", "name=", "list=", "blake2b",
    "numbering=", "mode=", "max-size=", "most=", "wait=",
]
UNITS = {"K": 10, "M": 20}

# The exit statuses of `minisign-install` for errors. For all other errors the status is that of a rejected update.
STATUSES = {
    minisign.OlderUpdate: OLDER_VERSION, minisign.Expired: EXPIRED, minisign.TargetInUse: IN_USE,
    minisign.DirectoryNotSynced: NOT_ON_DISK, minisign.SameNumber: SAME_VERSION,
    **dict.fromkeys((minisign.NoRecord, minisign.DamagedRecord, minisign.KeptByTimestamp, minisign.KeptByVersion), UNRECORDED),
    **dict.fromkeys((minisign.OutOfMemory, minisign.ReadingFailed, minisign.WritingFailed, minisign.RandomSourceFailed), FAILED),
}
# The hints of `minisign-install` for errors of the library. HINTS_OF_CAUSES has its hints for system errors.
HINTS = {
    minisign.NoRecord: "use --first for the first installation", minisign.DamagedRecord: "use --first to install anyway",
    minisign.SameNumber: "use --again to install anyway", minisign.TargetInUse: "use --wait SECONDS to wait for it",
    minisign.OtherFile: "use --name NAME if the update was signed under a name other than {name}",
    minisign.KeptByVersion: "use --numbering version", minisign.KeptByTimestamp: "use --numbering timestamp",
    minisign.DifferentKeyIds: "use the public key of the signer", minisign.DirectoryNotSynced: "run the command again",
    minisign.TooLong: "use --max-size BYTES to accept larger data",
    minisign.LegacyNotAccepted: "have the update signed again, without -l",
    minisign.MissingTrustedComment: "download or copy the file again",
    **dict.fromkeys((minisign.OlderUpdate, minisign.Expired), "download the latest update"),
    **dict.fromkeys((minisign.SignatureRefused, minisign.CommentSignatureRefused, minisign.OtherSize), DOWNLOAD_AGAIN),
    minisign.OtherList: "rename the list if it was signed under another name",
    minisign.MalformedLine: LINE_HINT,
    minisign.ListedTwice: TWICE_HINT,
    minisign.DigestMismatch: "download the file again, or the list if it is older than the file",
    **dict.fromkeys(
        (minisign.NotListed, minisign.BadName), "use --name NAME if the list has the file under a name other than {name}"
    ),
}
NO_NUMBER = {"version": 'omit --numbering version if the comment has a field "timestamp:"',
             "timestamp": 'use --numbering version if the comment has a field "version:"'}
# The errors that `minisign-install` describes in other words than the library.
WORDS = {
    minisign.DifferentKeyIds: "the signature was made with a different key: the key IDs differ",
    minisign.NoNumber: 'the trusted comment has no valid field "{numbering}:"',
    minisign.BadExpiry: 'the trusted comment has an invalid or repeated expires: field',
    minisign.BadSize: 'the trusted comment has an invalid or repeated size: field',
    minisign.OtherSize: "the size of the data is not the one in the trusted comment",
    minisign.DigestMismatch: "the digest of this file is not the one in the list",
    minisign.NotUtf8: "this is not UTF-8 text",
    minisign.RandomSourceFailed: "the system supplied no random bytes",
    minisign.MissingTrustedComment: "this signature is truncated: it has only 2 of 4 lines",
}
# The messages that it prints for malformed keys.
MALFORMED = {
    minisign.BarePublicKeyLength: (
        "a public key has 56 characters, but this has {length}\nhint: copy the second line of the public key file"
    ),
    minisign.BarePublicKeyNotBase64: (
        "this is not a public key: it is not base64\nhint: copy the second line of the public key file"
    ),
}
# With a list, the errors that are reported for the list and not for the signature, and the texts that name a line of the list.
ABOUT_LIST = (
    minisign.SignatureRefused, minisign.NotUtf8, minisign.BadName, minisign.MalformedLine, minisign.NotListed,
    minisign.ListedTwice,
)
LINES = {minisign.MalformedLine: "line {} is malformed", minisign.ListedTwice: "line {} is the second line with this name"}
# For a system error or a file that cannot be used: the beginning of its text, and the hint.
HINTS_OF_CAUSES = {
    "this directory does not exist": "create it first",
    "only the owner of this file can open it": "use chown to change its owner to that of the installed file",
    "this file is too long for a version record": "remove it and use --first to install anyway",
    "another process removed or replaced this lock file": "run the command again",
    "the system does not allow the mode ": "use --mode to choose another mode",
    "another file is mounted": "unmount it, or give the path of another file",
}


def failure(error, target):
    """Returns the error line that `minisign-install` prints for the OSError `error`, and its hint, or None if it has no hint."""
    cause, is_own_text = error.strerror, error.strerror != os.strerror(error.errno)
    if not is_own_text and isinstance(error, FileNotFoundError):
        cause, is_own_text = "this directory does not exist", True
    hint = next((hint for beginning, hint in HINTS_OF_CAUSES.items() if cause.startswith(beginning)), None)
    if cause.startswith("this is "):
        kind = cause if error.filename == target else ""
        hint = (
            "use the path that it points to"
            if "symbolic link" in kind
            else "give the path of a file in it"
            if "directory" in kind
            else "remove it or move it away"
        )
    return f"error: {error.filename}: {cause}" + ("" if is_own_text else f" (os error {error.errno})"), hint


def rejection(data, signature, target, name, list_path, numbering, error):
    """Returns the error line that `minisign-install` prints for an error of the library, and its hint, or None if there is none."""
    file, text = signature, WORDS.get(type(error), str(error)).format(numbering=numbering)
    if isinstance(error, minisign.TooLong) and "1 MiB" in text:
        return f"error: {list_path}: this file is larger than 1 MiB", None
    if list_path is not None and isinstance(error, ABOUT_LIST):
        file, text = list_path, LINES.get(type(error), text).format(error.line)
    elif isinstance(
        error,
        (
            minisign.SignatureRefused,
            minisign.OlderUpdate,
            minisign.OtherSize,
            minisign.TooLong,
            minisign.DigestMismatch,
        ),
    ):
        file = data
    elif STATUSES.get(type(error)) == UNRECORDED:
        file = os.path.join(os.path.dirname(target) or ".", f".{os.path.basename(target)}.number")
    elif STATUSES.get(type(error)) in (FAILED, IN_USE, NOT_ON_DISK, SAME_VERSION):
        file = target
    hint = NO_NUMBER[numbering] if isinstance(error, minisign.NoNumber) else HINTS.get(type(error))
    if list_path is not None and hint == DOWNLOAD_AGAIN:
        hint = DOWNLOAD_LIST_AGAIN
    return f"error: {file}: {text}", hint and hint.format(name=name.replace("\x1b", "\\u{1b}"))


def report(*errors):
    """Prints error lines, and only the last of their hints."""
    hints = [f"hint: {hint}" for _, hint in errors if hint]
    print(*(error for error, _ in errors), *hints[-1:], sep="\n", file=sys.stderr)


def read_text(read, word):
    """Reads a public key, from a file or base64, or a signature. After an error, prints it and ends the program."""
    try:
        return read(word)
    except minisign.MinisignError as error:
        text, status = MALFORMED.get(type(error), str(error)).format(length=len(word)), REJECTED
        if isinstance(error, minisign.TooLong):
            text = f"this file is larger than 1 MiB\nhint: {ARGUMENT_ORDER}"
    except OSError as error:
        text, status = f"{error.strerror} (os error {error.errno})", FAILED
    print(f"error: {word}: {text}", file=sys.stderr)
    sys.exit(status)


def install(words):
    """Does what `minisign-install` does with these arguments, by one call of the package. Prints the error and the hint of the
    program, and returns its exit status."""
    # A second thread, which gets a signal for the process while the installer blocks signals in the first thread.
    threading.Thread(target=threading.Event().wait, daemon=True).start()
    pairs, paths = getopt.gnu_getopt(words, "", OPTIONS)
    options, keys = dict(pairs), [value for name, value in pairs if name == "--key"]
    key = None if keys else paths.pop(0)
    data = None if "--check" in options else paths.pop(0)
    signature, target = paths
    max_size, mode, name = options.get("--max-size", options.get("--most")), options.get("--mode"), options.get("--name")
    numbering, list_path = options.get("--numbering", "timestamp"), options.get("--list")
    if max_size is not None:
        max_size = int(max_size.rstrip("KM")) << UNITS.get(max_size[-1], 0)
    try:
        public_keys = [read_text(minisign.PublicKey.from_base64, text) for text in keys] or read_text(
            minisign.PublicKey.from_file, key
        )
        text = read_text(minisign.Signature.from_file, signature)
        flags = {
            name.replace("-", "_"): f"--{name}" in options
            for name in ("first", "again", "must-expire", "new-key", "roll-back")
        }
        parameters = {**flags, "numbering": numbering, "name": name, "list_path": list_path}
        if "--blake2b" in options:
            parameters["long_digest"] = "blake2b"
        if "--check" in options:
            return OFFERS[minisign.check(public_keys, text, target, **parameters)]
        is_new = minisign.install(public_keys, data, text, target, mode=None if mode is None else int(mode, 8),
                                  most=max_size, wait=int(options.get("--wait", 0)), **parameters)
    except minisign.MinisignError as error:
        status, cause = STATUSES.get(type(error), REJECTED), error.__cause__
        has_cause = status in (FAILED, NOT_ON_DISK) and isinstance(cause, OSError)
        errors = [rejection(data, signature, target, name or os.path.basename(target), list_path, numbering, error)]
        if has_cause:
            # The error itself is printed only if the directory was not synced. For a failed call, the cause says it all.
            errors = [*([] if status == FAILED else errors), failure(cause, target)]
        report(*errors)
        return status
    except ValueError as error:
        expected = "most must be passed with list_path unless data is the path of a regular file"
        expect(str(error) == expected, f"another ValueError: {error}")
        sys.stderr.buffer.write(NO_LIMIT_ERROR)
        return MISUSED
    except OSError as error:
        if list_path is not None and error.filename == list_path:
            print(f"error: {list_path}: {error.strerror} (os error {error.errno})", file=sys.stderr)
        else:
            report(failure(error, target))
        return FAILED
    return 0 if is_new else ALREADY_INSTALLED


# ---- Runs of the program ----

# Cases that are not run, because they test the command line or the messages of a program, which functions do not have.
LEFT_OUT = {
    "shows progress at a terminal", "works with a closed error stream", "installs nothing if an allocation fails",
    "exits normally if its error pipe has no reader", "--check shows only signed text, without control characters",
    "--list --check shows the comment of the list", "docs/INSTALLING.md shows the updater's files",
    "systemd accepts the updater's service and timer", "warns that --mode does not change an installed file",
}
# Cases of command lines that are run all the same, because they pass a name to the function.
INCLUDED = {"takes a name that begins with a dash", "takes a file name other than the signed one"}


def chosen_cases(runner):
    """Returns the cases of tests/installer that test what the functions of the package do too."""
    # Interrupted runs are tried only over the first of INITIAL_STATES, because the cases of `minisign-install` test the same C code
    # over all of them.
    cut_off = {f"recovers from {cut}, over {state}" for state, *_ in INITIAL_STATES[1:] for cut, _ in CUTS}
    # The cases of downloads are left out, because the updater script runs `minisign-install`.
    left_out = LEFT_OUT | cut_off | {name for name, *_ in (*command_line_cases, *download_cases)} - INCLUDED
    cases = [*cases_of(runner)]
    expect(left_out | INCLUDED <= {case[0] for case in cases}, "a name of LEFT_OUT or INCLUDED is not the name of a case")
    return [case for case in cases if case[0] not in left_out]


def run_as_program(words, environment, descriptors):
    """Calls `install` in a forked process as if it were a new program: with the signal handlers of a new Python, and with only the
    standard streams and these descriptors open. Ends the process with its exit status."""
    status = FAILED
    try:
        signal.signal(signal.SIGINT, signal.default_int_handler)
        os.environ.clear()
        os.environ.update(environment)
        for previous, following in zip((2, *descriptors), (*descriptors, os.sysconf("SC_OPEN_MAX"))):
            os.closerange(previous + 1, following)
        status = install(words)
    except SystemExit as error:
        status = error.code
    except KeyboardInterrupt:
        signal.signal(signal.SIGINT, signal.SIG_DFL)
        signal.raise_signal(signal.SIGINT)
    finally:
        os._exit(status)


def run_all(scratch):
    """Runs the cases, and returns the failures and the number of cases."""
    # find_library runs other programs, whose system calls the cases would count. Without it, the package loads libsodium by its
    # usual name.
    ctypes.util.find_library = lambda _: None
    runner = InstallerRunner(__file__, Signer(scratch), scratch)
    runner.preload, popen = os.environ.pop("LD_PRELOAD"), subprocess.Popen

    def start(command, preexec_fn=None, pass_fds=(), **options):
        """Starts a command as Popen does. If it is the program, the forked process runs `run_as_program` and executes nothing."""
        prepare = preexec_fn or (lambda: None)
        if command[0] == runner.program:
            preexec_fn = lambda: (prepare(), run_as_program(command[1:], options["env"], pass_fds))
            options["restore_signals"] = False
        return popen(command, preexec_fn=preexec_fn, pass_fds=pass_fds, **options)

    with mock.patch.object(subprocess, "Popen", start):
        return run_cases(chosen_cases(runner))


if __name__ == "__main__":
    sys.exit(test_script.run_cases("python-installing", run_all))
