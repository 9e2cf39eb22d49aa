#!/usr/bin/env python3
"""Checks that the function `minisign_install_file` of minisign_installing.h has the right results and messages, and that
it calls the functions that its caller passes as documented.

    tests/installer/install_file.py [WORD ..]

WORD selects the cases whose name contains it. The cases run the program install_file.c, which is linked with the static
libraries and calls the function once. `installer_program.py` tests the same code through `minisign-install`, and
tests/bindings/python.py tests it through the Python package. The mutants in install_file_mutants break the code of
`minisign_install_file`. For each mutant, one case has to fail. Prints a line for each failure; the last line is
`N passed, M failed`.

Needs Python 3.9 or later, make, a C compiler, clang, libsodium with its header, minisign and git.
"""

import base64
import concurrent.futures
import os
import sys
import tempfile
from functools import partial

HERE = os.path.dirname(os.path.realpath(__file__))
sys.path += [os.path.join(HERE, "..", "shared"), os.path.join(HERE, "..", "tool"), os.path.join(HERE, "..", "..", "tools")]

import c_header
import mutants
import needs
import proved
import static_library
import test_script
from installers import EXPIRED_FIELD, LATER_DATA, LOCK, NEW_DATA, OLD_DATA, PK, RECORD, TARGET, Signer
from list_updates import LIST, NEW_LIST, line, offer_list, sha512
from running import Failure, expect, run_case_named, run_cases
from runs import Cases, InstallerRunner
from updates import OTHER_KEY, SIZE_FIELD, UNEXPIRED_FIELD

one_call_cases = Cases()

# The members of `enum minisign_error`, by name without `MINISIGN_`.
ERRORS = {error.name: error.number for error in c_header.all_headers().enums["error"]}
# The constants of minisign_installing.h: results, phases and kinds of messages.
(INSTALLED, FAILED, MISUSE, REJECTED, OLDER, IN_USE, NOT_SYNCED, UNRECORDED, SAME_VERSION, EXPIRED, ALREADY_INSTALLED, TOO_LARGE,
 STOPPED) = range(13)
WAITING, RECEIVING, COMPARING, COPYING, VERIFYING, RENAMING = range(1, 7)
ERROR, CAUSE, HINT, WARNING = range(1, 5)
# The phases of an installation of data from a file, and of data from a function.
FROM_FILE = (COPYING, VERIFYING, RENAMING)
FROM_FUNCTION = (RECEIVING, COPYING, VERIFYING, RENAMING)
# The signature file and the data as messages name them. install_file.c passes no name of the signature file.
SIGNATURE = "NULL"
DATA = "new"


def lines_of(run_result):
    return run_result.stdout.decode(errors="replace").splitlines()


def call(directory, words, result, error="OK", phases=(), messages=(), shown="", **options):
    """Runs install_file.c with these words, and expects that it prints this result, this error, these phases and messages
    (tuples of kind, file, text, errno and, if it is about a line of a list, the number of the line), and no others. If
    `shown` is a version number, the function must also pass this number and the trusted comment to its caller."""
    arguments = [*words, PK, "new.sig", TARGET]
    run_result = directory.run(arguments, **options)
    expected = []
    if shown:
        comment = directory.content("new.sig").split(b"\n")[2].decode()
        expected.append(f"comment {shown} {comment.removeprefix('trusted comment: ')}")
    expected += [f"message {kind}, {file}, {text}, {number}" + "".join(f", line {line}" for line in lines)
                 for kind, file, text, number, *lines in messages]
    expected.append(f"result {result}, error {ERRORS[error]}, phases:{''.join(f' {phase}' for phase in phases)}")
    expect(run_result.status == 0 and lines_of(run_result) == expected, run_result, f"expected {expected}")


def expect_new(directory, data=NEW_DATA, number=b"6"):
    directory.expect_installed(data, number)


def expect_old(directory):
    directory.expect_installed(OLD_DATA, b"5")


@one_call_cases.table(
    ("installs from a path", ["data=new"], FROM_FILE),
    ("installs from a descriptor", ["fd=new"], FROM_FILE),
    ("installs from a function", ["read=new"], FROM_FUNCTION),
    ("prefers a path to a function", ["data=new", "read=fails"], FROM_FILE),
    ("prefers a function to a descriptor", ["fd=key.pub", "read=new"], FROM_FUNCTION),
    ("uses the results of a function with a context", ["data=new", "verify=none", "answer=libsodium"], FROM_FILE),
    ("uses the time of a function", ["data=new", "now=99999999998"], FROM_FILE, dict(more=UNEXPIRED_FIELD)),
    ("installs data that is as large as allowed", ["data=new", f"max={len(NEW_DATA)}"], FROM_FILE),
    ("installs received data that is as large as allowed", ["read=new", f"max={len(NEW_DATA)}"], FROM_FUNCTION),
    ("accepts a wait of a day", ["data=new", "wait=86400"], FROM_FILE),
)
def installs(directory, words, phases, **offered):
    directory.offer(**offered)
    call(directory, words, INSTALLED, phases=phases, shown=6)
    expect_new(directory)
    directory.expect_mode(0o751)


@one_call_cases.table("installs without functions for messages, progress and comment")
def installs_silently(directory):
    call(directory, ["data=new", "silent"], INSTALLED)
    expect_new(directory)


@one_call_cases.table("sets the mode, and warns if it cannot")
def sets_mode(directory):
    call(directory, ["data=new", "mode=0640"], INSTALLED, phases=FROM_FILE, shown=6)
    directory.expect_mode(0o640)
    call(directory, ["data=new", "mode=0640"], ALREADY_INSTALLED, phases=[COMPARING], shown=6)
    call(directory, ["data=new", "mode=0755"], ALREADY_INSTALLED, phases=[COMPARING], shown=6, messages=[
        (WARNING, TARGET, "already installed, so its permissions are unchanged", 0), (HINT, "NULL", "use chmod to change them", 0)])
    call(directory, ["check", "mode=0755"], ALREADY_INSTALLED, phases=[COMPARING], shown=6)
    directory.expect_mode(0o640)


@one_call_cases.table("checks without data")
def checks(directory):
    before = directory.snapshot()
    call(directory, ["check"], INSTALLED, shown=6)
    call(directory, ["check", "read=fails", "data=none"], INSTALLED, shown=6)
    directory.offer(number=4)
    call(directory, ["check"], OLDER, "OLDER_UPDATE", shown=4)
    expect(directory.snapshot()[1].keys() == before[1].keys(), f"a check left {os.listdir(directory.path)}")


@one_call_cases.table(
    (
        "rejects a signature that the function does not accept",
        ["data=new", "verify=none"],
        "COMMENT_SIGNATURE_REFUSED",
        SIGNATURE,
        "Comment signature verification failed",
        "",
    ),
    (
        "rejects a signature that the function with a context does not accept",
        ["data=new", "answer=none"],
        "COMMENT_SIGNATURE_REFUSED",
        SIGNATURE,
        "Comment signature verification failed",
        "",
    ),
    ("rejects other data", ["data=other"], "SIGNATURE_REFUSED", "other", "Signature verification failed", 6),
    (
        "rejects other data that was received",
        ["read=other"],
        "SIGNATURE_REFUSED",
        "NULL",
        "Signature verification failed",
        6,
    ),
)
def rejects(directory, words, error, file, text, shown):
    directory.put("other", LATER_DATA)
    phases = () if not shown else (RECEIVING, COPYING, VERIFYING) if words[0].startswith("read") else (COPYING, VERIFYING)
    call(directory, words, REJECTED, error, phases, [(ERROR, file, text, 0)], shown)
    expect_old(directory)


@one_call_cases.table(
    (
        "reports an expired update",
        ["data=new"],
        EXPIRED,
        "EXPIRED",
        SIGNATURE,
        "the update has expired",
        dict(more=EXPIRED_FIELD),
    ),
    (
        "reports an update that expires now",
        ["data=new", "now=99999999999"],
        EXPIRED,
        "EXPIRED",
        SIGNATURE,
        "the update has expired",
        dict(more=UNEXPIRED_FIELD),
    ),
    (
        "reports that there is no time",
        ["data=new", "now=none"],
        EXPIRED,
        "EXPIRED",
        SIGNATURE,
        "the update has expired",
        dict(more=UNEXPIRED_FIELD),
    ),
    (
        "reports an older update",
        ["data=new"],
        OLDER,
        "OLDER_UPDATE",
        DATA,
        "the update is older than the recorded version",
        dict(number=4),
    ),
    (
        "reports other data of the recorded version",
        ["data=new"],
        SAME_VERSION,
        "SAME_NUMBER",
        TARGET,
        "this version is already recorded, but the installed file is different",
        dict(number=5),
    ),
    (
        "reports another numbering",
        ["data=new", "numbering=1"],
        UNRECORDED,
        "KEPT_BY_TIMESTAMP",
        f"./{RECORD}",
        "the version record holds a timestamp, not a version",
        dict(record=b"timestamp:5"),
    ),
)
def reports(directory, words, result, error, file, text, record=b"5", **offered):
    directory.offer(**offered)
    directory.put(RECORD, record)
    is_read = result in (EXPIRED, OLDER, SAME_VERSION)
    call(directory, words, result, error, [COMPARING] * (result == SAME_VERSION), [(ERROR, file, text, 0)],
         offered.get("number", 6) if is_read else "")
    directory.expect_installed(OLD_DATA, record)


@one_call_cases.table("rolls back")
def rolls_back(directory):
    directory.offer(number=4)
    call(directory, ["data=new", "roll-back"], INSTALLED, phases=FROM_FILE, shown=4)
    expect_new(directory, number=b"5")


@one_call_cases.table("reports a held lock, and waits for it")
def reports_lock(directory):
    with directory.locked():
        messages = [(ERROR, TARGET, "another installation of this file is running", 0)]
        call(directory, ["data=new"], IN_USE, "TARGET_IN_USE", messages=messages)
        call(directory, ["data=new", "wait=1"], IN_USE, "TARGET_IN_USE", [WAITING], messages)
        call(directory, ["data=new", "wait=20", f"stop={WAITING}"], STOPPED, phases=[WAITING])
    call(directory, ["data=new"], INSTALLED, phases=FROM_FILE, shown=6)


@one_call_cases.table(
    *((f"stops in phase {phase}", source, phase, phases[:phases.index(phase) + 1]) for source,
      phases in (("data", FROM_FILE), ("read", FROM_FUNCTION))
      for phase in phases if source == "data" or phase == RECEIVING))
def stops(directory, source, phase, phases):
    """The run removes its temporary files, and target and record are unchanged. The next run installs the update."""
    call(directory, [f"{source}=new", f"stop={phase}"], STOPPED, phases=phases, shown=6)
    expect_old(directory)
    call(directory, ["data=new"], INSTALLED, phases=FROM_FILE, shown=6)
    expect_new(directory)


@one_call_cases.table("stops while it compares")
def stops_comparing(directory):
    directory.put_installed(NEW_DATA, b"6")
    call(directory, ["data=new", f"stop={COMPARING}"], STOPPED, phases=[COMPARING], shown=6)
    directory.expect_installed(NEW_DATA, b"6")


@one_call_cases.table(
    ("reports that a function cannot read", "fails", "Network is down", 100),
    ("fails if a function writes no length", "nothing", "Input/output error", 5),
    ("fails if a function returns a length above the size", "too-long", "Input/output error", 5),
)
def reports_reading(directory, function, text, number):
    call(directory, [f"read={function}"], FAILED, "READING_FAILED", messages=[(CAUSE, "NULL", text, number)], shown=6)
    expect_old(directory)


@one_call_cases.table("reads no more data from a function than the signed size")
def reads_signed_size(directory):
    directory.offer(more=SIZE_FIELD)
    directory.put("new", NEW_DATA + b"more")
    message = [(ERROR, "NULL", "the size of the data is not the one in the trusted comment", 0)]
    call(directory, ["read=new"], REJECTED, "OTHER_SIZE", [RECEIVING], message, 6)
    expect_old(directory)


@one_call_cases.table("reads nothing if the update is installed")
def reads_nothing(directory):
    call(directory, ["data=new"], INSTALLED, phases=FROM_FILE, shown=6)
    call(directory, ["read=fails"], ALREADY_INSTALLED, phases=[COMPARING], shown=6)
    directory.offer(number=5)
    call(directory, ["read=fails"], OLDER, "OLDER_UPDATE",
         messages=[(ERROR, "NULL", "the update is older than the recorded version", 0)], shown=5)
    expect_new(directory)


@one_call_cases.table(("rejects data above the limit", "data"), ("rejects received data above the limit", "read"))
def rejects_large(directory, source):
    call(directory, [f"{source}=new", "max=999"], TOO_LARGE, "READING_FAILED", (), [
         (CAUSE, DATA if source == "data" else "NULL", "the data is larger than the limit", 0)], 6)
    expect_old(directory)


@one_call_cases.table("reports files that cannot be used")
def reports_files(directory):
    missing = [(CAUSE, "none", "No such file or directory", 2)]
    call(directory, ["data=none"], FAILED, "READING_FAILED", messages=missing)
    call(directory, ["fd=none"], FAILED, "READING_FAILED", messages=[(CAUSE, "NULL", "Bad file descriptor", 9)])
    os.mkdir(directory.path_of(LOCK))
    messages = [(CAUSE, f"./{LOCK}", "this is a directory", 0), (HINT, "NULL", "remove it or move it away", 0)]
    call(directory, ["data=new"], FAILED, "READING_FAILED", messages=messages)
    call(directory, ["check"], FAILED, "READING_FAILED", messages=messages)
    expect_old(directory)


@one_call_cases.table("reports an update that cannot be synced, with the cause")
def reports_unsynced(directory):
    directory.put_installed(NEW_DATA, directory.signer.version_record(NEW_DATA, 6))
    broken = directory.preload_environment(BREAK_CALLS="fsync", BREAK_AT="1", BREAK_ERRNO="5")
    call(directory, ["data=new"], NOT_SYNCED, "DIRECTORY_NOT_SYNCED", [COMPARING], [
        (ERROR, TARGET, "the update is installed, but the directory could not be synced to disk", 0),
        (CAUSE, TARGET, "Input/output error", 5)], 6, environment=broken)


@one_call_cases.table(
    *(
        (f"fails if the function with a context writes no answer{suffix}", word)
        for suffix, word in (("", "nothing"), (", for a pipe", "pipe"))
    )
)
def needs_answer(directory, word):
    source = "data=new" if word == "nothing" else "read=new"
    call(directory, [source, "answer=nothing"], FAILED, "READING_FAILED", messages=[(ERROR, TARGET, "reading failed", 0)])
    expect_old(directory)


@one_call_cases.table(*((f"rejects {description}, with {accepting}", line, accepting) for description, line in (
    ("a weak signature of the comment", 3), ("a weak public key", None)) for accepting in ("verify=all", "answer=all")))
def rejects_weak(directory, line, accepting):
    """A key and a signature of small order would be valid for every file."""
    weak = b"\1" + bytes(31)
    if line is None:
        key = base64.b64decode(directory.content(PK).split(b"\n")[1])
        directory.put(PK, b"untrusted comment: weak\n" + base64.b64encode(key[:10] + weak) + b"\n")
    else:
        lines = directory.content("new.sig").split(b"\n")
        lines[line] = base64.b64encode(weak + bytes(32))
        directory.put("new.sig", b"\n".join(lines))
    call(directory, ["data=new", accepting], REJECTED, "COMMENT_SIGNATURE_REFUSED",
         messages=[(ERROR, SIGNATURE, "Comment signature verification failed", 0)])
    expect_old(directory)


@one_call_cases.table("rejects a weak signature of the data, with verify=all")
def rejects_weak_data(directory):
    lines = directory.content("new.sig").split(b"\n")
    record = base64.b64decode(lines[1])
    lines[1] = base64.b64encode(record[:10] + b"\1" + bytes(63))
    directory.put("new.sig", b"\n".join(lines))
    call(directory, ["data=new", "verify=all"], REJECTED, "SIGNATURE_REFUSED", (COPYING, VERIFYING),
         [(ERROR, DATA, "Signature verification failed", 0)], 6)
    expect_old(directory)


# == Lists ==

@one_call_cases.table(
    ("installs a file of a list from a path", ["data=new"], FROM_FILE),
    ("installs a file of a list from a descriptor", ["fd=new"], FROM_FILE),
    ("installs a file of a list from a function", ["read=new", f"max={len(NEW_DATA)}"], FROM_FUNCTION),
    ("installs a file of a list in another directory", ["data=new", f"list-name=somewhere/{LIST}"], FROM_FILE),
    ("installs a file of a list with the choice of a list", ["data=new", "is_list=1"], FROM_FILE),
    ("installs a file of a list whose size is signed", ["data=new"], FROM_FILE, dict(more="\tsize:5")),
    (
        "installs a file of a list of SHA-512",
        ["data=new", "long=2"],
        FROM_FILE,
        dict(listed=f"{sha512(NEW_DATA)}  {TARGET}\n".encode()),
    ),
    (
        "installs a file of a list under another name",
        ["data=new", "name=app"],
        FROM_FILE,
        dict(listed=line(NEW_DATA, "app")),
    ),
)
def installs_listed(directory, words, phases, listed=NEW_LIST, **offered):
    offer_list(directory, listed, **offered)
    words = [f"list={LIST}", *words]
    call(directory, ["check", *words], INSTALLED, shown=6)
    call(directory, words, INSTALLED, phases=phases, shown=6)
    directory.expect_installed_with_record(NEW_DATA, directory.signer.version_record(listed, 6))
    call(directory, words, ALREADY_INSTALLED, phases=[COMPARING], shown=6)


@one_call_cases.table(
    *(
        (f"rejects a list {description}", *row)
        for description, *row in (
            ("with a malformed line", "MALFORMED_LINE", "line 4 is malformed", [4], dict(listed=NEW_LIST + b"text\n")),
            (
                "with 128 digits that mean nothing",
                "MALFORMED_LINE",
                "line 1 is malformed",
                [1],
                dict(listed=f"{sha512(NEW_DATA)}  {TARGET}\n".encode()),
            ),
            (
                "with the name twice",
                "LISTED_TWICE",
                "line 5 is the second line with this name",
                [5],
                dict(listed=NEW_LIST + b"\n" + line(NEW_DATA)),
            ),
            (
                "without the name",
                "NOT_LISTED",
                "the list does not contain this name",
                [],
                dict(listed=line(NEW_DATA, "other")),
            ),
            ("without a byte", "NOT_LISTED", "the list does not contain this name", [], dict(listed=b"")),
            (
                "that is not signed",
                "SIGNATURE_REFUSED",
                "Signature verification failed",
                [],
                dict(listed=NEW_LIST + b"text\n", signed=NEW_LIST),
            ),
            (
                "that is not UTF-8",
                "NOT_UTF8",
                "this is not UTF-8 text",
                [],
                dict(listed=NEW_LIST + b"\xff\n"),
            ),
        )
    )
)
def rejects_list(directory, error, text, number, listed, **offered):
    """A list is rejected before any data is read."""
    directory.offer(**{"signed": listed, "signed_name": LIST, **offered})
    directory.put(LIST, listed)
    message = [(ERROR, LIST, text, 0, *number)]
    for words in (["data=new"], ["read=fails", "max=1"], ["check"]):
        call(directory, [f"list={LIST}", *words], REJECTED, error, messages=message, shown=6)
    expect_old(directory)


@one_call_cases.table("rejects a name that a list cannot contain")
def rejects_list_name(directory):
    offer_list(directory)
    message = [(ERROR, LIST, "a list can only contain relative paths without .. or special characters", 0)]
    call(directory, ["data=new", f"list={LIST}", "name=../app"], REJECTED, "BAD_NAME", messages=message, shown=6)
    expect_old(directory)


@one_call_cases.table("rejects a list of another name")
def rejects_other_list(directory):
    offer_list(directory, signed_name="other")
    message = [(ERROR, SIGNATURE, "the trusted comment does not name the list", 0)]
    call(directory, ["data=new", f"list={LIST}"], REJECTED, "OTHER_LIST", messages=message, shown=6)
    expect_old(directory)


@one_call_cases.table(("rejects data that is not listed", "data"), ("rejects received data that is not listed", "read"))
def rejects_unlisted_data(directory, source):
    """Even with a function that accepts all signatures, the data must have the listed digest."""
    offer_list(directory, line(LATER_DATA))
    for verifying in ("verify=all", "answer=all", "answer=libsodium"):
        call(directory, [f"{source}=new", f"list={LIST}", "max=1000000", verifying], REJECTED, "DIGEST_MISMATCH",
             [*[RECEIVING] * (source == "read"), COPYING, VERIFYING],
             [(ERROR, DATA if source == "data" else "NULL", "the digest of this file is not the one in the list", 0)], 6)
    expect_old(directory)


@one_call_cases.table("rejects a weak signature of a list, with verify=all")
def rejects_weak_list(directory):
    offer_list(directory)
    lines = directory.content("new.sig").split(b"\n")
    record = base64.b64decode(lines[1])
    lines[1] = base64.b64encode(record[:10] + b"\1" + bytes(63))
    directory.put("new.sig", b"\n".join(lines))
    call(directory, ["data=new", f"list={LIST}", "verify=all"], REJECTED, "SIGNATURE_REFUSED",
         messages=[(ERROR, LIST, "Signature verification failed", 0)], shown=6)
    expect_old(directory)


@one_call_cases.table("needs a size limit for data from a function, with a list")
def needs_limit(directory):
    """With a list, a call for data from a function needs a size limit. Without one, it reads nothing. A `size:` field in the
    trusted comment does not help, because it is the size of the list. A check needs no limit, because it does not read the
    data."""
    for more in ("", SIZE_FIELD):
        offer_list(directory, more=more)
        words = [f"list={LIST}", "read=new"]
        call(directory, words, MISUSE, "BAD_OPTION", messages=[
            (ERROR, "NULL", "with a list, data that is not in a regular file needs a maximum size", 0),
            (HINT, "NULL", "use --max-size BYTES to limit the data", 0)])
        expect_old(directory)
        call(directory, [*words, "check"], INSTALLED, shown=6)
    call(directory, [f"list={LIST}", "read=new", f"max={len(NEW_DATA) - 1}"], TOO_LARGE, "READING_FAILED",
         [RECEIVING], [(CAUSE, "NULL", "the data is larger than the limit", 0)], 6)
    expect_old(directory)


@one_call_cases.table("finishes both renames after a signal")
def finishes_renames(directory):
    """A signal whose handler returns does not disturb a run, in any phase."""
    for phase in FROM_FILE:
        directory.reset()
        call(directory, ["data=new", f"SIGTERM={phase}"], INSTALLED, phases=FROM_FILE, shown=6)
        expect_new(directory)


NO_NAME = "this path does not end with a file name"


@one_call_cases.table(*((f"rejects {description}", words, text, error) for description, words, text, *error in (
    ("options without a target", ["without=target"], "the options have no target"),
    ("options without a signature", ["without=signature"], "the options have no signature file"),
    ("options without a key", ["without=key"], "the options have no public key"),
    ("options without a function that verifies", ["without=verify"], "neither of the fields verify and answer is set"),
    ("a mode above 0777", ["mode=1000"], "the mode in the options is above 0777"),
    ("a wait of more than a day", ["wait=86401"], "the wait in the options is longer than a day"),
    ("an empty name", ["name="], "the name in the options is empty"),
    ("a list without a name", ["list=new", "list-name=none"], "the list in the options has no name"),
    ("a list whose name ends with a slash", ["list=new", "list-name=new/"], "the list in the options has no name"),
    ("the choice of a list without a list", ["is_list=1"], "is_list is set, but the options have no list"),
    ("an unknown meaning of 128 digits", ["list=new", "long=1"], None, "BAD_HASH"),
    ("first with roll-back", ["first", "roll-back"], None, "BAD_OPTION"),
    ("a choice that is neither 0 nor 1", ["is_check=2"], None, "BAD_OPTION"),
    ("a choice that is neither 0 nor 1, with data from a function", ["read=new", "is_check=2"], None, "BAD_OPTION"),
    ("an unknown numbering", ["numbering=2"], None, "BAD_NUMBERING"))))
def rejects_misuse(directory, words, text, error):
    before = directory.snapshot()
    run_result = directory.run(["data=new", *words, PK, "new.sig", TARGET])
    lines = lines_of(run_result)
    result_line = f"result {MISUSE}, error {ERRORS[error[0] if error else 'BAD_OPTION']}, phases:"
    has_message = len(lines) == 2 and lines[0].startswith(f"message {ERROR}, NULL, {text or ''}") and lines[0].endswith(", 0")
    expect(has_message and lines[1] == result_line, run_result, f"expected {text} and {result_line}")
    expect(directory.snapshot() == before, "something was changed")


@one_call_cases.table("rejects a target without a name, and a key that was not read")
def rejects_target(directory):
    for path in (f"{TARGET}/", ".", "..", ""):
        run_result = directory.run(["data=new", PK, "new.sig", path])
        lines = lines_of(run_result)
        expected = [f"message {ERROR}, {path}, {NO_NAME}, 0", f"result {MISUSE}, error {ERRORS['BAD_OPTION']}, phases:"]
        expect(lines == expected, run_result, f"expected {expected}")
    directory.put(PK, b"no key")
    run_result = directory.run(["data=new", PK, "new.sig", TARGET])
    expect(lines_of(run_result)[-1] == f"result {MISUSE}, error {ERRORS['PUBLIC_KEY_NOT_READ']}, phases:", run_result)
    expect_old(directory)


@one_call_cases.table("accepts either of two keys, and no other")
def accepts_two_keys(directory):
    directory.put("other.pub", b"untrusted comment: other\n" + base64.b64encode(b"Ed" + bytes(8) + OTHER_KEY) + b"\n")
    for words, key, is_accepted in (
        ([], "other.pub", False),
        (["other=other.pub"], "other.pub", False),
        (["other=other.pub"], PK, True),
        ([f"other={PK}"], "other.pub", True),
    ):
        directory.put_installed()
        run_result = directory.run(["data=new", *words, key, "new.sig", TARGET])
        result, error = (INSTALLED, "OK") if is_accepted else (REJECTED, "DIFFERENT_KEY_IDS")
        expect(f"result {result}, error {ERRORS[error]}," in "\n".join(lines_of(run_result)), words, key, run_result)
        (expect_new if is_accepted else expect_old)(directory)


def build(scratch, directory, *words):
    """Builds the program with the static libraries, and returns its path."""
    program, out = os.path.join(scratch, "install_file"), os.path.join(scratch, "out")
    libraries = [f"{out}/libminisign-installing.a", f"{out}/libminisign.a"]
    static_library.run_make(f"OUT={out}", *words, *libraries)
    static_library.run_or_fail(
        [
            needs.compiler_with_libsodium(),
            "-std=c99", "-Wall", "-Wextra", "-Werror", f"-I{proved.ROOT}/include", "-o", program, f"{HERE}/install_file.c",
            *libraries, "-lsodium",
        ],
        directory,
    )
    return program


def cases_of(runner):
    for name, case, *arguments in one_call_cases:
        yield name, runner.run_case, case, *arguments


def failure_of(scratch, preload, mutant):
    """Tries a mutant. Returns an error if its case passes, otherwise an empty string."""
    copy, directory_of_keys = mutants.copy_sources(scratch, "c", "include"), tempfile.mkdtemp(dir=scratch)
    mutants.apply(mutant, copy)
    program = os.path.join(directory_of_keys, "install_file")
    sources = [f"{copy}/c/install/{name}.c" for name in ("installing", "results", "directory")]
    sources += [f"{copy}/c/shared/{name}.c" for name in ("error_words", "handles", "permissions", "streams", "temporary_files")]
    static_library.run_or_fail(
        [
            needs.compiler_with_libsodium(),
            "-std=c11", "-pthread", f"-I{copy}/c", f"-I{copy}/include", "-o", program, f"{HERE}/install_file.c", *sources,
            f"{scratch}/out/libminisign.a", "-lsodium",
        ]
    )
    runner = InstallerRunner(program, Signer(directory_of_keys), directory_of_keys)
    runner.preload = preload
    try:
        run_case_named(cases_of(runner), mutant.case)
    except Failure:
        return ""
    return f"the case `{mutant.case}` does not notice the mutant {mutant.name}"


def run_all(scratch):
    os.chmod(scratch, 0o711)
    runner = InstallerRunner(build(scratch, None), Signer(scratch), tempfile.mkdtemp(dir=scratch))
    failures, count = run_cases(cases_of(runner))
    if len(sys.argv) < 2:
        tried_mutants = mutants.mutants_of("installer", "install_file_mutants")
        # Each mutant is tried in a process of its own, because cases may change the user ID of the process.
        with concurrent.futures.ProcessPoolExecutor(os.cpu_count() or 1) as pool:
            failures += filter(None, pool.map(partial(failure_of, scratch, runner.preload), tried_mutants))
        count += len(tried_mutants)
    return failures, count


if __name__ == "__main__":
    sys.exit(test_script.run_cases("install-file", run_all))
