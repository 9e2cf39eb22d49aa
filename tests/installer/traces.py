#!/usr/bin/env python3
"""Checks that the program `trace_reader` decides correctly whether a trace of an installer is lawful.

    tests/installer/traces.py [--write] [--program PROGRAM] [WORD ..]

A trace lists what an installer did and what other processes did meanwhile. `trace_reader` prints `lawful` if the installer followed
the rules of minisign_install, otherwise the number of the first item that breaks them. The head of
crates/trace_reader/src/main.rt describes the format.

  * Runs that follow the rules are lawful: complete or cut off, with failed calls, and with changes by other processes.
  * Runs that differ from a lawful one at one call are rejected at this call. The call is missing or swapped with the next one, it
    has no effect, or it has other bytes.

The signatures are made up, because a trace lists the signatures that Ed25519 accepts. With --write, the script writes some of the
cases to crates/trace_reader/stdin, and the expected decisions to crates/trace_reader/stdout, which `rt ci` compares.

PROGRAM is a build of `trace_reader`. By default, it is the program that `rt ci` or `rt run` built. WORD selects the cases whose
names contain it. The last line is `N passed, M failed`.
"""

import argparse
import base64
import hashlib
import os
import subprocess
import sys

HERE = os.path.dirname(os.path.realpath(__file__))
sys.path.append(os.path.join(HERE, "..", "shared"))

import case_selection
from checks import Checks
from needs import Missing

CRATE = os.path.realpath(f"{HERE}/../../crates/trace_reader")
PROGRAM = f"{CRATE}/out/trace_reader"
SECONDS = 60

KEY_ID, KEY = bytes(range(1, 9)), bytes(31) + b"\1"
OTHER_KEY_ID, OTHER_KEY = b"\x09" * 8, b"\x11" * 32
DATA_SIGNATURE = b"\5" * 64
COMMENT_SIGNATURE = b"\6" * 64
OLD_DATA = b"old data"
NEW_DATA = b"new data, longer"
# Made-up inode numbers: the target and the record before the run, and the temporary files for the data and for the new record.
TARGET, RECORD = 1, 2
NEW_FILE, NEW_RECORD = 7, 8
# The letters for options of a run.
FIRST, CHECK, ROLL_BACK, NEW_KEY = "F", "C", "B", "K"
# The positions of words in an item for a call: what the installer reported, with its bytes, and what the call did to
# the files, with the bytes that it wrote.
REPORT, REPORTED_BYTES, EFFECT, WRITTEN_BYTES = 1, 2, 4, 6


def hex_word(octets):
    """Encodes bytes, or None for a missing file, as a word of a trace."""
    return "-" if octets is None else f"[{octets.hex()}]"


def digest(data):
    return hashlib.blake2b(data, digest_size=64).digest()


def record_text(version, data):
    return f"version:{version}\n{KEY.hex()}\n{digest(data).hex()}".encode()


def signature_file(comment):
    first, second = (base64.b64encode(line) for line in (b"ED" + KEY_ID + DATA_SIGNATURE, COMMENT_SIGNATURE))
    return b"untrusted comment: u\n%s\ntrusted comment: %s\n%s\n" % (first, comment, second)


class Run:
    """A trace: the words `head` describe the run, and each item has the words of a call or of a change by another
    process. The methods append items and return the run."""

    def __init__(self, options="-", version=3, update=NEW_DATA, record=record_text(2, OLD_DATA), target=OLD_DATA):
        comment = b"version:%d\tfile:app" % version
        self.version, self.update, self.record, self.signature = version, update, record, signature_file(comment)
        files = [[str(number), hex_word(data)] if data is not None else ["-", "-"]
                 for number, data in ((TARGET, target), (RECORD, record))]
        self.head = [
            options,
            hex_word(KEY_ID + KEY),
            hex_word(OTHER_KEY_ID + OTHER_KEY),
            hex_word(b"app"),
            hex_word(self.signature),
            hex_word(update),
            "100",
            hex_word(record),
            *files[0],
            *files[1],
        ]
        for message, signature in ((DATA_SIGNATURE + comment, COMMENT_SIGNATURE), (digest(update), DATA_SIGNATURE)):
            self.head += ["signed", hex_word(message), hex_word(KEY), hex_word(signature)]
        self.items = []

    def call(self, report, octets=None, number="-", effect="-", inode="-", written=None):
        """A call: the event that the installer reports, with its bytes and its number, and the effect on the files, with the inode
        of the file and the bytes written."""
        self.items.append(["call", report, hex_word(octets), str(number), effect, str(inode), hex_word(written)])
        return self

    def report_done(self, *effects):
        """Calls that report `done`, one for each effect."""
        for effect in effects:
            self.call("done", effect=effect)
        return self

    def other_process(self, *words):
        """A change by another process."""
        self.items.append([*words])
        return self

    def begin(self):
        """Reads the record and the signature file, and verifies the comment."""
        return self.call("record", self.record).call("signature", self.signature, 100).call("accepted")

    def create(self):
        """Removes temporary files of other runs and creates one for the data."""
        return self.report_done("leftovers_removed").call("done", effect="data_created", inode=NEW_FILE)

    def install(self, new_record=None):
        """Copies the data in two pieces and installs it."""
        self.create()
        for piece in (self.update[:5], self.update[5:]):
            self.call("copied", number=len(piece), effect="data_grown", written=piece)
        self.report_done("-").call("piece", self.update).report_done("-").call("accepted").report_done(
            "data_permitted", "data_synced"
        )
        self.call("done", effect="record_created", inode=NEW_RECORD)
        self.call("done", effect="record_written", written=new_record or record_text(self.version, self.update))
        return self.report_done("record_synced", "record_renamed", "names_synced", "data_renamed", "names_synced")

    def request(self):
        return " ".join(self.head + [word for item in self.items for word in item])


def upgrade():
    return Run().report_done("locked").begin().install()


def with_changed_word(index, position, value):
    """Returns an upgrade in which the word at a position of call `index` is another one."""
    run = upgrade()
    run.items[index][position] = value
    return run


def with_swapped_calls(index):
    """Returns an upgrade in which call `index` and the next one are swapped."""
    run = upgrade()
    run.items[index], run.items[index + 1] = run.items[index + 1], run.items[index]
    return run


def without_call(index):
    """Returns an upgrade without call `index`."""
    run = upgrade()
    del run.items[index]
    return run


def without_valid_signature(message):
    """Returns an upgrade in which Ed25519 rejects the signature of the comment or of the data."""
    run = upgrade()
    # The words `signed MESSAGE KEY SIGNATURE` for the comment, and then for the data, are at the end of the head.
    index = {"comment": -8, "data": -4}[message]
    run.head = run.head[:index] + run.head[index:][4:]
    return run


def failed_renaming():
    """Returns a run that renames the record although rename reports an error."""
    run = upgrade()
    run.items = run.items[:18]
    run.items[17][1] = "failed"
    return run.report_done("files_removed")


def lawful_runs():
    reinstallation = Run(version=2, update=OLD_DATA).report_done("locked").begin().call("accepted").call("piece", OLD_DATA)
    reinstallation.call("done", effect="target_opened", inode=TARGET).call("accepted").report_done("target_synced", "names_synced")
    return {
        "upgrade": upgrade(),
        "nothing happened": Run(),
        "cut off after the signature file": Run().report_done("locked").begin(),
        "first installation": Run(FIRST, record=None, target=None).report_done("locked").begin().install(),
        "check": Run(CHECK).begin(),
        "lock in use": Run().other_process("busy", "1", "-").call("in_use"),
        "another process replaces the target": Run()
        .report_done("locked")
        .begin()
        .other_process("target", "9", hex_word(b"other"))
        .install(),
        "copying failed": Run().report_done("locked").begin().create().call("failed").report_done("files_removed"),
        "renaming the record failed": failed_renaming(),
        "already installed": reinstallation,
        "roll-back": Run(ROLL_BACK, version=1)
        .report_done("locked")
        .begin()
        .call("refused")
        .install(record_text(2, NEW_DATA)),
    }


def unlawful_runs():
    """Returns by name runs that break the rules, each with the number of the first item that does. The calls of an upgrade are:
    0 locks the target, 1 reads the record, 2 reads the signature file, 3 verifies the comment, 4 removes temporary files of other
    runs, 5 creates one, 6 to 8 copy the data, 9 and 10 read it back, 11 verifies it, 12 sets the permissions, 13 syncs the file,
    14 to 16 write the new record, 17 renames it, 18 syncs the directory, 19 renames the file, 20 syncs the directory."""
    runs = {
        "record of another version": (with_changed_word(15, WRITTEN_BYTES, hex_word(record_text(4, NEW_DATA))), 15),
        "other data is copied": (with_changed_word(6, WRITTEN_BYTES, hex_word(b"other")), 6),
        "other data is read back": (with_changed_word(9, REPORTED_BYTES, hex_word(b"other")), 9),
        "valid data signature is reported as invalid": (with_changed_word(11, REPORT, "refused"), 11),
        "valid comment signature is reported as invalid": (with_changed_word(3, REPORT, "refused"), 3),
        "invalid comment signature is reported as valid": (without_valid_signature("comment"), 3),
        "invalid data signature is reported as valid": (without_valid_signature("data"), 11),
        "another record is read": (with_changed_word(1, REPORTED_BYTES, hex_word(record_text(1, OLD_DATA))), 1),
        "another signature file is read":
            (with_changed_word(2, REPORTED_BYTES, hex_word(signature_file(b"version:9\tfile:app"))), 2),
        "lock is taken although another run holds it": (Run().other_process("busy", "1", "-").report_done("locked"), 1),
        "another process replaces the record of a locked target":
            (Run().report_done("locked").other_process("record", "9", hex_word(record_text(1, OLD_DATA))), 1),
        "conflicting options": (Run(FIRST + NEW_KEY).report_done("locked"), 0),
        "same version is installed": (Run(version=2).report_done("locked").begin().install(), 4),
        "older version is installed": (Run(version=1).report_done("locked").begin().install(), 4),
        "roll-back records its own version": (
            Run(ROLL_BACK, version=1).report_done("locked").begin().call("refused").install(),
            16,
        ),
        "check that installs": (Run(CHECK).begin().install(), 3),
    }
    calls = upgrade().items
    for index, call in enumerate(calls[:-1]):
        runs[f"call {index} is missing"] = (without_call(index), index)
        if call != calls[index + 1]:
            runs[f"calls {index} and {index + 1} are swapped"] = (with_swapped_calls(index), index)
    for index, call in enumerate(calls):
        if call[EFFECT] != "-":
            runs[f"call {index} has no effect"] = (with_changed_word(index, EFFECT, "-"), index)
    return runs


# The cases that `rt ci` runs.
CI_CASES = ["upgrade", "check", "lock in use", "roll-back", "record of another version", "call 13 is missing"]


def cases():
    """Yields all cases: a name, the line for `trace_reader`, and the expected decision."""
    yield from ((name, run.request(), "lawful") for name, run in lawful_runs().items())
    yield from ((name, run.request(), str(index)) for name, (run, index) in unlawful_runs().items())


def write():
    """Writes the files that `rt ci` compares."""
    requests, decisions = zip(*(case[1:] for case in cases() if case[0] in CI_CASES))
    for name, lines in (("stdin", requests), ("stdout", decisions)):
        with open(f"{CRATE}/{name}", "w", encoding="ascii") as file:
            file.writelines(f"{line}\n" for line in lines)


def main():
    parser = argparse.ArgumentParser(description=__doc__.splitlines()[0])
    parser.add_argument("--write", action="store_true")
    parser.add_argument("--program", default=PROGRAM)
    parser.add_argument("words", nargs="*", metavar="WORD")
    arguments = parser.parse_args()
    if arguments.write:
        write()
        return 0
    checks = Checks()
    try:
        names = {*case_selection.selected((name for name, *_ in cases()), arguments.words)}
        all_cases = [case for case in cases() if case[0] in names]
        if not os.access(arguments.program, os.X_OK):
            raise Missing(f"{arguments.program} is missing: run rt ci")
        text = "".join(f"{request}\n" for _, request, _ in all_cases)
        result = subprocess.run([arguments.program], input=text, capture_output=True, text=True, timeout=SECONDS)
        decisions = result.stdout.splitlines()
        checks.check(result.returncode == 0 and len(decisions) == len(all_cases),
                     f"status {result.returncode} and {len(decisions)} decisions, expected {len(all_cases)}: {result.stderr}")
        for (name, _, expected), decision in zip(all_cases, decisions):
            checks.same(decision, expected, name)
    except (Missing, case_selection.UnknownWord) as error:
        checks.check(False, error)
    return checks.end()


if __name__ == "__main__":
    sys.exit(main())
