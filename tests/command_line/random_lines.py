#!/usr/bin/env python3
"""Checks that `c/minisign`, built with sanitizers, handles random command lines without errors and damages no file.

    tests/command_line/random_lines.py [SEED [NUMBER]]

Each command line has a command, mostly with the files that it needs, and flags, names, comments and passwords, which may be valid
or not. It runs in a directory with keys, signatures, files of other kinds, links and directories. The program must exit with
status 0, 1 or 2, without a report of AddressSanitizer or UndefinedBehaviorSanitizer. Files that the command line does not name must
be unchanged. No file may be incomplete, no secret key lost or readable by others, and no temporary file left. Minisign's own
program must accept the signatures, and accept and reject the same files.

SEED is a number, by default a random one. The script prints it. NUMBER is the number of a single command line to try. All 2,000
command lines take a minute on four cores; after two minutes, no more are started. Prints a line for each failure; the last line is
`N passed, M failed`.

Needs Python 3.9 or later, make, binutils, a C compiler with sanitizers, libsodium with its header and minisign 0.11. It installs
missing packages if it has permission.
"""

import concurrent.futures
import os
import random
import subprocess
import sys
import tempfile
import time
from collections import namedtuple
from functools import partial

HERE = os.path.dirname(os.path.realpath(__file__))
sys.path += [os.path.join(HERE, "..", name) for name in ("shared", "verdicts")]

import needs
import test_script
from command_failures import TEMPORARY, expect_secret
from command_cases import keys_of
from command_line import build_program, reset_signals
from command_running import (DATA, ENCRYPTED_KEY, HOME, OTHER_PUBLIC_KEY, PASSWORD, PLAIN_KEY, PUBLIC_KEY, ProgramPaths,
                             Step, put_files, run_steps)
from process import run_program
from running import IN_MEMORY, Failure, Link, build_preload, expect, files_in
from texts import flip_bit, record_of, text_of

LINE_COUNT = 2000
# After MAX_SECONDS, no more command lines are started. If fewer than MIN_LINES were tried by then, this is a failure.
MAX_SECONDS, MIN_LINES = 110, 400
MAX_SECONDS_PER_LINE = 60
SANITIZER_FLAGS = "-O1 -g -fno-omit-frame-pointer -fsanitize=address,undefined -fno-sanitize-recover=all"
# Leaks are not detected, because the program leaves freeing memory to the system when it exits.
ENVIRONMENT = {"HOME": HOME, "ASAN_OPTIONS": "detect_leaks=0:exitcode=99", "UBSAN_OPTIONS": "exitcode=99"}
# Words in the reports of sanitizers.
REPORTS = (b"Sanitizer", b"runtime error")

# File names in place of the usual ones.
ANY_NAMES = ["data", "more", "empty", "directory", "none", "none/none", "", "link", "dangling", "/dev/null", "x" * 300,
         "data/x", ".", "..", "./data", "odd\x1b\u202ename", os.fsdecode(b"caf\xe9"), "end ", "text", "page", "archive", "utf-16"]
# Names to write to. Reading from some of them would wait forever.
STREAMS = ["/dev/stdout", "/proc/self/fd/1", "/dev/full", "/dev/stderr"]
SECRETS = [PLAIN_KEY, ENCRYPTED_KEY, "link.key", "cut.key", "flipped.key"]
PUBLICS = [PUBLIC_KEY, OTHER_PUBLIC_KEY, "cut.pub", "link.pub"]
SIGNATURES = ["data.minisig", "legacy.minisig", "more.minisig", "cut.minisig"]
COMMENTS = [
    "a comment", "", " ", "a\nb", "a\rb", b"\xff", "\u00e9\u20ac",
    "t" * 1003,
    "t" * 1004,
    "t" * 8173,
    "t" * 8174,
    "tab\there",
    "end ",
]
TYPED_LINES = [PASSWORD + b"\n", b"wrong\n", b"\n", b"", b"\0\n", b"\xff\n", b"x" * 1023 + b"\n", b"x" * 3000 + b"\n", PASSWORD]
LINKS = {"link": Link("data"), "dangling": Link("made"), "link.key": Link(PLAIN_KEY), "link.pub": Link(PUBLIC_KEY)}
# How a command uses a file: reads it, signs it (so it writes NAME.minisig), or writes it.
READ, SIGNED, WRITTEN = "read", "signed", "written"
# The flags of each command that name files: the probability with which a flag is given, the usual names, and the use of the file.
FILE_FLAGS = {
    "G": (("-p", 0.9, ["a.pub", "none", "new/a.pub", PUBLIC_KEY], WRITTEN),
          ("-s", 0.9, ["a.key", "new/a.key", PLAIN_KEY, ENCRYPTED_KEY], WRITTEN)),
    "R": (("-s", 0.9, SECRETS, READ), ("-p", 0.9, ["a.pub", PUBLIC_KEY, "new.pub"], WRITTEN)),
    "C": (("-s", 0.9, SECRETS, WRITTEN),),
    "S": (("-s", 0.95, SECRETS, READ), ("-m", 0.95, ["data", "more", "empty"], SIGNED), ("-p", 0.2, PUBLICS, READ),
          ("-x", 0.4, ["made.minisig", "data.minisig", "dangling"], WRITTEN)),
    "V": (("-m", 0.95, ["data", "more", "empty"], READ), ("-x", 0.7, SIGNATURES, READ), ("-p", 0.7, PUBLICS, READ)),
}
# The files that a command writes if no flag names others.
DEFAULT_OUTPUTS = {"G": {"minisign.pub", "home/.minisign/minisign.key"}, "R": {"minisign.pub"},
              "C": {"home/.minisign/minisign.key"}}


# The files in the directory before a command line runs, a public key in base64, and the contents of secret key files.
InitialState = namedtuple("InitialState", "files public_key secrets")


def initial_files(programs):
    """Returns the `InitialState`, with keys and signatures made by Minisign."""
    keys = keys_of(programs)
    signing = (("-Sm", "data", "more", "-s", PLAIN_KEY), ("-Slm", "data", "-s", PLAIN_KEY, "-x", "legacy.minisig"))
    signed = run_steps(programs.theirs, "", {**keys, **DATA}, map(Step, signing)).files
    signatures = {name: signed[name][1] for name in SIGNATURES[:3]}
    files = {
        **keys,
        **DATA,
        **signatures,
        "directory/kept": b"kept",
        "cut.minisig": signatures["data.minisig"][:150],
        "cut.pub": keys[PUBLIC_KEY][:60],
        "cut.key": keys[PLAIN_KEY][:100],
        # One bit of the key is wrong.
        "flipped.key": text_of(flip_bit(record_of(keys[PLAIN_KEY]))),
        "text": b"a text\nof\nfour\nlines\n",
        "page": b"<!DOCTYPE html>\n<html>\n",
        "archive": bytes.fromhex("1f8b0800") + bytes(40),
        "utf-16": keys[PUBLIC_KEY].decode().encode("utf-16"),
        "end ": b"end",
        "odd\x1b\u202ename": b"odd",
        os.fsdecode(b"caf\xe9"): b"latin",
        "home/.minisign/minisign.key": keys[PLAIN_KEY],
        "minisign.pub": keys[PUBLIC_KEY],
    }
    return InitialState(files, keys[PUBLIC_KEY].split()[-1].decode(), [keys[PLAIN_KEY], keys[ENCRYPTED_KEY]])


class Line:
    """A random command line: `arguments`, the input `typed`, and `outputs`, the names of files that it may write."""

    def __init__(self, public_key, source):
        self.public_key, self.source = public_key, source
        self.command = source.choice("GGRCSSSVVVV")
        self.arguments, self.outputs = [f"-{self.command}"], {*DEFAULT_OUTPUTS.get(self.command, ())}
        self.typed = b"".join(source.choice(TYPED_LINES) for _ in range(source.randint(0, 3)))
        self.add_names()
        if self.command in "GC":
            self.add_encryption()
        self.add_flags()
        if source.random() < 0.03:
            self.arguments.insert(
                source.randint(0, len(self.arguments)), source.choice(["-G", "-S", "-V", "-Z", "-v", "-h", "--", "-"])
            )

    def name_of(self, usual):
        """Returns one of the usual names, with a probability of 20 percent any name."""
        return self.source.choice(usual if self.source.random() < 0.8 else [*ANY_NAMES, *SECRETS, *PUBLICS, *SIGNATURES])

    def add_names(self):
        """Adds flags with file names, mostly those that the command needs."""
        for flag, probability, usual, use in FILE_FLAGS[self.command]:
            if self.source.random() >= probability:
                continue
            name = self.name_of(usual)
            if use == WRITTEN and self.command in "GS" and self.source.random() < 0.05:
                name = self.source.choice(STREAMS)
            self.arguments += [flag, name]
            self.outputs |= {name} if use == WRITTEN else {f"{name}.minisig"} if use == SIGNED else set()
        for _ in range(self.source.choice([0, 0, 0, 1, 3, 40]) if self.command == "S" else 0):
            self.arguments.append(self.name_of(["data", "more", "empty", "text"]))
            self.outputs.add(f"{self.arguments[-1]}.minisig")
        if self.command in "SV" and self.source.random() < 0.12:
            self.arguments += ["-P", self.source.choice([self.public_key, "", "x", "-" * 56, self.public_key[:-1]])]

    def add_encryption(self):
        """Adds -W, or passwords for the key. An encrypted key is rare, because deriving a key takes seconds."""
        if self.source.random() < 0.002:
            self.typed = (PASSWORD + b"\n") * 3
        elif self.source.random() < 0.9:
            self.arguments.append("-W")
        else:
            # The command asks for a new password. The second one differs, so no key is derived.
            self.typed = PASSWORD + b"\n" + b"one\ntwo\n"

    def add_flags(self):
        for flags, probability, values in (("f", 0.5 * (self.command in "GR"), None), ("lHoqQ", 0.1, None), ("ct", 0.2, COMMENTS),
                                     ("kK", 0.05, ["1", "16", "0", "-1", "x", "1048577"])):
            for flag in flags:
                if self.source.random() < probability:
                    self.arguments += [f"-{flag}"] if values is None else [f"-{flag}", self.source.choice(values)]

    def has(self, *flags):
        return any(flag in self.arguments for flag in flags)

    def value_of(self, flag):
        """Returns the argument after a flag, or None."""
        return self.arguments[self.arguments.index(flag) + 1] if flag in self.arguments else None

    def may_have_several_errors(self, directory):
        """Returns true if there may be several errors, of which the two programs report different ones: a name may be that of a
        directory, or a legacy signature be rejected (see "the order of the checks" in docs/DIFFERENCES.md)."""
        return self.has("-H") or any(os.path.isdir(os.path.join(directory, os.fsdecode(word))) for word in self.arguments[1:])

    def run(self, program, directory):
        return run_program([program, *self.arguments], directory, self.typed, MAX_SECONDS_PER_LINE, env=ENVIRONMENT)


def check_files(initial, directory, line):
    """Raises a `Failure` if the command line changed or removed a file that it must keep, or left one that it must not leave."""
    outputs = {os.path.realpath(os.path.join(directory, name)) for name in line.outputs}
    after = {name: state for name, state in files_in(directory).items() if isinstance(state[1], bytes)}
    for name, data in initial.files.items():
        expect(name in after, f"{name!r} was removed")
        expect(after[name][1] == data or os.path.realpath(os.path.join(directory, name)) in outputs, f"{name!r} was changed")
        # `expect_secret` fails unless the file is still a complete secret key. -G may replace the file that -s names by a new key.
        # -C may write to any of the secret keys, also by a link.
        if data in initial.secrets and (name == line.value_of("-s") and line.command != "G" or line.command == "C"):
            expect_secret(after[name][1])
    for name, (mode, data) in after.items():
        older = initial.files.get(name)
        expect(not os.path.basename(name).startswith(TEMPORARY), f"it left {name}")
        expect(not data.startswith(b"untrusted comment: minisign encrypted secret key") or data == older or mode == 0o600,
               f"{name!r} has the mode {mode:o}")
        expect(data != b"" or older == b"", f"{name!r} is empty")


def check_line(programs, initial, line):
    """Runs a command line, and raises a `Failure` unless its results are as the head of this file says."""
    with tempfile.TemporaryDirectory(prefix="random-line-", dir=IN_MEMORY) as directory:
        put_files(directory, {**initial.files, **LINKS})
        ours = line.run(programs.ours, directory)
        expect(ours.status in (0, 1, 2) and not any(word in ours.stderr for word in REPORTS),
               f"it exited with status {ours.status}, expected 0, 1 or 2 without a report, "
               f"and printed {ours.stderr[-1500:].decode(errors='replace')}")
        check_files(initial, directory, line)
        data = line.value_of("-m")
        # If the data is one of the outputs, a later signature may have replaced it.
        if line.command == "S" and ours.status == 0 and not line.has("-v", "-p", "-P", "-x") and data not in (None, *line.outputs):
            theirs = run_program([programs.theirs, "-Vm", data, "-P", initial.public_key], directory, seconds=MAX_SECONDS_PER_LINE)
            expect(theirs.status == 0, "Minisign does not verify what was signed", theirs)
        # The results are compared only for -V, without a flag that Minisign does not have, or that selects another command.
        if (
            line.command == "V"
            and line.arguments.count("-V") == 1
            and not line.has("-k", "-K", "-G", "-S", "-Z", "-v", "-h", "--", "-")
        ):
            theirs = line.run(programs.theirs, directory)
            is_same_verdict = (theirs.status == 0) == (ours.status == 0)
            expect(theirs.status == ours.status or is_same_verdict and line.may_have_several_errors(directory),
                   ours, f"Minisign {theirs}")


def failure_of_line(programs, initial, seed, end, number):
    """Tries a command line. Returns an error, or an empty string, or None if the time `end` has passed."""
    if time.time() > end:
        return None
    line = Line(initial.public_key, random.Random(f"{seed} {number}"))
    try:
        check_line(programs, initial, line)
    except (Failure, subprocess.SubprocessError, OSError) as error:
        return f"line {number} of seed {seed}: {line.arguments!r}, typed {line.typed[:80]!r}: {error}"
    return ""


def run_all(seed, numbers, scratch):
    """Tries the command lines, several at a time. Returns the failures and the number of command lines."""
    programs = ProgramPaths(needs.minisign(), build_program(scratch, f"CFLAGS={SANITIZER_FLAGS}", "C_CALLS="),
                            build_preload(scratch, "fixed_random_and_time"))
    failure_of = partial(failure_of_line, programs, initial_files(programs), seed, time.time() + MAX_SECONDS)
    with concurrent.futures.ProcessPoolExecutor() as pool:
        results = [failure for failure in pool.map(failure_of, numbers) if failure is not None]
    failures = [failure for failure in results if failure]
    minimum = min(MIN_LINES, len(numbers))
    if len(results) < minimum:
        failures.append(f"{len(results)} command lines were tried in {MAX_SECONDS} seconds, expected at least {minimum}")
    return failures, len(results)


def main(words):
    seed = int(words[0]) if words else random.SystemRandom().randrange(2**32)
    numbers = [int(words[1])] if len(words) > 1 else range(LINE_COUNT)
    print(f"seed {seed}", flush=True)
    return test_script.run_cases("random-lines", lambda scratch: run_all(seed, numbers, scratch), RuntimeError)


if __name__ == "__main__":
    reset_signals()
    sys.exit(main(sys.argv[1:]))
