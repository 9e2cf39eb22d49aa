"""Test cases with faults for `minisign_tool`, which tool_program.py runs. The program is killed at each of its system
calls, each call fails in turn, the disk is full, a file size limit is reached, or the data is larger than the memory.
After each run, every file is the old or the new one, complete. Unless the program was killed, no temporary file is left.
"""

import errno
import itertools
import os
import resource
import shutil
import signal
import subprocess
import tempfile
from dataclasses import dataclass, replace
from functools import partial

import faults
import toy
from faults import TaskFaultRunner, content_or_none
from keygen_runs import PK, SK, check_public, check_secret
from permissions import OTHER_GROUP, OTHER_USER, Replacement, by_nobody, of_other_group, permission_cases
from running import DIRECTORY, NOBODY, Link, WithMode, expect, make_files, write
from sign_runs import FILE, OPEN_KEY, SIG, check_signature
from verify_runs import LEGACY

WRITING_FAILED = toy.WRITING_FAILED.encode()
# The prefix of the names of temporary files.
TEMPORARY = ".minisign_tool-"
# The beginnings of the files that `keygen` writes.
PUBLIC_START, SECRET_START = b"untrusted comment: minisign", b"untrusted comment: rsign"


@dataclass(frozen=True)
class Task(faults.Task):
    """A run in a directory whose files have this mode."""

    mode: int = 0o644
    temporary_prefix = TEMPORARY

    def make(self, directory):
        files = {name: data if isinstance(data, Link) else WithMode(data, self.mode) for name, data in self.files.items()}
        make_files(directory, {"kept": DIRECTORY, **files})
        return self.arguments

    def may_have(self, name, mode, data, files):
        """Returns true if a file may have this mode. A file that existed keeps its mode. A temporary file, even an
        incomplete one, has no more permissions than the file that it replaces, or than a new file of its kind. The
        public key's temporary file is complete before that of the secret key is created. So if there are two, the one
        without a public key is that of the secret key."""
        if not os.path.basename(name).startswith(TEMPORARY):
            return mode == self.mode or name not in self.files or isinstance(data, Link)
        temporary_files = [path for path in files if os.path.basename(path).startswith(TEMPORARY)]
        is_secret = data.startswith(SECRET_START) or (len(temporary_files) == 2 and not data.startswith(PUBLIC_START))
        max_mode = self.mode if {*self.targets} & {*self.files} else 0o600 if is_secret else 0o644
        return not mode & ~max_mode


is_signature = partial(check_signature, b"abc")
KEYGEN, SIGN = ["keygen", PK, SK], ["sign", SK, FILE, SIG]
PAIR = {PK: check_public, SK: check_secret}
OLDER_PAIR = {PK: toy.public_text(), SK: toy.sealed_text(b"older")}
TO_SIGN = {SK: OPEN_KEY, FILE: b"abc"}

REPLACED_PAIR = Task("a pair over an older one", KEYGEN, OLDER_PAIR, PAIR)
NEW_SIGNATURE = Task("a new signature", SIGN, TO_SIGN, {SIG: is_signature})
LINKS = {PK: Link("kept/" + PK), SK: Link("chain"), "chain": Link("./kept/" + SK)}
TASKS = [
    REPLACED_PAIR,
    Task("a new pair", KEYGEN, {}, PAIR),
    Task("a pair through links", KEYGEN, {**LINKS, **{"kept/" + name: text for name, text in OLDER_PAIR.items()}},
         {"kept/" + name: check for name, check in PAIR.items()}, mode=0o604),
    Task("a signature over an older one", SIGN, {**TO_SIGN, SIG: toy.signature_text(b"abc")}, {SIG: is_signature}),
    NEW_SIGNATURE,
    Task("a signature through a dangling link", SIGN, {**TO_SIGN, SIG: Link("kept/" + SIG)}, {"kept/" + SIG: is_signature}),
]
# Files of other users, and their permissions after they were replaced.
OWNERS = [
    ("of another user, replaced by root", Replacement(0o644, 0o644, owners=(OTHER_USER, OTHER_GROUP))),
    ("owned and replaced by nobody", by_nobody(0o664, 0o644)),
    ("of another group", of_other_group(0o664, 0o604)),
    ("of another group that may not do what all others may", of_other_group(0o606, 0o600)),
    ("of another owner", by_nobody(0o664, 0o644, owners=(OTHER_USER, NOBODY))),
    ("of another owner and group", by_nobody(0o666, 0o606, owners=(OTHER_USER, OTHER_GROUP))),
]


class ToolFaultRunner(TaskFaultRunner):
    """Runs `minisign_tool` in new directories. The password `p` is typed twice."""

    def run_in_new_directory(self, case, task, *arguments):
        """Runs a case in a new directory with the files of a task."""
        with tempfile.TemporaryDirectory(dir=self.parent) as directory:
            task.make(directory)
            case(task, directory, *arguments)

    def run(self, directory, arguments, environment=None, program=None, **changes):
        return super().run(directory, arguments, environment, program, **{"typed": b"p\np\n", **changes})

    def expect_unwritten(self, result, _):
        expect(result.status == 1 and result.stderr.endswith(WRITING_FAILED), result)

    def check_failing_calls(self, task, calls, allowed_results, number=errno.EIO):
        """Makes each of these calls fail in turn. A result is a pair of the exit status and the number of new files.
        `allowed_results` returns the allowed ones for the Nth call. If only one result is allowed, and it is an error, the run must
        report that writing failed."""
        success, counter = (0, len(task.targets)), itertools.count(1)

        def check_run(result, directory):
            outcome = (result.status, sum(task.check(directory)))
            allowed = allowed_results(next(counter)) if result.reached else [success]
            is_reported = outcome == success or len(allowed) > 1 or result.stderr.endswith(WRITING_FAILED)
            expect(
                outcome in allowed and is_reported,
                result,
                (
                    f"exit status and number of new files: {outcome}, expected one of {allowed}, and an error that ends"
                    f" with {WRITING_FAILED}"
                ),
            )

        count = self.break_each(task.make, check_run, CALLS=calls, ERRNO=number)
        expect(count or len(allowed_results(1)) > 1, f"the run made none of the calls {calls}, expected at least one")

    def check_taken_names(self, task, directory, count):
        """Checks a run with constant random numbers in a directory where the first `count` names of temporary files are
        taken. It succeeds after up to 40 attempts, fails after 200, and changes none of these files."""
        taken_names = [f"{TEMPORARY}{number:016x}" for number in range(count)]
        for name in taken_names:
            write(directory, name, b"another file")
        result = self.run(directory, task.arguments, {"LD_PRELOAD": self.preload, "ZERO_RANDOM": "1"})
        for name in taken_names:
            expect(
                content_or_none(directory, name) == b"another file",
                f"{name} was changed to {content_or_none(directory, name)!r}",
            )
            os.remove(os.path.join(directory, name))
        outcome, expected = (result.status, sum(task.check(directory))), (0, 2) if count < 99 else (1, 0)
        expect(outcome == expected, result, f"exit status and number of new files: {outcome}, expected {expected}")

    def check_path_that_is_not_utf8(self, task, directory):
        """Checks that a program runs from a path that is not UTF-8."""
        path = os.path.join(os.fsencode(self.work_directory), b"tool\xff")
        shutil.copy(self.program, path)
        result = self.run(directory, [*map(os.fsencode, task.arguments)], program=path)
        expect(result.status == 0 and all(task.check(directory)), result, "expected status 0, and all files to be new")

    def check_memory_for_legacy_signature(self, command, mebibytes=2):
        """Checks that a legacy signature of 1 GiB is rejected with at most this many MiB more than are needed to verify a prehashed
        signature of no data."""
        is_raw = command == "verify-raw"
        with tempfile.TemporaryDirectory(dir=self.parent) as directory:
            for name, algorithm in (("old", b"Ed"), ("new", b"ED")):
                record = toy.signature_record(b"", algorithm=algorithm)
                write(directory, name, record if is_raw else toy.signature_text(b"", record=record))
            make_files(directory, {PK: toy.RECORD if is_raw else toy.public_text(), "nothing": b"", "large": b""})
            os.truncate(os.path.join(directory, "large"), 1 << 30)

            def run_within(data, signature, kibibytes):
                limit = (kibibytes * 1024,) * 2
                with open(os.path.join(directory, data if is_raw else os.devnull), "rb") as file:
                    return self.run(
                        directory,
                        [command, PK, *([] if is_raw else [data]), signature],
                        stdin=file,
                        stdout=subprocess.DEVNULL,
                        preexec_fn=lambda: resource.setrlimit(resource.RLIMIT_AS, limit),
                    )

            needed = next(
                (
                    kibibytes
                    for kibibytes in range(1024, 65536, 256)
                    if run_within("nothing", "new", kibibytes).status == 0
                ),
                None,
            )
            expect(needed is not None, "64 MiB are not enough to verify no data")
            result = run_within("large", "old", needed + 1024 * mebibytes)
            expect(result.status == 1 and result.stderr.endswith(LEGACY.encode()), result, f"expected exit status 1 and {LEGACY!r}")


def cases_of_task(runner, task):
    """Yields the cases of a task: a name, a function, and its arguments. `unchanged` and `all_new` are results as in
    `check_failing_calls`."""
    count = len(task.targets)
    unchanged, all_new = (1, 0), (0, count)
    yield "killed", runner.check_kills
    for number in (errno.ENOSPC, errno.EDQUOT):
        for more, changes in (("", {}), (" half way", {"SHORT": 1})):
            yield f"a write fails with {errno.errorcode[number]}{more}", partial(runner.check_failing_writes, **changes), number
    # The files are synced first. Their directory is synced last, when all files are replaced.
    yield "a sync fails", runner.check_failing_calls, "fsync", lambda nth: [unchanged if nth <= count else (1, count)]
    yield "a sync is not supported", runner.check_failing_calls, "fsync", lambda nth: [
        unchanged if nth <= count else all_new
    ], errno.EINVAL
    yield "a rename fails", runner.check_failing_calls, "rename", lambda nth: [(1, nth - 1)]
    yield "a close fails", runner.check_failing_calls, "close", lambda nth: [all_new]
    yield "no random bytes for the name of a temporary file", runner.check_failing_calls, "getentropy", lambda nth: [unchanged]
    if {*task.targets} & {*task.files}:
        yield "fchmod fails", runner.check_failing_calls, "fchmod", lambda nth: [unchanged]
    for calls in ("open", "read", "statx readlink"):
        yield f"{calls} fails", runner.check_failing_calls, calls, lambda nth: [unchanged, all_new]
    yield "on a full disk", runner.check_full_disk
    yield "the limit on file sizes is exceeded", runner.check_file_size_limit, signal.SIG_DFL, True
    yield "the limit on file sizes is exceeded, SIGXFSZ ignored", runner.check_file_size_limit, signal.SIG_IGN


def cases(program, scratch):
    """Yields all cases: a name, a function, and its arguments."""
    os.chmod(scratch, 0o711)
    runner = ToolFaultRunner(shutil.copy(program, scratch), scratch)
    for task in TASKS:
        for name, run, *arguments in cases_of_task(runner, task):
            yield f"{task.name}, {name}", run, task, *arguments
    yield "a pair over an older one that only its owner may read, killed", runner.check_kills, replace(REPLACED_PAIR, mode=0o600)
    for replaced in OLDER_PAIR:
        def prepare(directory, name=replaced):
            REPLACED_PAIR.make(directory)
            return os.path.join(directory, name)

        for name, *row in permission_cases(runner, prepare, lambda _: KEYGEN, OWNERS):
            yield f"{replaced}: {name}", *row
    for count in (1, 40, 200):
        name = f"{count} names of temporary files are taken"
        yield name, runner.run_in_new_directory, runner.check_taken_names, REPLACED_PAIR, count
    yield "concurrent runs", runner.check_concurrent_runs, NEW_SIGNATURE
    yield "a program whose path is not UTF-8", runner.run_in_new_directory, runner.check_path_that_is_not_utf8, NEW_SIGNATURE
    for command in ("verify", "cat", "verify-raw"):
        yield f"{command} of large data with a legacy signature", runner.check_memory_for_legacy_signature, command
